//! Every example that the help, the manual page and the two READMEs print, run as it is printed.

use std::collections::BTreeSet;
use std::fs::{self, File};
use std::os::unix::fs::symlink;
use std::path::Path;
use std::process::{Command, Stdio};
use std::time::UNIX_EPOCH;

use super::support::{Scratch, odif, repository};

/// An example, the status with which it ends, and something that it writes to its standard output.
type Example = (&'static str, i32, &'static str);

#[rustfmt::skip]
const EXAMPLES: &[Example] = &[
    ("odif text samples/letters/claim.odif", 0, "Harbour Mutual Insurance\n"),
    ("odif check --json letter.odif | jq .number", 0, "0\n"),
    ("odif survey archive --csv archive.csv --jobs 8", 1, "4 files in "),
    ("echo A0800000 | odif normal --hex - -o - | xxd", 0, "00000000: a000"),
    ("odif check letter.odif", 0, "letter.odif: accepted, "),
    ("odif check --json inbox/*.odif | grep -v accepted", 0, "\"outcome\":\"refused\",\"number\":7,"),
    ("odif check -q letter.odif && echo fine", 0, "fine\n"),
    ("find archive -name '*.odif' -print0 | odif check -0 --files-from -", 1, "archive/claim.odif: accepted, "),
    ("echo A00205 | odif check --hex -", 1, "refused, number 7 at octet 0: "),
    ("odif check --blocks 512 letter.odif", 0, "passed rules 1 to 8"),
    ("odif check --second letter.odif", 0, "the independent reader agrees, in "),
    ("odif date letter.odif", 0, "letter.odif: 1991-04-08\n"),
    ("odif date --first --json inbox/*.odif", 1, "\"date\":\"1991-04-08\","),
    ("echo A010A30EA00C800A313938382D30362D3035 | odif date --hex -", 0, "standard input: 1988-06-05\n"),
    ("odif text --raw letter.odif | sha256sum", 0, "  -\n"),
    ("odif text --utf8=t61 letter.odif", 0, "\n"),
    ("odif text --page 2 samples/letters/annex-d-1.odif", 0, "\n"),
    ("odif text --form-feeds samples/letters/annex-d-1.odif | pr | head", 0, "Page 1\n"),
    ("odif text --strict inbox/*.odif > inbox.txt", 1, ""),
    ("odif text --offsets samples/letters/dated.odif", 0, "135..160\tHarbour Mutual Insurance\n160..184\t12 Quay Street, Bristol\n"),
    ("odif text --offsets --json letter.odif | jq -c '.lines[] | [.sources, .text]'", 0, "[[{\"first\":135,\"past\":160}],\"Harbour Mutual Insurance\\n\"]\n"),
    ("odif trace samples/letters/dated.odif", 0, "the date of the document: 1991-04-08\n          33..43  31 39 39 31 "),
    ("odif trace --line 2 letter.odif", 0, "line 2: page 1, block 1 0 0 "),
    ("odif trace --at 33 samples/letters/dated.odif", 0, "  in the date of the document\n"),
    ("odif trace --check inbox/*.odif", 1, "check: the file, read once more, has the 152 octets of 3 lines"),
    ("odif trace --json letter.odif | jq -c '.lines[].sources[] | [.first, .past]'", 0, "[135,184]\n"),
    ("odif view samples/letters/dated.odif -o dated.html", 0, ""),
    ("odif view --edition 1993 letter.odif -o letter.html", 0, ""),
    ("odif view -o viewer.html", 0, ""),
    ("odif profile letter.odif", 0, "letter.odif: 1991-04-08"),
    ("odif profile --json archive | jq -r 'select(.date != null) | .date'", 0, ""),
    ("odif grep Insurance archive", 0, "archive/claim.odif:1:"),
    ("odif grep -i -l 'quay [0-9]+|harbour' archive inbox", 0, "archive/claim.odif\n"),
    ("odif grep --json Insurance archive | jq -r .block", 0, "1 0 "),
    ("odif catalog archive -o letters.sqlite", 1, "4 files\n2 letters\n"),
    ("odif catalog --files-from list.txt -o letters.sqlite --prune", 1, "4 files\n"),
    ("odif catalog --merge host1.sqlite host2.sqlite -o letters.sqlite", 1, "7 files\n"),
    ("sqlite3 letters.sqlite \"SELECT file, page, block, snippet(search, 0, '[', ']', '..', 8) FROM search JOIN lines ON lines.id = search.rowid JOIN letters ON letters.id = letter WHERE search MATCH 'insurance' AND letters.first = letters.id\"", 0, "[Insurance]"),
    ("odif tree letter.odif | head", 0, "  offset level  item\n"),
    ("odif tree --json letter.odif | jq -r '.items[] | select(.name == \"document-date-and-time\").value'", 0, "1991-04-08\n"),
    ("odif list letter.odif", 0, "element portion  unit"),
    ("odif list --json letter.odif | jq '.matches | length'", 0, "\n"),
    ("odif outline letter.odif", 0, "layout object, "),
    ("odif outline --logical --json samples/letters/claim.odif | jq -r '.outline[].text'", 0, "14 March 1991\n"),
    ("odif order letter.odif", 0, "letter.odif: in the order of class "),
    ("odif order --class B inbox/*.odif", 1, "inbox/dated.odif: in "),
    ("odif order --json letter.odif | jq .classes", 0, "\"B\""),
    ("odif pages letter.odif", 0, "element  kind"),
    ("odif pages --json inbox/*.odif | jq -r '.pages[].verdict'", 0, "non-essential\n"),
    ("odif normal letter.odif -o normal.odif", 0, ""),
    ("odif normal a.odif | cmp - b-normal.odif", 0, ""),
    ("odif normal inbox/*.odif --into normal", 1, ""),
    ("odif make answer.txt -o answer.odif", 0, ""),
    ("odif make page1.txt page2.txt --under '1 3' -o answer.odif", 0, ""),
    ("echo '{\"identifier\":\"1 0 2\",\"portion\":\"0\",\"text\":\"Hi\"}' | odif make --lines - -o hi.odif", 0, ""),
    ("odif text --raw answer.odif | cmp - answer.txt", 0, ""),
    ("odif survey archive", 1, "2 accepted\n2 refused\n"),
    ("odif survey archive --only 7,12 --list | head", 0, "archive/1991, cut.odif\n"),
    ("odif survey archive --order --pages --csv -", 1, ",first_date,order,pages,file_octets\n"),
    ("find archive -newer last.csv -type f | odif survey --files-from - --csv new.csv", 1, "4 files in "),
    ("odif survey --merge host1.csv host2.csv", 1, "7 files in "),
    ("odif same archive", 1, "same  archive/claim.odif\n"),
    ("odif same inbox archive --csv same.csv", 1, "in 1 group\n"),
    ("odif same archive --list -0 | xargs -0 ls -l", 0, " archive/claim.odif\n"),
    ("odif export archive texts", 1, "4 files\n"),
    ("odif export archive texts --utf8 --jobs 8", 1, "4 files\n"),
    ("odif export archive texts --prune", 1, "4 files\n"),
    ("find archive -name '*.odif' | odif export archive letters --files-from -", 1, "3 files\n"),
    ("odif export --verify texts", 0, ""),
    ("odif survey archive --csv archive.csv", 1, "4 files in "),
    ("odif date samples/letters/dated.odif", 0, "samples/letters/dated.odif: 1991-04-08\n"),
    ("odif text --logical samples/letters/annex-d-2.odif", 0, "\n"),
    ("odif survey samples/letters", 1, "6 files in "),
];

/// The lines below `Examples:` in a text.
fn examples_in(text: &str) -> Vec<String> {
    let below = text.split("Examples:\n").skip(1).flat_map(|text| text.lines().take_while(|line| !line.is_empty()));
    below.map(|line| line.trim().to_string()).collect()
}

fn of_help() -> BTreeSet<String> {
    let subcommands = odif(&["--help"]);
    let names = subcommands.text().lines().skip_while(|line| *line != "Commands:").skip(1);
    let names = names.take_while(|line| !line.is_empty()).filter_map(|line| line.split_whitespace().next());
    let names: Vec<&str> = names.filter(|name| !["help", "man", "completions"].contains(name)).collect();
    assert!(names.len() >= 13, "{names:?}");
    let helps = names.iter().map(|name| odif(&[name, "--help"]).text().to_string());
    let mut examples: BTreeSet<String> = helps.flat_map(|text| examples_in(&text)).collect();
    examples.extend(examples_in(subcommands.text()));
    examples
}

fn of_manual() -> BTreeSet<String> {
    let page = odif(&["man"]).text().replace("\\-", "-").replace("\\&", "").replace("\\e", "\\");
    examples_in(&page).into_iter().collect()
}

/// The lines of a page that begin with the command, or ask a catalog, without what is said behind them.
fn of_page(name: &str) -> BTreeSet<String> {
    let page = fs::read_to_string(repository().join(name)).unwrap();
    let lines = page.lines().filter(|line| ["odif ", "sqlite3 "].iter().any(|word| line.starts_with(word)));
    lines.map(|line| line.split(" # ").next().unwrap().trim().to_string()).collect()
}

/// All examples that are printed.
fn printed() -> BTreeSet<String> {
    [of_help(), of_page("README.md"), of_page("samples/README.md")].into_iter().flatten().collect()
}

/// A folder with all that the examples speak of.
fn prepared(name: &str) -> Scratch {
    let scratch = Scratch::new(name);
    symlink(repository().join("samples").canonicalize().unwrap(), scratch.path("samples")).unwrap();
    let sample = |name: &str| fs::read(repository().join("samples/letters").join(name)).unwrap();
    for (name, of) in [
        ("letter.odif", "dated.odif"),
        ("a.odif", "claim.odif"),
        ("inbox/annex.odif", "annex-d-1.odif"),
        ("inbox/cut.odif", "cut-short.odif"),
        ("inbox/dated.odif", "dated.odif"),
        ("archive/1991, cut.odif", "cut-short.odif"),
        ("archive/a claim.odif", "claim.odif"),
        ("archive/claim.odif", "claim.odif"),
    ] {
        scratch.write(name, &sample(of));
    }
    scratch.write("archive/image.png", b"\x89PNG\r\n\x1A\n\0\0");
    scratch.write("last.csv", b"");
    File::options().write(true).open(scratch.path("last.csv")).unwrap().set_modified(UNIX_EPOCH).unwrap();
    for name in ["answer.txt", "page1.txt", "page2.txt"] {
        scratch.write(name, b"Dear Sir,\r\n");
    }
    let before = "odif normal a.odif -o b-normal.odif && odif make answer.txt -o answer.odif
        odif export archive texts; odif survey archive --csv host1.csv; odif survey inbox --csv host2.csv
        odif catalog archive -o host1.sqlite; odif catalog inbox -o host2.sqlite; odif catalog archive -o letters.sqlite
        find archive -type f > list.txt";
    assert_eq!(run(&scratch, before).0, 0);
    scratch
}

/// Runs a line in the folder, with the command of this test: the status, and both outputs.
fn run(scratch: &Scratch, line: &str) -> (i32, String, String) {
    let command = Path::new(env!("CARGO_BIN_EXE_odif")).parent().unwrap();
    let path = format!("{}:{}", command.display(), std::env::var("PATH").unwrap());
    let mut bash = Command::new("bash");
    let bash = bash.args(["-c", line]).current_dir(scratch.path("")).env("PATH", path).stdin(Stdio::null());
    let output = bash.output().unwrap();
    let text = |octets: Vec<u8>| String::from_utf8(octets).unwrap();
    (output.status.code().unwrap(), text(output.stdout), text(output.stderr))
}

#[test]
fn every_example_is_known() {
    let printed = printed();
    assert_eq!(of_help(), of_manual(), "the manual page has the examples of the help");
    let known: BTreeSet<String> = EXAMPLES.iter().map(|(line, ..)| (*line).to_string()).collect();
    let unknown: Vec<_> = printed.difference(&known).collect();
    assert!(unknown.is_empty(), "these are not run: {unknown:#?}");
}

/// What an example does else than it should in a copy of the prepared folder, if anything.
fn fault(prepared: &Scratch, &(line, status, written): &Example) -> Option<String> {
    let scratch = Scratch::new("examples-run");
    let copied = Command::new("cp").arg("-a").arg(prepared.path(".")).arg(scratch.path("")).status();
    assert!(copied.is_ok_and(|status| status.success()));
    let (ended, out, told) = run(&scratch, line);
    let is_wrong = ["No such file", "not found", "error", "annot "].iter().any(|word| told.contains(word));
    let is_so = ended == status && out.contains(written) && !is_wrong;
    (!is_so).then(|| format!("{line}\nended with {ended}, not {status}\n{out}{told}"))
}

#[test]
fn every_example_does_as_it_is_printed() {
    let (printed, prepared) = (printed(), prepared("examples"));
    let examples = EXAMPLES.iter().filter(|(line, ..)| printed.contains(*line));
    let faults: Vec<String> = examples.filter_map(|example| fault(&prepared, example)).collect();
    assert!(faults.is_empty(), "{}", faults.join("\n"));
}
