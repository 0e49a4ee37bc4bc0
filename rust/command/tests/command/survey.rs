//! `odif survey` over folders with all that can lie in them.

use std::fs;
use std::os::unix::fs::symlink;
use std::os::unix::net::UnixListener;
use std::process::{Command, Stdio};
use std::thread;
use std::time::Duration;

use super::support::{Scratch, command, letter, limited, odif, odif_with};

/// A folder with two good letters, three refused ones, and nothing unreadable.
fn archive(name: &str) -> Scratch {
    let scratch = Scratch::new(name);
    scratch.write("a/good-1.odif", &letter(b"one"));
    scratch.write("a/b/good-2.odif", &letter(b"two"));
    scratch.write("a/cut.odif", &letter(b"three")[..30]);
    scratch.write("empty.odif", b"");
    scratch.write("z,\"z\".odif", b"\xA0\x00\xA4\x00");
    scratch
}

#[test]
fn counts_and_first_files() {
    let scratch = archive("survey-counts");
    let folder = scratch.word("");
    let run = odif(&["survey", &folder]);
    assert_eq!(run.status, 1);
    let text = run.text().replace(&folder, "");
    let (first, rest) = text.split_once('\n').unwrap();
    assert!(first.starts_with("5 files in ") && first.ends_with(" a second"), "{first}");
    let wanted = "2 accepted
3 refused
  number 7, 1 file: a header, a value or a closing mark passes its limit, or an indefinite item reaches it unclosed
    1 file: text unit, item A3, the value of an item passes its limit
      a/cut.odif at octet 21
  number 10, 1 file: no element begins with this octet
    1 file: item A4, no element begins with this octet
      z,\"z\".odif at octet 2
  number 11, 1 file: the document profile is not first, stands again later, or the stream is empty
    1 file: the stream is empty
      empty.odif at octet 0
0 unreadable
";
    assert_eq!(rest, wanted);
}

#[test]
fn one_line_of_csv_a_file_in_order_with_any_number_of_jobs() {
    let scratch = archive("survey-csv");
    for number in 0..300 {
        scratch.write(&format!("more/{number}.odif"), &letter(b"more")[..number % 41]);
    }
    let folder = scratch.word("");
    let mut written = Vec::new();
    for jobs in ["1", "2", "7"] {
        let csv = scratch.word("survey.csv");
        let run = odif(&["survey", &folder, "--csv", &csv, "--jobs", jobs]);
        assert_eq!(run.status, 1);
        assert!(run.text().starts_with("305 files in "), "the CSV file itself is left out: {}", run.text());
        written.push(fs::read_to_string(&csv).unwrap().replace(&folder, ""));
    }
    assert_eq!(written[0], written[1]);
    assert_eq!(written[0], written[2]);
    let lines: Vec<&str> = written[0].lines().collect();
    assert_eq!(lines.len(), 306);
    assert_eq!(
        lines[0],
        "file,outcome,number,place,octets,headers,elements,reason,detail,kind,item,foreign,first_date,file_octets"
    );
    assert_eq!(lines[1], "a/b/good-2.odif,accepted,0,0,39,11,3,,,,,,,");
    let cut = "a/cut.odif,refused,7,21,30,7,0,the value of an item passes its limit,the item A3 says that its value has \
        18 octets; up to the end of the stream there is room for 7,text unit,A3,,,";
    assert_eq!(lines[2], cut);
    let last = "\"z,\"\"z\"\".odif\",refused,10,2,4,2,0,no element begins with this octet,no element begins with octet A4,,A4,,,";
    assert_eq!(*lines.last().unwrap(), last);
}

#[test]
fn csv_on_standard_output() {
    let scratch = archive("survey-stdout");
    let run = odif(&["survey", &scratch.word("a"), "--csv", "-"]);
    assert_eq!(run.text().lines().count(), 4);
    assert!(run.stderr.starts_with("3 files in "), "{}", run.stderr);
}

#[test]
fn json() {
    let scratch = archive("survey-json");
    let folder = scratch.word("");
    let run = odif(&["survey", "--json", &folder]);
    assert_eq!(run.status, 1);
    let json = run.text().replace(&folder, "");
    assert!(json.starts_with("{\"files\":5,\"listed\":5,\"seconds\":"), "{json}");
    assert!(json.contains("\"accepted\":2,\"refused\":3,\"unreadable\":0,\"numbers\":[{\"number\":7,"), "{json}");
    assert!(json.contains("\"item\":\"A3\",\"count\":1,\"first\":[{\"file\":\"a/cut.odif\",\"place\":21}]}"), "{json}");
}

#[test]
fn unreadable_files_are_counted_and_never_stop_it() {
    let scratch = archive("survey-unreadable");
    symlink("nowhere", scratch.path("dangling.odif")).unwrap();
    symlink(".", scratch.path("a/around")).unwrap();
    symlink("../a/good-1.odif", scratch.path("a/link.odif")).unwrap();
    let _socket = UnixListener::bind(scratch.path("s")).unwrap();
    let folder = scratch.word("");
    let run = odif(&["survey", &folder]);
    assert_eq!(run.status, 2);
    let text = run.text().replace(&folder, "");
    assert!(text.contains("\n3 accepted\n3 refused\n"), "{text}");
    assert!(text.contains("2 unreadable\n    dangling.odif: No such file or directory (os error 2)\n"), "{text}");
    assert!(text.ends_with("    s: neither a file nor a folder\n"), "{text}");
}

#[test]
fn more_jobs_than_files() {
    let scratch = archive("survey-jobs");
    let run = odif(&["survey", "--jobs", "1000000000", &scratch.word("")]);
    assert_eq!(run.status, 1);
    assert!(
        run.text().contains("\n2 accepted\n3 refused\n") && run.text().ends_with("\n0 unreadable\n"),
        "{}",
        run.text()
    );
}

#[test]
fn a_huge_file_costs_no_more_than_its_front() {
    let scratch = Scratch::new("survey-huge");
    scratch.write_huge("huge.odif");
    let run = odif(&["survey", &scratch.word("")]);
    assert_eq!(run.status, 1);
    assert!(run.text().contains("number 1, 1 file: the stream is over"), "{}", run.text());
}

#[test]
fn the_first_few_and_how_many_more() {
    let scratch = Scratch::new("survey-first");
    for number in 0..12 {
        scratch.write(&format!("{number:02}.odif"), b"");
    }
    let run = odif(&["survey", &scratch.word("")]);
    assert!(run.text().contains("02.odif at octet 0\n      and 9 more\n"), "{}", run.text());
    let run = odif(&["survey", "--first", "11", &scratch.word("")]);
    assert!(run.text().contains("10.odif at octet 0\n      and 1 more\n"), "{}", run.text());
}

#[test]
fn good_empty_missing_and_several_folders() {
    let scratch = Scratch::new("survey-folders");
    fs::create_dir(scratch.path("none")).unwrap();
    scratch.write("one/a.odif", &letter(b"a"));
    scratch.write("two/b.odif", &letter(b"b"));
    let run = odif(&["survey", &scratch.word("one"), &scratch.word("two"), &scratch.word("two/b.odif")]);
    assert_eq!(run.status, 0);
    assert!(run.text().contains("\n2 accepted\n0 refused\n0 unreadable\n"), "each file once: {}", run.text());
    let run = odif(&["survey", &scratch.word("none")]);
    assert_eq!(run.status, 0);
    assert!(run.text().starts_with("0 files in "), "{}", run.text());
    let run = odif(&["survey", &scratch.word("missing"), &scratch.word("one")]);
    assert_eq!(run.status, 2);
    assert!(run.text().contains("\n1 accepted\n0 refused\n1 unreadable\n"), "{}", run.text());
    assert!(run.text().contains("missing: No such file"), "{}", run.text());
    let run = odif(&["survey", &scratch.word("one"), "--csv", &scratch.word("missing/out.csv")]);
    assert_eq!(run.status, 2);
    assert!(run.stderr.contains("missing/out.csv: No such file"), "{}", run.stderr);
}

#[test]
fn hexadecimal_files() {
    let run = odif(&["survey", "--hex", "vectors/annex-d-1.hex", "vectors/lister.hex"]);
    assert_eq!(run.status, 0);
    let run = odif(&["survey", "--hex", "vectors/x209.txt"]);
    assert_eq!(run.status, 2);
    assert!(run.text().contains("vectors/x209.txt: line 1: "), "{}", run.text());
}

#[test]
fn the_size_of_a_file_that_is_too_long() {
    let scratch = Scratch::new("survey-size");
    scratch.write("long.odif", &vec![0; 2_000_000]);
    let run = odif(&["survey", &scratch.word(""), "--csv", "-"]);
    assert!(run.text().contains("/long.odif,refused,1,0,2000000,0,0,"), "{}", run.text());
}

#[test]
fn a_failing_write_leaves_the_csv_as_it_was() {
    let scratch = Scratch::new("survey-failing");
    for number in 0..200 {
        scratch.write(&format!("in/{number}.odif"), b"");
    }
    let csv = scratch.write("out.csv", b"as it was");
    let run = limited(4, &["survey", &scratch.word("in"), "--csv", &csv]);
    assert_eq!(run.status, 2);
    assert!(run.stderr.contains("out.csv: File too large"), "{}", run.stderr);
    assert_eq!(fs::read(&csv).unwrap(), b"as it was");
    assert_eq!(scratch.names(), ["in", "out.csv"]);
}

#[test]
fn an_interrupt_leaves_the_csv_as_it_was_and_is_told() {
    let scratch = Scratch::new("survey-interrupt");
    scratch.write_slow("slow.odif", "in", 5_000);
    for subcommand in ["survey", "same"] {
        let csv = scratch.write("out.csv", b"as it was");
        let words = [subcommand, &scratch.word("in"), "--csv", &csv, "--jobs", "1"];
        let child = command(&words).stdout(Stdio::null()).stderr(Stdio::piped()).spawn().unwrap();
        thread::sleep(Duration::from_millis(500));
        assert!(Command::new("kill").args(["-INT", &child.id().to_string()]).status().unwrap().success());
        let output = child.wait_with_output().unwrap();
        let told = String::from_utf8(output.stderr).unwrap();
        assert_eq!(output.status.code(), Some(130), "{told}");
        let is_under_way = told.contains(" of 5,000 files") && told.contains("out.csv is as it was before");
        let is_looking = told.contains("still looking for files, and nothing is written");
        assert!(told.starts_with("odif: interrupted: ") && (is_under_way || is_looking), "{told}");
        assert_eq!(fs::read(&csv).unwrap(), b"as it was");
        assert_eq!(scratch.names(), ["in", "out.csv", "slow.odif"]);
    }
}

#[test]
fn foreign_files_are_named_and_put_together() {
    let scratch = Scratch::new("survey-foreign");
    for number in 0..4 {
        scratch.write(&format!("{number}.png"), &[&b"\x89PNG\r\n\x1A\n"[..], &[number; 9]].concat());
    }
    let run = odif(&["survey", &scratch.word(""), "--first", "1"]);
    assert!(run.text().contains("    4 files: a PNG image, and no letter\n"), "{}", run.text());
}

#[test]
fn only_some_numbers() {
    let scratch = archive("survey-only");
    let folder = scratch.word("");
    let run = odif(&["survey", "--only", "10,11", "--list", &folder]);
    assert_eq!((run.status, run.text().replace(&folder, "").as_str()), (1, "empty.odif\nz,\"z\".odif\n"));
    let run = odif(&["survey", "--list", &folder]);
    assert_eq!(run.text().lines().count(), 3);
    let run = odif(&["survey", "--only", "7", "--csv", "-", &folder]);
    assert_eq!(run.text().lines().count(), 2, "{}", run.text());
    assert!(run.stderr.starts_with("5 files, 1 listed, in "), "{}", run.stderr);
    // The status is that of all files, listed or not.
    let run = odif(&["survey", "--only", "0", &folder]);
    assert!(run.status == 1 && run.text().starts_with("5 files, 2 listed, in "), "{}", run.text());
    let run = odif(&["survey", "--only", "99", "--json", &folder]);
    assert!(run.status == 1 && run.text().starts_with("{\"files\":5,\"listed\":0,"), "{}", run.text());
    symlink("nowhere", scratch.path("dangling.odif")).unwrap();
    assert_eq!(odif(&["survey", "--only", "0", &folder]).status, 2);
}

/// Names and a CSV would be mixed on one standard output.
#[test]
fn one_thing_on_standard_output() {
    let run = odif(&["survey", "samples/letters", "--csv", "-", "--list"]);
    assert_eq!((run.status, run.text()), (2, ""));
    assert!(run.stderr.contains("`--list` and `--csv -` both want standard output"), "{}", run.stderr);
}

/// Names that a spreadsheet would run have `./` before them in a cell, and are names of the same files.
#[test]
fn no_cell_is_a_formula() {
    let scratch = Scratch::new("survey-formula");
    for name in ["=cmd|calc.odif", "@x.odif", "plain.odif"] {
        scratch.write(name, &letter(b"x"));
    }
    for (subcommand, column) in [("survey", 0), ("same", 2)] {
        let mut command = command(&[subcommand, "=cmd|calc.odif", "@x.odif", "plain.odif", "--csv", "-"]);
        let output = command.current_dir(scratch.path("")).output().unwrap();
        let text = String::from_utf8(output.stdout).unwrap();
        let names: Vec<&str> = text.lines().skip(1).map(|line| line.split(',').nth(column).unwrap()).collect();
        assert_eq!(names, ["./=cmd|calc.odif", "./@x.odif", "plain.odif"], "{text}");
    }
}

#[test]
fn text_units_by_a_flag() {
    let scratch = Scratch::new("survey-units");
    scratch.write("in/all.odif", &letter(b"Hi"));
    scratch.write("in/cut.odif", b"\xA0");
    scratch.write("in/one.odif", &[&letter(b"Hi")[..], b"\xA3\x08\x31\x03\x40\x019\x04\x01x"].concat());
    let run = odif(&["survey", &scratch.word("in"), "--units", "--csv", "-"]);
    let units: Vec<&str> = run.text().lines().map(|line| line.rsplit(',').nth(1).unwrap()).collect();
    assert_eq!(units[..3], ["units", "1 shown", ""], "{}", run.text());
    assert!(run.text().ends_with(",\"1 shown, 1 not shown\",\n"), "{}", run.text());
    assert!(run.stderr.ends_with("text units: 1 not shown, 2 shown\n"), "{}", run.stderr);
    let run = odif(&["survey", &scratch.word("in"), "--units", "--json"]);
    assert!(run.text().contains("\"units\":{\"not shown\":1,\"shown\":2}"), "{}", run.text());
}

#[test]
fn surveys_of_parts_make_the_survey_of_the_whole() {
    let scratch = archive("survey-merge");
    let (one, two, all) =
        (scratch.word("../merge-1.csv"), scratch.word("../merge-2.csv"), scratch.word("../merge-all.csv"));
    let rest = [scratch.word("empty.odif"), scratch.word("z,\"z\".odif")];
    odif(&["survey", &scratch.word("a"), "--csv", &one]);
    odif(&["survey", &rest[0], &rest[1], "--csv", &two]);
    let whole = odif(&["survey", &scratch.word(""), "--csv", &all]);
    let merged = odif(&["survey", "--merge", &one, &two, "--csv", "-"]);
    assert_eq!(merged.status, 1);
    assert_eq!(merged.text(), fs::read_to_string(&all).unwrap());
    let report = |text: &str| text.split_once('\n').unwrap().1.to_string();
    assert_eq!(report(&merged.stderr), report(whole.text()));
    let broken = odif(&["survey", "--merge", &scratch.write("broken.csv", b"file,outcome\nx,good\n")]);
    assert_eq!(broken.status, 2);
    assert!(broken.stderr.contains("broken.csv: "), "{}", broken.stderr);
    for csv in [one, two, all] {
        fs::remove_file(csv).unwrap();
    }
}

#[test]
fn names_from_a_list_and_each_file_once() {
    let scratch = archive("survey-list");
    let (one, folder) = (scratch.word("a/good-1.odif"), scratch.word("a"));
    let list = format!("{one}\n{folder}\n\n{one}\n");
    let run = odif_with(&["survey", "--files-from", "-"], list.as_bytes());
    assert!(run.text().starts_with("3 files in "), "{}", run.text());
    let run = odif(&["survey", &folder, &folder]);
    assert!(run.text().starts_with("3 files in "), "{}", run.text());
    assert_eq!(odif(&["survey", "--files-from", "none"]).status, 2);
}
