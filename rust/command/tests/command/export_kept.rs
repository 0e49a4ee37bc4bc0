//! What an export keeps: each text is its line's, whatever runs came before. See docs/EXPORT.md.

use std::fs::{self, File};
use std::os::unix::fs::{PermissionsExt, symlink};
use std::path::Path;
use std::process::{Command, Stdio};
use std::thread;
use std::time::Duration;

use sha2::{Digest, Sha256};

use super::support::{Run, Scratch, command, item, letter, letter_of_1993, odif, two_sided};

/// An archive of three letters.
fn archive(name: &str) -> Scratch {
    let scratch = Scratch::new(name);
    scratch.write("in/both", &two_sided(b"AAAA", b"BBBB"));
    scratch.write("in/new", &letter_of_1993(b"tiled"));
    scratch.write("in/d/accent", &letter(b"M\xC8uller"));
    scratch
}

fn export(scratch: &Scratch, out: &str, more: &[&str]) -> Run {
    let words = ["export", &scratch.word("in"), &scratch.word(out)];
    odif(&[&words[..], more].concat())
}

fn text(scratch: &Scratch, name: &str) -> Option<String> {
    fs::read(scratch.path(name)).ok().map(|octets| String::from_utf8_lossy(&octets).into())
}

/// The cells of a column of the manifest, with the names of the files. No cell of these tests has a comma.
fn cells(scratch: &Scratch, out: &str, column: &str) -> Vec<(String, String)> {
    let manifest = fs::read_to_string(scratch.path(out).join("manifest.csv")).unwrap();
    let mut lines = manifest.lines().map(|line| line.split(',').map(String::from).collect::<Vec<_>>());
    let place = lines.next().unwrap().iter().position(|name| name == column).unwrap();
    lines.map(|line| (line[0].clone(), line[place].clone())).collect()
}

fn cell(scratch: &Scratch, file: &str, column: &str) -> String {
    cells(scratch, "out", column).into_iter().find(|(name, _)| name == file).map_or(String::new(), |(_, cell)| cell)
}

#[test]
fn a_text_of_other_words_is_no_lines_text() {
    let scratch = archive("export-kept-words");
    export(&scratch, "out", &[]);
    // What a killed run with other words leaves: its texts, and not all of its lines.
    fs::write(scratch.path("out/both.txt"), "BBBB\n").unwrap();
    fs::write(scratch.path("out/new.txt"), "tiled\n").unwrap();
    let run = export(&scratch, "out", &[]);
    assert!(run.status == 1 && run.text().ends_with("\n1 were done before\n"), "{}", run.text());
    assert_eq!(text(&scratch, "out/both.txt").as_deref(), Some("AAAA\n"));
    assert_eq!(text(&scratch, "out/new.txt"), None, "it is refused");
}

#[test]
fn every_word_that_changes_a_text_is_in_its_line() {
    let scratch = archive("export-kept-how");
    let digits: String = letter(b"hex").iter().map(|octet| format!("{octet:02X}")).collect();
    scratch.write("in/hex", digits.as_bytes());
    for (words, how) in [
        (&[][..], "auto"),
        (&["--side", "layout"], "layout"),
        (&["--logical"], "logical"),
        (&["--utf8"], "auto utf8=auto"),
        (&["--utf8=t61"], "auto utf8=t61"),
        (&["--edition", "1993"], "auto edition=1993"),
        (&["--hex"], "auto hex"),
        (&["--logical", "--utf8=latin1", "--edition", "1993", "--hex"], "logical utf8=latin1 edition=1993 hex"),
    ] {
        let run = export(&scratch, "out", words);
        assert!(run.text().ends_with("\n0 were done before\n"), "{words:?} {}", run.text());
        assert!(cells(&scratch, "out", "how").iter().all(|(_, found)| found == how), "{words:?}");
        let _ = fs::remove_dir_all(scratch.path("fresh"));
        export(&scratch, "fresh", words);
        for name in ["manifest.csv", "both.txt", "new.txt", "hex.txt", "d/accent.txt"] {
            let [out, fresh] = ["out", "fresh"].map(|folder| fs::read(scratch.path(folder).join(name)).ok());
            assert!(out == fresh, "{words:?} {name}");
        }
        assert!(export(&scratch, "out", words).text().ends_with("\n4 were done before\n") || words.contains(&"--hex"));
    }
}

#[test]
fn one_name_does_not_end_the_export() {
    let scratch = archive("export-kept-names");
    let long = "n".repeat(254);
    scratch.write(&format!("in/{long}"), &letter(b"long"));
    scratch.write("in/x", &letter(b"beside"));
    scratch.write("in/x.txt/y", &letter(b"inside"));
    scratch.write("in/manifest.csv/z", &letter(b"own"));
    for _ in 0..2 {
        let run = export(&scratch, "out", &["--edition", "1993"]);
        assert!(run.status == 2 && run.text().contains("\n3 unwritable\n"), "{} {}", run.text(), run.stderr);
        assert_eq!(cell(&scratch, &long, "outcome"), "unwritable");
        assert!(cell(&scratch, &long, "reason").contains("File name too long"));
        assert_eq!(cell(&scratch, "x", "reason"), "a folder of the archive has the name of its text");
        assert_eq!(cell(&scratch, "manifest.csv/z", "outcome"), "unwritable");
        assert_eq!(text(&scratch, "out/x.txt/y.txt").as_deref(), Some("inside\n"));
        assert!(text(&scratch, "out/d/accent.txt").is_some());
    }
}

#[test]
fn a_folder_takes_the_place_of_a_text() {
    let scratch = archive("export-kept-folder");
    scratch.write("in/x", &letter(b"first"));
    export(&scratch, "out", &[]);
    scratch.write("in/x.txt/y", &letter(b"inside"));
    assert_eq!(export(&scratch, "out", &[]).status, 2);
    assert_eq!(text(&scratch, "out/x.txt/y.txt").as_deref(), Some("inside\n"));
    fs::remove_dir_all(scratch.path("in/x.txt")).unwrap();
    let run = export(&scratch, "out", &[]);
    assert_eq!((run.status, cell(&scratch, "x", "outcome").as_str()), (2, "unwritable"), "the text of y is there");
    assert_eq!(export(&scratch, "out", &["--prune"]).status, 1);
    assert_eq!(text(&scratch, "out/x.txt").as_deref(), Some("first\n"));
}

#[test]
fn a_place_that_cannot_be_written() {
    let scratch = archive("export-kept-place");
    fs::create_dir_all(scratch.path("out/both.txt/inner")).unwrap();
    let run = export(&scratch, "out", &[]);
    assert_eq!((run.status, cell(&scratch, "both", "outcome").as_str()), (2, "unwritable"), "{}", run.stderr);
    assert!(run.stderr.contains("both: its text can't be written"), "{}", run.stderr);
    assert!(text(&scratch, "out/d/accent.txt").is_some());
}

#[test]
fn an_archive_that_is_not_there() {
    let scratch = archive("export-kept-missing");
    export(&scratch, "out", &[]);
    let before = fs::read(scratch.path("out/manifest.csv")).unwrap();
    for missing in ["typo", "in/both"] {
        let run = odif(&["export", &scratch.word(missing), &scratch.word("out")]);
        assert!(run.status == 2 && run.stdout.is_empty(), "{}", run.stderr);
        let run = odif(&["export", &scratch.word(missing), &scratch.word("new")]);
        assert!(run.status == 2 && !scratch.path("new").exists(), "nothing is touched");
    }
    assert!(fs::read(scratch.path("out/manifest.csv")).unwrap() == before);
    assert!(export(&scratch, "out", &[]).text().ends_with("\n3 were done before\n"));
    for (archive, out) in [("in", "in/out"), ("in/d", "in"), ("in", "in")] {
        let run = odif(&["export", &scratch.word(archive), &scratch.word(out)]);
        assert!(run.status == 2 && run.stderr.contains(" lies in the "), "{}", run.stderr);
    }
    assert!(!scratch.path("in/out").exists());
}

#[test]
fn an_archive_that_is_empty() {
    let scratch = archive("export-kept-empty");
    export(&scratch, "out", &["--edition", "1993"]);
    fs::create_dir(scratch.path("mount")).unwrap();
    let empty = |more: &[&str]| {
        let words = ["export", &scratch.word("mount"), &scratch.word("out"), "--edition", "1993"];
        odif(&[&words[..], more].concat())
    };
    let run = empty(&["--prune"]);
    assert!(run.status == 2 && run.stderr.contains("--prune would remove every text"), "{}", run.stderr);
    let run = empty(&[]);
    assert!(run.status == 1 && run.stderr.starts_with("odif: the archive has no files\n"), "{}", run.stderr);
    assert!(
        run.text().contains("\n3 gone from the archive, with their texts and lines still here\n"),
        "{}",
        run.text()
    );
    assert_eq!(text(&scratch, "out/both.txt").as_deref(), Some("AAAA\n"));
    let run = export(&scratch, "out", &["--edition", "1993"]);
    assert!(run.status == 0 && run.text().ends_with("\n3 were done before\n"), "all is back: {}", run.text());
    export(&scratch, "fresh", &["--edition", "1993"]);
    let [out, fresh] = ["out", "fresh"].map(|out| fs::read(scratch.path(out).join("manifest.csv")).unwrap());
    assert!(out == fresh);
}

#[test]
fn letters_that_are_gone() {
    let scratch = archive("export-kept-gone");
    export(&scratch, "out", &[]);
    fs::remove_file(scratch.path("in/d/accent")).unwrap();
    let line = cell(&scratch, "d/accent", "text_sha256");
    for _ in 0..2 {
        let run = export(&scratch, "out", &["--logical"]);
        assert!(run.status == 1 && run.stderr.contains("d/accent: gone from the archive"), "{}", run.stderr);
        let found = ["outcome", "how", "text_sha256"].map(|column| cell(&scratch, "d/accent", column));
        assert_eq!(found, ["gone", "auto", &line], "it is told as it was made");
        assert!(text(&scratch, "out/d/accent.txt").is_some());
    }
    fs::write(scratch.path("out/d/accent.txt"), "other").unwrap();
    export(&scratch, "out", &[]);
    assert_eq!((text(&scratch, "out/d/accent.txt"), cell(&scratch, "d/accent", "text_sha256")), (None, String::new()));
    let run = export(&scratch, "out", &["--prune"]);
    assert!(run.stderr.contains("d/accent: gone from the archive; its text and line are removed"), "{}", run.stderr);
    assert_eq!(cell(&scratch, "d/accent", "outcome"), "");
    assert!(!scratch.path("out/d").exists(), "the folder is empty");
}

#[test]
fn a_source_that_cannot_be_read_has_no_text() {
    let scratch = archive("export-kept-unreadable");
    export(&scratch, "out", &[]);
    fs::remove_file(scratch.path("in/both")).unwrap();
    symlink("nowhere", scratch.path("in/both")).unwrap();
    assert_eq!(export(&scratch, "out", &[]).status, 2);
    let found = (cell(&scratch, "both", "outcome"), cell(&scratch, "both", "text_sha256"));
    assert_eq!(found, ("unreadable".into(), String::new()));
    assert_eq!(text(&scratch, "out/both.txt"), None);
}

#[test]
fn a_folder_that_cannot_be_read_is_not_gone() {
    let scratch = archive("export-kept-unseen");
    export(&scratch, "out", &[]);
    // Links that lead to themselves: whoever runs this may read every folder.
    fs::rename(scratch.path("in/d"), scratch.path("away")).unwrap();
    symlink("d", scratch.path("in/d")).unwrap();
    let run = export(&scratch, "out", &["--prune"]);
    assert!(
        run.status == 2 && run.stderr.contains("d/accent: in a folder of the archive that can't"),
        "{}",
        run.stderr
    );
    assert_eq!(cell(&scratch, "d/accent", "outcome"), "unseen");
    assert!(text(&scratch, "out/d/accent.txt").is_some());
    fs::remove_file(scratch.path("in/d")).unwrap();
    fs::rename(scratch.path("away"), scratch.path("in/d")).unwrap();
    assert!(export(&scratch, "out", &[]).text().ends_with("\n3 were done before\n"));
}

#[test]
fn a_change_of_the_source_is_noticed_by_more_than_its_time() {
    let scratch = archive("export-kept-source");
    export(&scratch, "out", &[]);
    let path = scratch.path("in/both");
    let time = fs::metadata(&path).unwrap().modified().unwrap();
    fs::write(&path, two_sided(b"CCCC", b"BBBB")).unwrap();
    File::options().write(true).open(&path).unwrap().set_modified(time).unwrap();
    export(&scratch, "out", &[]);
    assert_eq!(text(&scratch, "out/both.txt").as_deref(), Some("CCCC\n"), "the same length and time");
    let sum = Command::new("sha256sum").arg(&path).output().unwrap().stdout;
    assert!(sum.starts_with(cell(&scratch, "both", "sha256").as_bytes()));
    let version = odif(&["--version"]);
    assert!(version.text().contains(&cell(&scratch, "both", "library")), "{}", version.text());
}

#[test]
fn two_exports_at_once() {
    let scratch = archive("export-kept-lock");
    scratch.write_slow("slow.odif", "slow", 2_000);
    let words = ["export", &scratch.word("slow"), &scratch.word("out"), "--jobs", "1"];
    let mut child = command(&words).stdout(Stdio::null()).stderr(Stdio::null()).spawn().unwrap();
    while !scratch.path("out/0000.txt").exists() {
        assert!(child.try_wait().unwrap().is_none(), "it ended");
        thread::sleep(Duration::from_millis(5));
    }
    for run in [export(&scratch, "out", &[]), odif(&["export", "--verify", &scratch.word("out")])] {
        assert!(run.status == 2 && run.stderr.contains("out: another export writes here"), "{}", run.stderr);
    }
    child.kill().unwrap();
    child.wait().unwrap();
    let run = export(&scratch, "out", &[]);
    assert!(run.text().starts_with("3 files\n"), "a dead run's lock is none: {}", run.stderr);
}

#[test]
fn what_a_dead_run_left_is_removed() {
    let scratch = archive("export-kept-dead");
    scratch.write("out/.odif-export/17", b"half a te");
    scratch.write("out/manifest.part", b"cut");
    assert_eq!(export(&scratch, "out", &["--edition", "1993"]).status, 0);
    let mut left: Vec<_> = fs::read_dir(scratch.path("out")).unwrap().map(|found| found.unwrap().file_name()).collect();
    left.sort();
    assert_eq!(left, ["both.txt", "d", "manifest.csv", "manifest.lock", "new.txt"]);
}

#[test]
fn the_journal_of_a_run_that_has_ended_tells_nothing() {
    let scratch = archive("export-kept-journal");
    export(&scratch, "out", &[]);
    let first = fs::read(scratch.path("out/manifest.csv")).unwrap();
    fs::remove_file(scratch.path("in/d/accent")).unwrap();
    export(&scratch, "out", &["--prune"]);
    let second = fs::read(scratch.path("out/manifest.csv")).unwrap();
    // What is left by a kill between the manifest and the removal of the journal, which names the manifest that it goes on from.
    for (from, is_told) in [(&b""[..], false), (&second, true)] {
        let hash: String = Sha256::digest(from).iter().map(|octet| format!("{octet:02x}")).collect();
        fs::write(scratch.path("out/manifest.part"), [hash.as_bytes(), b"\n", &first].concat()).unwrap();
        let run = export(&scratch, "out", &[]);
        assert_eq!(run.stderr.contains("d/accent: gone from the archive"), is_told, "{}", run.stderr);
    }
}

#[test]
fn strict_is_the_status_alone() {
    let scratch = archive("export-kept-strict");
    scratch.write("in/apart", &[item(0xA0, b""), item(0xA3, &item(0x04, b"x"))].concat());
    let words = ["--edition", "1993", "--side", "layout"];
    let [run, strict] = [&[][..], &["--strict"]].map(|more| export(&scratch, "out", &[&words[..], more].concat()));
    assert_eq!((run.status, strict.status), (0, 1));
    assert!(strict.text().contains("\n4 with their text, 2 of them with text units left out\n0 refused\n"));
    assert!(strict.text().ends_with("\n4 were done before\n"), "{}", strict.text());
    let help = odif(&["export", "--help"]);
    assert!(help.text().contains("End with 1 if text units"), "{}", help.text());
}

#[test]
fn a_stranger_is_told_and_stays() {
    let scratch = archive("export-kept-stranger");
    scratch.write("out/d/notes.txt", b"mine");
    scratch.write("out/d/notes", b"no text");
    let run = export(&scratch, "out", &["--edition", "1993"]);
    assert!(run.status == 2 && run.stderr.contains("out/d/notes.txt: this text is no letter's"), "{}", run.stderr);
    assert_eq!(text(&scratch, "out/d/notes.txt").as_deref(), Some("mine"));
    scratch.write("other/manifest.csv", b"name,price\n");
    let run = export(&scratch, "other", &[]);
    assert!(run.status == 2 && run.stderr.contains("not the manifest of an export"), "{}", run.stderr);
    assert_eq!(text(&scratch, "other/manifest.csv").as_deref(), Some("name,price\n"));
}

#[test]
fn a_line_that_was_altered_is_none() {
    let scratch = archive("export-kept-altered");
    export(&scratch, "out", &[]);
    let manifest = fs::read_to_string(scratch.path("out/manifest.csv")).unwrap();
    let altered = manifest.replacen("both,accepted,0,0,", "both,accepted,0,1,", 1);
    assert_ne!(altered, manifest);
    fs::write(scratch.path("out/manifest.csv"), altered).unwrap();
    let run = export(&scratch, "out", &[]);
    assert!(run.text().ends_with("\n2 were done before\n"), "{}", run.text());
    assert_eq!(fs::read_to_string(scratch.path("out/manifest.csv")).unwrap(), manifest);
}

#[test]
fn cells_that_a_spreadsheet_would_run() {
    let scratch = archive("export-kept-cells");
    scratch.write("in/=cmd|calc.odif", &letter(b"x"));
    scratch.write("in/-1+1", &letter(b"y"));
    for done in ["0", "5"] {
        let run = export(&scratch, "out", &[]);
        assert!(run.text().ends_with(&format!("\n{done} were done before\n")), "{}", run.text());
    }
    for name in ["./=cmd|calc.odif", "./-1+1"] {
        assert_eq!(cell(&scratch, name, "outcome"), "accepted");
        assert!(Path::new(&scratch.word("in")).join(name).exists(), "the name is good for its file");
    }
    fs::remove_file(scratch.path("in/-1+1")).unwrap();
    assert!(export(&scratch, "out", &["--prune"]).stderr.contains("odif: -1+1: gone"));
    assert!(!scratch.path("out/-1+1.txt").exists());
    assert_eq!(odif(&["export", "--verify", &scratch.word("out")]).status, 0);
}

#[test]
fn permissions_of_a_text_stay() {
    let scratch = archive("export-kept-permissions");
    export(&scratch, "out", &[]);
    let place = scratch.path("out/both.txt");
    fs::set_permissions(&place, fs::Permissions::from_mode(0o600)).unwrap();
    export(&scratch, "out", &["--logical"]);
    assert_eq!(fs::metadata(&place).unwrap().permissions().mode() & 0o777, 0o600);
    assert_eq!(text(&scratch, "out/both.txt").as_deref(), Some("BBBB\n"));
}
