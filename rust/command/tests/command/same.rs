//! `odif same`

use std::ffi::OsStr;
use std::fs;
use std::os::unix::ffi::OsStrExt;
use std::os::unix::fs::symlink;

use super::support::{Scratch, letter, odif};

/// The letter of `text`, with its profile of indefinite length: other octets, the same items.
fn indefinite(text: &[u8]) -> Vec<u8> {
    [b"\xA0\x80\x00\x00", &letter(text)[2..]].concat()
}

fn archive(name: &str) -> Scratch {
    let scratch = Scratch::new(name);
    scratch.write("b/one.odif", &letter(b"one"));
    scratch.write("c/one.odif", &indefinite(b"one"));
    scratch.write("a/two.odif", &letter(b"two"));
    scratch.write("d/two.odif", &letter(b"two"));
    scratch.write("e/two.odif", &indefinite(b"two"));
    scratch.write("f/three.odif", &letter(b"three"));
    scratch.write("f/empty.odif", b"");
    scratch.write("g/empty.odif", b"");
    scratch
}

#[test]
fn groups_with_their_first_file() {
    let scratch = archive("same-groups");
    let folder = scratch.word("");
    let run = odif(&["same", &folder]);
    assert_eq!(run.status, 1, "{}", run.stderr);
    let wanted = "\
first a/two.odif
same  d/two.odif
same  e/two.odif

first b/one.odif
same  c/one.odif

8 files, 6 of them letters, 3 the same as an earlier one, in 2 groups
2 refused
0 unreadable
";
    assert_eq!(run.text().replace(&folder, ""), wanted);
}

#[test]
fn the_same_for_any_number_of_jobs_as_csv() {
    let scratch = archive("same-csv");
    for number in 0..1_200 {
        let text = format!("letter {}", number % 1_000);
        scratch.write(&format!("more/{number:04}.odif"), &letter(text.as_bytes()));
    }
    let (folder, csv) = (scratch.word(""), scratch.word("same.csv"));
    let mut written = Vec::new();
    for jobs in ["1", "3"] {
        assert_eq!(odif(&["same", &folder, "--csv", &csv, "--jobs", jobs]).status, 1);
        written.push(fs::read_to_string(&csv).unwrap().replace(&folder, ""));
    }
    assert_eq!(written[0], written[1]);
    let lines: Vec<&str> = written[0].lines().collect();
    assert_eq!(lines.len(), 1 + 5 + 400, "200 letters stand twice");
    assert_eq!(lines[0], "group,rank,file,octets,normal_octets,normal_sha256,file_octets");
    assert!(lines[3].starts_with("1,same,e/two.odif,41,39,"), "{}", lines[3]);
    let hashes: Vec<&str> = lines[1..4].iter().map(|line| line.split(',').nth(5).unwrap()).collect();
    assert!(hashes[0].len() == 64 && hashes[0] == hashes[1] && hashes[1] == hashes[2]);
    assert!(lines[405].starts_with("202,same,more/1199.odif,"), "{}", lines[405]);
}

#[test]
fn no_two_the_same() {
    let scratch = Scratch::new("same-none");
    scratch.write("a.odif", &letter(b"a"));
    scratch.write("b.odif", &letter(b"b"));
    let run = odif(&["same", &scratch.word(""), "--csv", "-"]);
    assert_eq!((run.status, run.text().lines().count()), (0, 1), "{}", run.stderr);
    assert!(run.stderr.starts_with("2 files, 2 of them letters, 0 the same"), "{}", run.stderr);
}

#[test]
fn unreadable_files_and_normal_forms_over_the_limit_are_told() {
    let scratch = archive("same-unreadable");
    symlink("nowhere", scratch.path("dangling.odif")).unwrap();
    let mut stream = vec![0xA0, 0x80, 0x04, 0x83, 0x0F, 0xFF, 0xF7];
    stream.resize(odif::STREAM_LIMIT - 2, b'x');
    stream.extend([0, 0]);
    scratch.write("long.odif", &stream);
    let run = odif(&["same", &scratch.word("")]);
    assert_eq!(run.status, 2);
    assert!(run.stderr.contains("dangling.odif: No such file"), "{}", run.stderr);
    assert!(run.stderr.contains("long.odif: its normal form is over the limit"), "{}", run.stderr);
    assert!(run.text().ends_with("2 refused\n1 with a normal form over the limit\n1 unreadable\n"), "{}", run.text());
}

/// Names with odd octets can be handed on: each ends with a zero octet, and nothing is escaped.
#[test]
fn names_that_can_be_used_again() {
    let scratch = Scratch::new("same-names");
    let odd = OsStr::from_bytes(b"z\xFF\n.odif");
    fs::write(scratch.path("").join(odd), letter(b"x")).unwrap();
    scratch.write("a.odif", &letter(b"x"));
    let (folder, path) = (scratch.word(""), scratch.path("").join(odd));
    let run = odif(&["same", &folder, "--list", "-0"]);
    assert_eq!((run.status, run.stderr.as_str()), (1, ""));
    assert_eq!(run.stdout, [path.as_os_str().as_bytes(), b"\0"].concat());
    let run = odif(&["same", &folder, "-0"]);
    let first = format!("first {}", scratch.path("a.odif").display());
    assert_eq!(run.stdout, [first.as_bytes(), b"\0same  ", path.as_os_str().as_bytes(), b"\0"].concat());
    assert!(run.stderr.starts_with("2 files, 2 of them letters, 1 the same"), "{}", run.stderr);
    assert_eq!(odif(&["same", &folder, "--list", "--csv", "-"]).status, 2);
    let help = odif(&["same", "--help"]);
    assert!(help.text().contains("130 it was\ninterrupted"), "{}", help.text());
}
