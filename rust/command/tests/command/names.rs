//! Names of files that no one would choose, through JSON and CSV and back.

use std::ffi::OsStr;
use std::fs;
use std::os::unix::ffi::OsStrExt;
use std::process::{Command, Stdio};

use super::support::{Scratch, command, letter, odif, on_terminal};

const ODD: [&[u8]; 5] = [b"caf\xE9.odif", b"caf\\xE9.odif", b"a\n\"b\",\x1B[31m.odif", "ü.odif".as_bytes(), b"-"];

fn odd_names(name: &str) -> Scratch {
    let scratch = Scratch::new(name);
    for name in ODD {
        fs::write(scratch.path("").join(OsStr::from_bytes(name)), letter(b"x")).unwrap();
    }
    scratch
}

/// Runs a Python program with this file as its first word, and gives what it prints.
fn python(program: &str, file: &str) -> Vec<u8> {
    let output = Command::new("python3").args(["-c", program, file]).stderr(Stdio::inherit()).output().unwrap();
    assert!(output.status.success());
    output.stdout
}

/// The names as the system has them, sorted, each before a zero octet.
fn wanted(scratch: &Scratch) -> Vec<u8> {
    let mut names: Vec<_> = ODD.iter().map(|name| [scratch.word("").as_bytes(), name, b"\0"].concat()).collect();
    names.sort();
    names.concat()
}

const NAMES_OF_ROWS: &str = "
import sys
names = sorted(bytes.fromhex(row['file_octets']) if row.get('file_octets') else row['file'].encode() for row in rows)
sys.stdout.buffer.write(b''.join(name + b'\\0' for name in names))
";

#[test]
fn csv_is_read_by_python() {
    let scratch = odd_names("names-csv");
    let csv = Scratch::new("names-csv-out").word("names.csv");
    fs::create_dir_all(std::path::Path::new(&csv).parent().unwrap()).unwrap();
    assert_eq!(odif(&["survey", &scratch.word(""), "--csv", &csv]).status, 0);
    let program = "import csv, sys\nrows = list(csv.DictReader(open(sys.argv[1], newline='', encoding='utf-8')))";
    assert_eq!(python(&format!("{program}\n{NAMES_OF_ROWS}"), &csv), wanted(&scratch));
    let same = odif(&["same", &scratch.word(""), "--csv", &csv]);
    assert_eq!(same.status, 1);
    assert_eq!(python(&format!("{program}\n{NAMES_OF_ROWS}"), &csv), wanted(&scratch));
}

#[test]
fn json_is_read_by_python() {
    let scratch = odd_names("names-json");
    let files = ODD.map(|name| scratch.path("").join(OsStr::from_bytes(name)).into_os_string());
    let words: Vec<&OsStr> =
        ["check", "--json"].map(OsStr::new).into_iter().chain(files.iter().map(|file| &**file)).collect();
    let output = command(&words).output().unwrap();
    let json = scratch.path("json");
    fs::write(&json, output.stdout).unwrap();
    let program = "import json, sys\nrows = [json.loads(line) for line in open(sys.argv[1], encoding='utf-8')]";
    assert_eq!(python(&format!("{program}\n{NAMES_OF_ROWS}"), json.to_str().unwrap()), wanted(&scratch));
}

#[test]
fn a_list_of_names_is_taken_back() {
    let scratch = odd_names("names-list");
    let list = odif(&["survey", "--list", "--only", "0", "-0", &scratch.word("")]);
    let mut names: Vec<&[u8]> = list.stdout.split_inclusive(|&octet| octet == 0).collect();
    names.sort();
    assert_eq!(names.concat(), wanted(&scratch));
    let file = scratch.write("names.list", &list.stdout);
    let run = odif(&["survey", "-0", "--files-from", &file]);
    assert!(run.text().contains("\n5 accepted\n0 refused\n0 unreadable\n"), "{}", run.text());
}

#[test]
fn no_control_character_reaches_a_terminal() {
    let scratch = odd_names("names-terminal");
    for words in [&["survey", "--csv", "-"][..], &["survey", "--list", "--only", "0"], &["same"]] {
        let shown = on_terminal(&[words, &[&scratch.word("")]].concat());
        assert!(shown.contains("\\x1B[31m") && !shown.contains("\u{1B}[31m"), "{shown:?}");
    }
}
