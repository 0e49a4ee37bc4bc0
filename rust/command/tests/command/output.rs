//! Outputs that can't be written, and terminals.

use std::fs;
use std::io;
use std::process::Stdio;

use super::support::{CLAIM, CUT_SHORT, Scratch, command, letter, odif};

/// Runs the command with a device that is always full in the place of its outputs.
fn status_on_a_full_device(words: &[&str], stdout: bool, stderr: bool) -> i32 {
    let full = || Stdio::from(fs::File::options().write(true).open("/dev/full").unwrap());
    let mut command = command(words);
    command.stdin(Stdio::null()).stdout(if stdout { full() } else { Stdio::null() });
    command.stderr(if stderr { full() } else { Stdio::null() });
    command.status().unwrap().code().expect("an exit status")
}

#[test]
fn what_cannot_be_written_is_a_failure() {
    for words in [&["text", CLAIM][..], &["tree", CLAIM], &["list", CLAIM], &["normal", CLAIM], &["check", CLAIM]] {
        assert_eq!(status_on_a_full_device(words, true, false), 2, "{words:?}");
    }
    assert_eq!(odif(&["normal", CLAIM, "-o", "/dev/full"]).status, 2);
    assert_eq!(odif(&["survey", "samples", "--csv", "/dev/full"]).status, 2);
}

#[test]
fn words_that_no_one_can_read_change_no_status() {
    for (words, status) in [
        (&["text", CUT_SHORT][..], 1),
        (&["tree", CUT_SHORT], 1),
        (&["text", "none"], 2),
        (&["check", "none", CLAIM], 2),
        (&["check", "--jason"], 2),
        (&["survey", "samples/letters", "--csv", "-"], 1),
    ] {
        assert_eq!(status_on_a_full_device(words, false, true), status, "{words:?}");
    }
}

/// As `cat` does, the command ends quietly, and what it was writing beside is put away.
#[test]
fn a_reader_that_goes_away() {
    let scratch = Scratch::new("output-pipe");
    let mut stream = vec![0xA0, 0x83, 0x07, 0xA1, 0x20];
    stream.extend([0x05, 0x00].repeat(250_000));
    let long = scratch.write("long.odif", &stream);
    for number in 0..400 {
        scratch.write(&format!("many/{number:04}.odif"), &letter(b"Hi"));
    }
    let (many, csv) = (scratch.word("many"), scratch.word("old.csv"));
    scratch.write("old.csv", b"as it was");
    for words in [
        &["tree", &long][..],
        &["tree", "--json", &long],
        &["normal", &long],
        &["check", "--json", &long, &long],
        &["list", CLAIM],
        &["text", CLAIM],
        &["survey", "--csv", "-", &many],
        &["survey", "--list", "--only", "0", "--csv", &csv, &many],
        &["same", &many],
        &["man"],
        &["completions", "bash"],
    ] {
        let (reader, writer) = io::pipe().unwrap();
        drop(reader);
        let output = command(words).stdin(Stdio::null()).stdout(writer).stderr(Stdio::piped()).output().unwrap();
        assert_eq!(output.status.code(), Some(141), "{words:?}");
        assert!(output.stderr.is_empty(), "{words:?}: {}", String::from_utf8_lossy(&output.stderr));
    }
    assert_eq!(fs::read(&csv).unwrap(), b"as it was");
    assert_eq!(scratch.names(), ["long.odif", "many", "old.csv"]);
}
