//! `odif export`

use std::fs;
use std::os::unix::fs::symlink;
use std::process::{Command, Stdio};
use std::thread;
use std::time::Duration;

use super::support::{Scratch, command, letter, limited, odif};

fn archive(name: &str) -> Scratch {
    let scratch = Scratch::new(name);
    scratch.write("in/a/one.odif", &letter(b"one"));
    scratch.write("in/a/b/two.odif", &letter(b"M\xC8uller\n"));
    scratch.write("in/cut.odif", &letter(b"three")[..30]);
    scratch.write("in/apart.odif", b"\xA0\x00\xA3\x03\x04\x01x");
    scratch
}

#[test]
fn the_tree_is_kept_with_a_manifest() {
    let scratch = archive("export-tree");
    let run = odif(&["export", &scratch.word("in"), &scratch.word("out")]);
    assert_eq!(run.status, 1, "{}", run.stderr);
    let wanted =
        "4 files\n3 with their text, 1 of them with text units left out\n1 refused\n0 unreadable\n0 were done before\n";
    assert_eq!(run.text(), wanted);
    assert_eq!(fs::read(scratch.path("out/a/one.odif.txt")).unwrap(), b"one\n");
    assert_eq!(fs::read(scratch.path("out/a/b/two.odif.txt")).unwrap(), b"M\xC8uller\n");
    assert_eq!(fs::read(scratch.path("out/apart.odif.txt")).unwrap(), b"");
    assert!(!scratch.path("out/cut.odif.txt").exists() && !scratch.path("out/manifest.part").exists());
    let manifest = fs::read_to_string(scratch.path("out/manifest.csv")).unwrap();
    let lines: Vec<Vec<&str>> = manifest.lines().map(|line| line.splitn(13, ',').collect()).collect();
    assert_eq!(lines.len(), 5);
    let columns = "file outcome number place octets modified how side units left_out text_octets text_sha256";
    assert_eq!(lines[0][..12].join(" "), columns);
    assert_eq!(lines[1][..5], ["a/b/two.odif", "accepted", "0", "0", "44"]);
    let sum = Command::new("sha256sum").arg(scratch.path("out/a/b/two.odif.txt")).output().unwrap().stdout;
    assert_eq!(lines[1][6..11], ["auto", "layout", "1", "0", "8"]);
    assert!(sum.starts_with(lines[1][11].as_bytes()) && lines[1][11].len() == 64);
    assert_eq!(lines[3][7..11], ["layout", "1", "1", "0"], "the unit that no object names");
    assert_eq!(lines[4][..5], ["cut.odif", "refused", "7", "21", "30"]);
}

#[test]
fn utf8_and_strict() {
    let scratch = archive("export-utf8");
    fs::remove_file(scratch.path("in/cut.odif")).unwrap();
    let words = ["export", &scratch.word("in"), &scratch.word("out"), "--utf8"];
    assert_eq!(odif(&words).status, 0);
    assert_eq!(fs::read_to_string(scratch.path("out/a/b/two.odif.txt")).unwrap(), "Müller\n");
    assert_eq!(odif(&[&words[..], &["--strict"]].concat()).status, 1);
}

#[test]
fn a_second_run_does_what_is_new_or_changed() {
    let scratch = archive("export-again");
    let words = ["export", &scratch.word("in"), &scratch.word("out")];
    odif(&words);
    let run = odif(&words);
    assert!(run.text().ends_with("\n4 were done before\n"), "{}", run.text());
    let first = fs::read_to_string(scratch.path("out/manifest.csv")).unwrap();
    fs::remove_file(scratch.path("out/a/one.odif.txt")).unwrap();
    scratch.write("in/new.odif", &letter(b"new"));
    scratch.write("in/a/b/two.odif", &letter(b"changed"));
    let run = odif(&words);
    assert!(run.text().starts_with("5 files\n") && run.text().ends_with("\n2 were done before\n"), "{}", run.text());
    assert_eq!(fs::read(scratch.path("out/a/one.odif.txt")).unwrap(), b"one\n");
    assert_eq!(fs::read(scratch.path("out/a/b/two.odif.txt")).unwrap(), b"changed\n");
    assert!(
        first.lines().count() == 5
            && fs::read_to_string(scratch.path("out/manifest.csv")).unwrap().lines().count() == 6
    );
    scratch.write("in/a/b/two.odif", b"");
    odif(&words);
    assert!(!scratch.path("out/a/b/two.odif.txt").exists(), "the text of a letter that is none now");
    let run = odif(&[&words[..], &["--utf8"]].concat());
    assert!(run.text().ends_with("\n0 were done before\n"), "in another way: {}", run.text());
}

#[test]
fn an_interrupted_run_is_gone_on_with() {
    let scratch = Scratch::new("export-interrupt");
    scratch.write_slow("slow.odif", "in", 2_000);
    let words = ["export", &scratch.word("in"), &scratch.word("out"), "--jobs", "1"];
    let child = command(&words).stdout(Stdio::null()).stderr(Stdio::piped()).spawn().unwrap();
    while !scratch.path("out/0200.txt").exists() {
        thread::sleep(Duration::from_millis(5));
    }
    assert!(Command::new("kill").args(["-INT", &child.id().to_string()]).status().unwrap().success());
    let output = child.wait_with_output().unwrap();
    let told = String::from_utf8(output.stderr).unwrap();
    assert_eq!(output.status.code(), Some(130), "{told}");
    assert!(told.contains(" of 2,000 files; run it again to go on"), "{told}");
    let left =
        fs::read_dir(scratch.path("out")).unwrap().map(|found| found.unwrap().file_name().into_string().unwrap());
    let (texts, mut others): (Vec<_>, Vec<_>) = left.partition(|name| name.ends_with(".txt"));
    others.sort();
    assert_eq!(others, ["manifest.lock", "manifest.part"], "no manifest, and nothing half written");
    let before = fs::read_to_string(scratch.path("out/manifest.part")).unwrap().lines().count() - 2;
    assert!(before > 200 && before == texts.len(), "{before}");
    for number in 600..2_000 {
        fs::remove_file(scratch.path("in").join(format!("{number:04}"))).unwrap();
    }
    let run = odif(&[&words[..], &["--prune"]].concat());
    assert_eq!(run.status, 0);
    let done = run.text().lines().last().unwrap().split(' ').next().unwrap().parse::<usize>().unwrap();
    assert!(run.text().starts_with("600 files\n") && done == before.min(600), "{}", run.text());
}

#[test]
fn what_cannot_be_read_or_written() {
    let scratch = archive("export-bad");
    symlink("nowhere", scratch.path("in/dangling")).unwrap();
    let run = odif(&["export", &scratch.word("in"), &scratch.word("out")]);
    assert_eq!(run.status, 2);
    let manifest = fs::read_to_string(scratch.path("out/manifest.csv")).unwrap();
    assert!(manifest.contains("\ndangling,unreadable,,,,"), "{manifest}");
    let run = odif(&["export", &scratch.word("in"), &scratch.word("in/out")]);
    assert_eq!(run.status, 2);
    assert!(run.stderr.contains("lies in the archive"), "{}", run.stderr);
    scratch.write("in/a/one.odif", &letter(&[b'x'; 90]));
    let texts = fs::read(scratch.path("out/a/one.odif.txt")).unwrap();
    assert_eq!(limited(0, &["export", &scratch.word("in"), &scratch.word("out")]).status, 2);
    assert_eq!(fs::read(scratch.path("out/a/one.odif.txt")).unwrap(), texts);
    assert_eq!(fs::read_to_string(scratch.path("out/manifest.csv")).unwrap(), manifest);
}
