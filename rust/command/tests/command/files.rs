//! Folders, and lists of files, wherever files are taken.

use std::fs;

use super::support::{CLAIM, CUT_SHORT, Scratch, letter, odif, odif_with};

/// Each subcommand that takes files.
const TAKING: [&[&str]; 9] =
    [&["check"], &["date"], &["profile"], &["text"], &["tree"], &["list"], &["outline"], &["order"], &["pages"]];

fn archive(name: &str) -> Scratch {
    let scratch = Scratch::new(name);
    for (name, text) in [("in/b", "second"), ("in/a/z", "first"), ("in/c", "third")] {
        scratch.write(name, &letter(text.as_bytes()));
    }
    scratch
}

#[test]
fn a_folder_is_its_files_in_order() {
    let scratch = archive("files-folder");
    let names = ["in/a/z", "in/b", "in/c"].map(|name| scratch.word(name));
    for words in TAKING {
        let folder = odif(&[words, &[scratch.word("in").as_str()]].concat());
        let files = odif(&[words, &names.each_ref().map(|name| name.as_str())[..]].concat());
        assert_eq!((folder.status, folder.text()), (files.status, files.text()), "{words:?}");
        let list = names.join("\n") + "\n";
        let listed = odif_with(&[words, &["--files-from", "-"]].concat(), list.as_bytes());
        assert_eq!((listed.status, listed.text()), (files.status, files.text()), "{words:?}");
        let listed = odif_with(&[words, &["-0", "--files-from", "-"]].concat(), list.replace('\n', "\0").as_bytes());
        assert_eq!(listed.text(), files.text(), "{words:?}");
    }
    let text = odif(&["text", &scratch.word("in")]);
    let order: Vec<_> = ["first", "second", "third"].iter().map(|word| text.text().find(word).unwrap()).collect();
    assert!(order.is_sorted(), "{}", text.text());
    assert!(text.text().starts_with("==> "), "{}", text.text());
}

#[test]
fn files_and_folders_in_the_order_of_the_words() {
    let scratch = archive("files-mixed");
    let run = odif(&["check", CUT_SHORT, &scratch.word("in"), CLAIM]);
    let lines: Vec<&str> =
        run.text().lines().filter(|line| line.contains(": accepted") || line.contains(": refused")).collect();
    assert_eq!((run.status, lines.len()), (1, 5), "{}", run.text());
    assert!(lines[0].contains("cut-short") && lines[1].contains("in/a/z") && lines[4].contains("claim"), "{lines:?}");
}

#[test]
fn what_can_not_be_read_in_a_folder_is_told() {
    let scratch = archive("files-unreadable");
    std::os::unix::fs::symlink("nowhere", scratch.path("in/link")).unwrap();
    let run = odif(&["check", &scratch.word("in")]);
    assert_eq!((run.status, run.text().lines().count()), (2, 3));
    assert!(run.stderr.contains("in/link: No such file"), "{}", run.stderr);
    let run = odif(&["check", "--json", &scratch.word("in")]);
    assert!(run.text().contains("\"outcome\":\"unreadable\""), "{}", run.text());
    let run = odif(&["check", "--files-from", "no-such-list"]);
    assert!(run.status == 2 && run.stderr.contains("no-such-list: No such file"), "{}", run.stderr);
}

#[test]
fn an_empty_folder() {
    let scratch = Scratch::new("files-empty");
    let run = odif(&["check", &scratch.word("")]);
    assert_eq!((run.status, run.text(), run.stderr.as_str()), (0, "", "odif: there are no files\n"));
}

#[test]
fn a_file_of_a_list_may_be_called_as_standard_input_is() {
    let scratch = archive("files-dash");
    scratch.write("-", &letter(b"a file"));
    scratch.write("list", b"-\n");
    let run =
        super::support::command(&["text", "--files-from", "list"]).current_dir(scratch.path("")).output().unwrap();
    assert_eq!(String::from_utf8(run.stdout).unwrap(), "a file\n");
}

#[test]
fn normal_forms_of_a_folder() {
    let scratch = archive("files-normal");
    fs::remove_file(scratch.path("in/c")).unwrap();
    let run = odif(&["normal", &scratch.word("in"), "--into", &scratch.word("out")]);
    assert_eq!((run.status, run.stderr.as_str()), (0, ""));
    assert_eq!(fs::read(scratch.path("out/z")).unwrap(), letter(b"first"));
    assert!(odif(&["normal", &scratch.word("in")]).stderr.contains("several letters need `--into FOLDER`"));
}

#[test]
fn an_export_of_a_list() {
    let scratch = archive("files-export");
    let (archive, out) = (scratch.word("in"), scratch.word("out"));
    let list = scratch.write("list", format!("{archive}/a\n{archive}/c\n").as_bytes());
    let run = odif(&["export", &archive, &out, "--files-from", &list]);
    assert_eq!(run.status, 0, "{}", run.stderr);
    assert!(
        scratch.path("out/a/z.txt").exists()
            && scratch.path("out/c.txt").exists()
            && !scratch.path("out/b.txt").exists()
    );
    let list = scratch.write("list", format!("{archive}/a\n").as_bytes());
    let run = odif(&["export", &archive, &out, "--files-from", &list]);
    assert!(run.status == 1 && scratch.path("out/c.txt").exists(), "what the list has no more stays: {}", run.text());
    assert_eq!(odif(&["export", &archive, &out, "--files-from", &list, "--prune"]).status, 0);
    assert!(!scratch.path("out/c.txt").exists());
    let list = scratch.write("list", format!("{CLAIM}\n").as_bytes());
    let run = odif(&["export", &archive, &out, "--files-from", &list]);
    assert!(run.status == 2 && run.stderr.contains("the list names it, and it is not in"), "{}", run.stderr);
    assert!(scratch.path("out/a/z.txt").exists(), "nothing is touched");
}
