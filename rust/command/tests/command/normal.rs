//! `odif normal`

use std::fs;
use std::os::unix::fs::{PermissionsExt, symlink};

use super::support::{self, CLAIM, IN_PIECES, Scratch, WRONG_PIECE, limited, odif, odif_with};

#[test]
fn written_to_a_file() {
    let scratch = Scratch::new("normal-file");
    let out = scratch.word("out.odif");
    let run = odif(&["normal", CLAIM, "-o", &out]);
    assert_eq!((run.status, run.text(), run.stderr.as_str()), (0, "", ""));
    let normal = fs::read(&out).unwrap();
    assert!(normal.len() < 1_080);
    assert_eq!(odif(&["text", &out]).stdout, odif(&["text", CLAIM]).stdout);
    let again = odif(&["normal", &out]);
    assert_eq!(again.stdout, normal);
    let same_file = odif(&["normal", &out, "-o", &out]);
    assert_eq!((same_file.status, fs::read(&out).unwrap()), (0, normal));
}

#[test]
fn written_to_standard_output() {
    for words in
        [&["normal", "--hex", "-"][..], &["normal", "--hex", "-", "-o", "-"], &["normal", "-o=-", "--hex", "-"]]
    {
        let run = odif_with(words, b"A0800000");
        assert_eq!((run.status, run.stdout), (0, vec![0xA0, 0x00]));
    }
}

#[test]
fn a_refused_letter_leaves_the_file_alone() {
    let scratch = Scratch::new("normal-refused");
    let out = scratch.write("out.odif", b"as it was");
    let run = odif(&["normal", &scratch.write("wrong-piece", WRONG_PIECE), "-o", &out]);
    assert_eq!(run.status, 1);
    assert!(run.stderr.contains("number 12 at octet 21"), "{}", run.stderr);
    assert_eq!(fs::read(&out).unwrap(), b"as it was");
}

#[test]
fn a_failing_write_leaves_the_letter_as_it_was() {
    let scratch = Scratch::new("normal-failing");
    let mut stream = vec![0xA0, 0x84, 0x00, 0x04, 0x93, 0xE5, 0x04, 0x83, 0x04, 0x93, 0xE0];
    stream.resize(300_011, b'x');
    let file = scratch.write("letter.odif", &stream);
    let run = limited(100, &["normal", &file, "-o", &file]);
    assert_eq!(run.status, 2);
    assert!(run.stderr.contains("letter.odif: File too large"), "{}", run.stderr);
    assert_eq!(fs::read(&file).unwrap(), stream);
    assert_eq!(scratch.names(), ["letter.odif"], "nothing is left beside it");
    assert_eq!(odif(&["normal", &file, "-o", &file]).status, 0);
    assert_eq!(fs::read(&file).unwrap().len(), 300_010);
}

#[test]
fn a_replaced_file_keeps_its_mode_and_its_links() {
    let scratch = Scratch::new("normal-mode");
    let file = scratch.write("letter.odif", &fs::read(support::repository().join(CLAIM)).unwrap());
    fs::set_permissions(&file, fs::Permissions::from_mode(0o640)).unwrap();
    symlink("letter.odif", scratch.path("link.odif")).unwrap();
    let link = scratch.word("link.odif");
    assert_eq!(odif(&["normal", &link, "-o", &link]).status, 0);
    assert!(fs::symlink_metadata(&link).unwrap().is_symlink());
    let about = fs::metadata(&file).unwrap();
    assert_eq!((about.permissions().mode() & 0o777, about.len() < 1_080), (0o640, true));
    let fresh = scratch.word("fresh.odif");
    assert_eq!(odif(&["normal", CLAIM, "-o", &fresh]).status, 0);
    let plain = fs::metadata(scratch.write("plain", b"")).unwrap().permissions().mode();
    assert_eq!(fs::metadata(&fresh).unwrap().permissions().mode(), plain, "as any new file has it");
}

#[test]
fn several_letters_into_a_folder() {
    let scratch = Scratch::new("normal-into");
    fs::create_dir(scratch.path("out")).unwrap();
    let bad = scratch.write("bad.odif", WRONG_PIECE);
    let run = odif(&["normal", CLAIM, &bad, IN_PIECES, "--into", &scratch.word("out")]);
    assert_eq!(run.status, 1);
    assert_eq!(fs::read(scratch.path("out/claim.odif")).unwrap(), odif(&["normal", CLAIM]).stdout);
    assert!(scratch.path("out/in-pieces.odif").exists() && !scratch.path("out/bad.odif").exists());
}

#[test]
fn a_normal_form_over_the_limit() {
    let scratch = Scratch::new("normal-long");
    let mut stream = vec![0xA0, 0x80, 0x04, 0x83, 0x0F, 0xFF, 0xF7];
    stream.resize(odif::STREAM_LIMIT - 2, b'x');
    stream.extend([0, 0]);
    let run = odif(&["normal", &scratch.write("long", &stream), "-o", &scratch.word("out")]);
    assert_eq!(run.status, 1);
    assert!(run.stderr.contains("number 17 at octet 0: the normal form is over"), "{}", run.stderr);
}

#[test]
fn empty_huge_and_unreadable_files() {
    let scratch = Scratch::new("normal-bad");
    assert_eq!(odif(&["normal", &scratch.write("empty", b"")]).status, 1);
    assert_eq!(odif(&["normal", &scratch.write_huge("huge")]).status, 1);
    assert_eq!(odif(&["normal", "none"]).status, 2);
    let run = odif(&["normal", CLAIM, "-o", &scratch.word("no-such-folder/out")]);
    assert_eq!(run.status, 2);
    assert!(run.stderr.contains("no-such-folder/out: No such file"), "{}", run.stderr);
}

#[test]
fn the_folder_is_made() {
    let scratch = Scratch::new("normal-folder");
    let folder = scratch.word("some/where");
    let run = odif(&["normal", CLAIM, IN_PIECES, "--into", &folder]);
    assert_eq!((run.status, run.stderr.as_str()), (0, ""));
    assert_eq!(fs::read_dir(&folder).unwrap().count(), 2);
}
