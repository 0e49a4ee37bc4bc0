//! `odif export --verify`

use std::fs;

use super::support::{Run, Scratch, letter, odif, two_sided};

/// An archive of three letters and a file that is none, and its export.
fn exported(name: &str) -> Scratch {
    let scratch = Scratch::new(name);
    scratch.write("in/a", &two_sided(b"AAAA", b"BBBB"));
    scratch.write("in/b/c", &letter(b"see"));
    scratch.write("in/d", &letter(b"dee"));
    scratch.write("in/none", b"no letter");
    assert_eq!(odif(&["export", &scratch.word("in"), &scratch.word("out")]).status, 1);
    scratch
}

fn verify(scratch: &Scratch) -> Run {
    odif(&["export", "--verify", &scratch.word("out")])
}

#[test]
fn nothing_differs() {
    let scratch = exported("verify-same");
    let run = verify(&scratch);
    assert_eq!((run.status, run.text()), (0, "4 lines, 4 sources read again, 0 differences\n"), "{}", run.stderr);
    fs::rename(scratch.path("in"), scratch.path("moved")).unwrap();
    assert_eq!(verify(&scratch).text(), "4 lines, 0 sources read again, 0 differences\n");
    let run = odif(&["export", "--verify", &scratch.word("out"), &scratch.word("moved")]);
    assert_eq!((run.status, run.text()), (0, "4 lines, 4 sources read again, 0 differences\n"));
}

#[test]
fn a_bit_of_a_text() {
    let scratch = exported("verify-bit");
    fs::write(scratch.path("out/b/c.txt"), "sed\n").unwrap();
    let run = verify(&scratch);
    let wanted = "b/c: its text has other octets\n4 lines, 4 sources read again, 1 difference\n";
    assert_eq!((run.status, run.text()), (1, wanted));
    let run = odif(&["export", &scratch.word("in"), &scratch.word("out")]);
    assert!(run.text().ends_with("\n3 were done before\n"), "the next run writes it anew: {}", run.text());
    assert_eq!(verify(&scratch).status, 0);
}

#[test]
fn what_else_differs() {
    let scratch = exported("verify-more");
    fs::remove_file(scratch.path("out/a.txt")).unwrap();
    scratch.write("in/b/c", &letter(b"sea"));
    scratch.write("out/none.txt", b"stale");
    let manifest = fs::read_to_string(scratch.path("out/manifest.csv")).unwrap();
    fs::write(scratch.path("out/manifest.csv"), manifest.replacen("d,accepted,0,0,", "d,accepted,0,2,", 1)).unwrap();
    scratch.write("out/manifest.part", b"");
    let run = verify(&scratch);
    assert_eq!(run.status, 1);
    let wanted = [
        "manifest.part: an export was interrupted here; run it again".into(),
        "manifest.csv: damaged or altered: 1 line".into(),
        "a: its text is not there".into(),
        "b/c: the source has other octets".into(),
        format!("{}: it is no line's text", scratch.word("out/d.txt")),
        format!("{}: it is no line's text", scratch.word("out/none.txt")),
        "3 lines, 3 sources read again, 6 differences".to_string(),
    ];
    assert_eq!(run.text().lines().collect::<Vec<_>>(), wanted);
}

#[test]
fn what_is_no_export() {
    let scratch = exported("verify-none");
    for name in ["in", "nowhere"] {
        let run = odif(&["export", "--verify", &scratch.word(name)]);
        assert!(run.status == 2 && run.stderr.contains("it has no manifest.csv"), "{}", run.stderr);
        assert!(!scratch.path(name).join("manifest.lock").exists());
    }
    for words in [&["--strict"][..], &["--prune"], &["--hex"], &["x", "y"]] {
        assert_eq!(odif(&[&["export", "--verify", &scratch.word("out")], words].concat()).status, 2, "{words:?}");
    }
    assert_eq!(odif(&["export", &scratch.word("in")]).status, 2);
}
