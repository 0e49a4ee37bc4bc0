//! `odif grep`

use super::support::{CLAIM, CUT_SHORT, IN_PIECES, Scratch, item, letter, odif, on_terminal, two_sided};

const ANNEX: &str = "samples/letters/annex-d-1.odif";

#[test]
fn file_page_block_and_line() {
    let run = odif(&["grep", "CESSON", ANNEX, CLAIM]);
    assert_eq!((run.status, run.text()), (0, "samples/letters/annex-d-1.odif:1:1 0 1:CESSON, 26 JUNE 1985\n"));
    let run = odif(&["grep", "^Hi$", IN_PIECES]);
    assert_eq!(run.text(), "samples/letters/in-pieces.odif:-:1 0 2:Hi\n", "joined, and on no page");
    let none = odif(&["grep", "no such words", "samples/letters"]);
    assert_eq!((none.status, none.text()), (1, ""));
    assert_eq!(none.stderr, "odif: 1 of 6 files refused, and not searched\n");
}

/// What `odif text --utf8` writes is what is searched, line by line.
#[test]
fn every_line_is_found() {
    for file in [ANNEX, CLAIM, "samples/letters/annex-d-2.odif"] {
        let text = odif(&["text", "--utf8", file]);
        let lines: Vec<&str> = text.text().split_terminator('\n').map(|line| line.trim_end_matches('\r')).collect();
        let found = odif(&["grep", "--json", "", file]);
        let found: Vec<String> = found.text().lines().map(|line| json(line)["line"].as_str().unwrap().into()).collect();
        assert_eq!(found, lines, "{file}");
    }
}

fn json(line: &str) -> serde_json::Value {
    serde_json::from_str(line).unwrap()
}

#[test]
fn words_of_the_pattern() {
    let scratch = Scratch::new("grep-words");
    let file = scratch.write("a.odif", &letter(b"Stra\xFBe 7 (M\xC8unchen)"));
    for (words, found) in [
        (&["Straße"][..], true),
        (&["M.nchen"], true),
        (&["MÜNCHEN"], false),
        (&["-i", "MÜNCHEN"], true),
        (&["7 (M"], false),
        (&["-F", "7 (M"], true),
        (&[r"\d \(\w+\)$"], true),
    ] {
        let run = odif(&[&["grep"], words, &[file.as_str()]].concat());
        let status = if words == ["7 (M"] { 2 } else { i32::from(!found) };
        assert_eq!(run.status, status, "{words:?} {}", run.stderr);
    }
    let run = odif(&["grep", "--utf8=latin1", "Straûe", &file]);
    assert_eq!(run.status, 0, "another set");
}

/// A line is found alone, whatever stands around it: anchors, edges of words, and what a class of characters has.
#[test]
fn lines_are_apart() {
    let scratch = Scratch::new("grep-apart");
    let file = scratch.write("a.odif", &letter(b"one two\r\nthree\r\n\r\nfour"));
    for (pattern, lines) in [
        ("^three$", 1),
        (r"\Athree\z", 1),
        (r"\bthree\b", 1),
        (r"two$", 1),
        (r"two\s", 0),
        ("[^a-z]", 1),
        ("o[^x]three", 0),
        ("^$", 1),
        ("(?m)^t", 1),
        (r"\Bour\b", 1),
    ] {
        let run = odif(&["grep", pattern, &file]);
        assert_eq!(run.text().lines().count(), lines, "{pattern}: {}", run.text());
    }
}

#[test]
fn json_has_what_matches_where() {
    let scratch = Scratch::new("grep-json");
    let file = scratch.write("a.odif", &two_sided(b"one\nanother one", b"one"));
    let run = odif(&["grep", "--json", "one", &file]);
    let lines: Vec<_> = run.text().lines().map(json).collect();
    assert_eq!(lines.len(), 2);
    assert_eq!(lines[1]["matches"], serde_json::json!([[8, 11]]));
    assert_eq!((&lines[1]["element"], &lines[1]["unit"]), (&1.into(), &3.into()));
    assert_eq!((&lines[1]["block"], &lines[1]["page"]), (&"1 0 2".into(), &serde_json::Value::Null));
    let run = odif(&["grep", "--logical", "--json", "one", &file]);
    assert_eq!(json(run.text().trim())["block"], "3 0");
}

/// Two units of one block are one line of text: it is found across both, in the unit where it begins.
#[test]
fn a_line_over_two_units() {
    let scratch = Scratch::new("grep-units");
    let portions = item(0xA1, &[item(0x12, b"0"), item(0x12, b"1")].concat());
    let block = item(0xA2, &[vec![2, 1, 4], item(0x31, &[item(0x41, b"1"), portions].concat())].concat());
    let unit = |name: &[u8], text: &[u8]| item(0xA3, &[item(0x31, &item(0x40, name)), item(0x04, text)].concat());
    let stream = [item(0xA0, b""), block, unit(b"1 0", b"a\nM\xC8"), unit(b"1 1", b"unchen")].concat();
    let file = scratch.write("a.odif", &stream);
    let found = odif(&["grep", "--json", "^München$", &file]);
    assert_eq!((found.status, &json(found.text().trim())["unit"]), (0, &2.into()), "{}", found.stderr);
}

#[test]
fn names_alone() {
    let scratch = Scratch::new("grep-list");
    for (name, text) in [("in/a b", "x"), ("in/c\nd", "x"), ("in/e", "y")] {
        scratch.write(name, &letter(text.as_bytes()));
    }
    let archive = scratch.word("in");
    assert_eq!(odif(&["grep", "-l", "x", &archive]).text(), format!("{archive}/a b\n{archive}/c\nd\n"));
    assert_eq!(odif(&["grep", "-l", "-0", "x", &archive]).text(), format!("{archive}/a b\0{archive}/c\nd\0"));
    let one = odif(&["grep", "--jobs", "1", "x|y", &archive]);
    assert_eq!(one.text(), odif(&["grep", "--jobs", "3", "x|y", &archive]).text());
}

#[test]
fn what_can_not_be_read_is_told() {
    let run = odif(&["grep", "Hi", "no-such-file", IN_PIECES, CUT_SHORT]);
    assert_eq!((run.status, run.text().lines().count()), (2, 1));
    assert!(run.stderr.contains("no-such-file: No such file"), "{}", run.stderr);
}

#[test]
fn a_terminal_gets_no_control_sequences() {
    let scratch = Scratch::new("grep-terminal");
    let file = scratch.write("a.odif", &letter(b"a\tb\x1B[31mc"));
    assert!(on_terminal(&["grep", "a", &file]).ends_with(":a\\tb⟦1B⟧[31mc\n"));
}
