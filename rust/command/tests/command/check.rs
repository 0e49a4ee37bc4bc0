//! `odif check`

use super::support::{CLAIM, CUT_SHORT, IN_PIECES, Scratch, WRONG_PIECE, letter, odif, odif_with};

#[test]
fn an_accepted_letter_with_its_counts() {
    let run = odif(&["check", CLAIM]);
    assert_eq!(run.status, 0);
    assert_eq!(run.text(), "samples/letters/claim.odif: accepted, 22 elements, 149 items, 1,080 octets\n");
    assert_eq!(run.stderr, "");
}

#[test]
fn a_refusal_in_words_with_the_octets_around_it() {
    let run = odif(&["check", CUT_SHORT]);
    assert_eq!(run.status, 1);
    let lines: Vec<&str> = run.text().lines().collect();
    let wanted = "samples/letters/cut-short.odif: refused, number 7 at octet 887: the item 41 says that its value has \
        5 octets; up to the end of the stream there is room for 1";
    assert_eq!(lines[0], wanted);
    assert!(lines[1].starts_with("  rule 7: a header, a value or a closing mark passes its limit"), "{}", lines[1]);
    assert_eq!(lines[3], "  000370  A2 80 02 01 04 31 80[41]05 31                   .....1.A.1");
}

#[test]
fn a_refused_element_is_named() {
    let run = odif_with(&["check", "--hex", "-"], b"A000 A6 05 02 01 03 31 00");
    assert_eq!(run.status, 1);
    let wanted = "standard input: refused, number 13 at octet 2: element 1 (counted from 0), a logical object: the object \
        type is outside its range: 03\n";
    assert!(run.text().starts_with(wanted), "{}", run.text());
}

#[test]
fn empty_files() {
    let scratch = Scratch::new("check-empty");
    let run = odif(&["check", &scratch.write("empty.odif", b"")]);
    assert_eq!(run.status, 1);
    assert!(run.text().contains("refused, number 11 at octet 0: the stream is empty\n  rule 11: "), "{}", run.text());
}

#[test]
fn huge_files() {
    let scratch = Scratch::new("check-huge");
    let run = odif(&["check", &scratch.write_huge("huge.odif")]);
    assert_eq!(run.status, 1);
    assert!(run.text().contains("refused, number 1 at octet 0: the stream is over 1,048,576 octets\n"));
    assert!(odif(&["check", "--json", &scratch.word("huge.odif")]).text().contains(",\"octets\":8589934592,"));
    let run = odif_with(&["check", "--json", "-"], &vec![0; odif::STREAM_LIMIT + 9]);
    assert!(run.text().contains(",\"octets\":null,"), "not all of a pipe is read: {}", run.text());
    let mut most = vec![0xA0, 0x83, 0x0F, 0xFF, 0xFB, 0x04, 0x83, 0x0F, 0xFF, 0xF6];
    most.resize(odif::STREAM_LIMIT, b'x');
    assert_eq!(odif(&["check", &scratch.write("most.odif", &most)]).status, 0);
    most.push(b'x');
    assert_eq!(odif(&["check", &scratch.write("more.odif", &most)]).status, 1);
}

#[test]
fn unreadable_files_do_not_stop_it() {
    let scratch = Scratch::new("check-unreadable");
    let wrong_piece = scratch.write("wrong-piece.odif", WRONG_PIECE);
    let run = odif(&["check", "no-such-file.odif", CLAIM, &wrong_piece, IN_PIECES]);
    assert_eq!(run.status, 2);
    assert!(run.stderr.contains("odif: no-such-file.odif: No such file"), "{}", run.stderr);
    assert!(run.text().contains("claim.odif: accepted"));
    assert!(run.text().contains("wrong-piece.odif: refused, number 12 at octet 21: "));
    let detail =
        "element 2 (counted from 0), a text unit: an item among the pieces of the content is neither 04 nor 24";
    assert!(run.text().contains(detail), "{}", run.text());
    assert!(run.text().ends_with("in-pieces.odif: accepted, 3 elements, 13 items, 42 octets\n"), "{}", run.text());
}

#[test]
fn quiet() {
    for (words, status) in [(&[CLAIM][..], 0), (&[CLAIM, CUT_SHORT], 1), (&["--blocks", "7", CUT_SHORT], 1)] {
        let run = odif(&[&["check", "-q"], words].concat());
        assert_eq!((run.status, run.text(), run.stderr.as_str()), (status, "", ""), "{words:?}");
    }
    assert_eq!(odif(&["check", "-q", "--second", CLAIM]).text(), "");
    let run = odif(&["check", "--quiet", "none", CLAIM]);
    assert!(run.status == 2 && run.stderr.contains("none: No such file"), "what can't be read is told");
    assert!(odif(&["check", "-q", "--json", CLAIM]).stderr.contains("cannot be used with"));
}

#[test]
fn json_lines() {
    let scratch = Scratch::new("check-json");
    let wrong_piece = scratch.write("wrong-piece.odif", WRONG_PIECE);
    let run = odif(&["check", "--json", CLAIM, &wrong_piece, "none"]);
    assert_eq!(run.status, 2);
    let lines: Vec<&str> = run.text().lines().collect();
    assert_eq!(
        lines[0],
        r#"{"file":"samples/letters/claim.odif","outcome":"accepted","number":0,"place":0,"octets":1080,"headers":149,"elements":22,"date":null,"side":"layout","not_shown":[]}"#
    );
    assert!(lines[1].contains(r#""outcome":"refused","number":12,"place":21,"#), "{}", lines[1]);
    assert!(lines[1].contains(r#","element":2,"kind":"text unit","item":"31(40) 24(04 05)","#), "{}", lines[1]);
    assert!(lines[1].contains(r#""around":{"first":5,"hex":"0104310C"#), "{}", lines[1]);
    assert!(
        lines[1].ends_with(r#","octets":41,"headers":13,"elements":0,"date":null,"side":null,"not_shown":[]}"#),
        "{}",
        lines[1]
    );
    assert!(lines[2].starts_with(r#"{"file":"none","outcome":"unreadable","reason":""#), "{}", lines[2]);
    assert_eq!(lines.len(), 3);
}

#[test]
fn standard_input_and_hexadecimal_digits() {
    assert_eq!(odif_with(&["check", "-"], &letter(b"Hi")).status, 0);
    let run = odif_with(&["check", "--hex", "-"], b"A0 80\n00 00\n");
    assert_eq!(run.text(), "standard input: accepted, 1 element, 1 item, 4 octets\n");
    let run = odif_with(&["check", "--hex", "-"], b"A000\nA0 0g\n");
    assert_eq!(run.status, 2);
    assert!(run.stderr.contains("standard input: line 2: "), "{}", run.stderr);
    assert_eq!(odif(&["check", "--hex", "vectors/annex-d-1.hex"]).status, 0);
}

#[test]
fn names_that_look_like_options_or_hold_control_characters() {
    let scratch = Scratch::new("check-names");
    let name = scratch.write("a\u{1B}[31m\n.odif", &letter(b"Hi"));
    let run = odif(&["check", "--", &name]);
    assert_eq!(run.status, 0);
    assert!(run.text().contains("a\\x1B[31m\\n.odif: accepted"), "{}", run.text());
    assert_eq!(odif(&["check", "--", "--hex"]).status, 2);
}

/// Which text units are not shown, and where they stand.
#[test]
fn units_that_the_text_does_not_show() {
    let unit = |identifier: u8| [&b"\xA3\x08\x31\x03\x40\x01"[..], &[identifier], b"\x04\x01x"].concat();
    let stream = [&letter(b"Hi")[..], &(b'1'..=b'5').flat_map(unit).collect::<Vec<u8>>()].concat();
    let run = odif_with(&["check", "-"], &stream);
    let wanted = "; 5 text units of 6 not shown by the layout side: elements 3 at octet 38, 4 at octet 48, 5 at octet 58 and 2 \
        more\n";
    assert!(run.status == 0 && run.text().ends_with(wanted), "{}", run.text());
    let run = odif_with(&["check", "--json", "-"], &stream);
    assert!(run.text().contains(r#""side":"layout","not_shown":[{"unit":3,"place":38,"first":47,"past":48},"#));
    assert_eq!(run.text().matches("\"unit\":").count(), 5, "{}", run.text());
}

/// The independent reader is asked about the user's own files, and a refused one is agreed on too.
#[test]
fn a_second_opinion() {
    let run = odif(&["check", "--second", CLAIM, CUT_SHORT]);
    assert_eq!(run.status, 1, "{}", run.text());
    assert_eq!(run.text().matches("\n  the independent reader agrees, in ").count(), 2, "{}", run.text());
    let run = odif(&["check", "--second", "--json", CLAIM]);
    assert!(run.text().contains(r#","second":{"agrees":true,"comparisons":"#), "{}", run.text());
    assert!(run.text().ends_with(",\"differing\":0,\"differences\":[]}}\n"), "{}", run.text());
    assert!(!odif(&["check", "--json", CLAIM]).text().contains("second"));
    assert_eq!(odif(&["check", "--second", "--blocks", "1", CLAIM]).status, 2);
}

#[test]
fn standard_input_is_read_once() {
    for name in ["check", "text", "date", "pages"] {
        let run = odif_with(&[name, "-", "-"], &letter(b"Hi"));
        assert_eq!((run.status, run.text()), (2, ""));
        assert!(run.stderr.contains("standard input can be read once"), "{}", run.stderr);
    }
}
