//! `odif text`

use super::support::{CLAIM, IN_PIECES, Scratch, WRONG_PIECE, letter, odif, odif_with, on_terminal};

#[test]
fn the_letter_in_reading_order() {
    let run = odif(&["text", CLAIM]);
    assert_eq!(run.status, 0);
    assert!(run.text().starts_with("Harbour Mutual Insurance\n12 Quay Street, Bristol\n\n14 March 1991\n"));
    assert!(run.text().ends_with("Yours sincerely,\n\nR. Penrose\nClaims Department\n"));
    assert_eq!(run.stderr, "");
    let logical = odif(&["text", "--logical", CLAIM]);
    assert!(logical.text().starts_with("Your claim 4471: water in the cellar\n\n14 March 1991\n"));
    assert_eq!(logical.stdout.len(), run.stdout.len());
}

#[test]
fn exactly_the_octets_of_the_file() {
    let octets: Vec<u8> = (0..=255).collect();
    for part in octets.chunks(64) {
        let run = odif_with(&["text", "--raw", "-"], &letter(part));
        assert_eq!((run.status, run.stdout.as_slice()), (0, part));
        let run = odif_with(&["text", "-"], &letter(part));
        assert_eq!((run.status, run.stdout), (0, [part, b"\n"].concat()), "with the line end of the block");
    }
}

#[test]
fn content_in_pieces_is_joined() {
    let run = odif(&["text", IN_PIECES]);
    assert_eq!((run.status, run.text(), run.stderr.as_str()), (0, "Hi\n", ""));
    assert_eq!(odif(&["text", "--raw", IN_PIECES]).text(), "Hi");
}

#[test]
fn escaped_for_a_terminal() {
    let run = odif_with(&["text", "--escape", "-"], &letter(b"a\x1B[2J\\\r\n\xFFb"));
    assert_eq!(run.text(), "a\\x1B[2J\\\\\\r\n\\xFFb\n");
}

#[test]
fn a_terminal_gets_no_control_sequences() {
    let scratch = Scratch::new("text-terminal");
    let file = scratch.write("red.odif", &letter(b"a\x1B[31mb\x07\xFF"));
    assert_eq!(on_terminal(&["text", &file]), "a\\x1B[31mb\\x07\\xFF\n");
    assert_eq!(odif(&["text", &file]).stdout, b"a\x1B[31mb\x07\xFF\n", "a pipe gets the octets");
    let plain = scratch.write("plain.odif", &letter(b"a\x1B[31mb"));
    assert_eq!(on_terminal(&["text", "--raw", &plain]), "a\u{1B}[31mb", "who asks for them gets them");
}

#[test]
fn a_line_break_between_blocks() {
    let run = odif(&["text", "samples/letters/annex-d-1.odif"]);
    let lines: Vec<&str> = run.text().lines().collect();
    assert_eq!(lines[..2], ["CESSON, 26 JUNE 1985", "To members of ISO/TC97/SC18/WG3"]);
    assert!(run.text().ends_with("\nMiss\n"));
    let raw = odif(&["text", "--raw", "samples/letters/annex-d-1.odif"]);
    assert!(raw.text().starts_with("CESSON, 26 JUNE 1985To members"), "{}", raw.text());
}

#[test]
fn a_letter_with_one_side_is_read_by_that() {
    let run = odif(&["text", "samples/letters/annex-d-2.odif"]);
    assert_eq!((run.status, run.stderr.as_str()), (0, ""));
    assert_eq!(run.stdout, odif(&["text", "--logical", "samples/letters/annex-d-2.odif"]).stdout);
    assert!(!run.text().is_empty());
    let both = odif(&["text", "--side", "logical", CLAIM]);
    assert_ne!(both.stdout, odif(&["text", CLAIM]).stdout, "with two sides it is the layout side");
}

#[test]
fn units_outside_the_reading_order_are_told() {
    let words = ["text", "--side", "layout", "samples/letters/annex-d-2.odif"];
    let run = odif(&words);
    assert_eq!((run.status, run.text()), (0, ""));
    let note = "13 text units of 13 not in the reading order of the layout side: elements ";
    assert!(run.stderr.contains(note) && run.stderr.contains(" and 10 more; with --side"), "{}", run.stderr);
    assert!(run.stderr.contains("with --side logical there are 13"), "{}", run.stderr);
    assert_eq!(odif(&[&words[..], &["--strict"]].concat()).status, 1);
    assert_eq!(odif(&["text", "--strict", CLAIM]).status, 0);
    let run = odif(&["text", "--logical", "samples/letters/annex-d-1.odif"]);
    assert!(run.stderr.contains("with --side layout there are 15"), "{}", run.stderr);
}

#[test]
fn several_files_with_their_names() {
    let scratch = Scratch::new("text-several");
    let (one, two) = (scratch.write("one", &letter(b"1")), scratch.write("two", &letter(b"2\n")));
    let run = odif(&["text", &one, "none", &two]);
    assert_eq!(run.status, 2);
    assert_eq!(run.text(), format!("==> {one} <==\n1\n==> {two} <==\n2\n"));
    assert_eq!(odif(&["text", "--raw", &one, &two]).text(), "12\n");
}

#[test]
fn refused_empty_huge_and_unreadable_files() {
    let scratch = Scratch::new("text-bad");
    let run = odif(&["text", &scratch.write("wrong-piece", WRONG_PIECE)]);
    assert_eq!((run.status, run.text()), (1, ""));
    assert!(run.stderr.contains("refused, number 12 at octet 21: "), "{}", run.stderr);
    assert_eq!(odif(&["text", &scratch.write("empty", b"")]).status, 1);
    assert_eq!(odif(&["text", &scratch.write_huge("huge")]).status, 1);
    let run = odif(&["text", "none"]);
    assert_eq!(run.status, 2);
    assert!(run.stderr.starts_with("odif: none: No such file"), "{}", run.stderr);
}

#[test]
fn utf8_by_a_flag_or_by_what_is_declared() {
    let scratch = Scratch::new("text-utf8");
    let plain = scratch.write("plain", &letter(b"M\xC8uller \xA4 $\x1B[1m"));
    assert_eq!(odif(&["text", "--utf8", &plain]).text(), "Müller $ $⟦1B⟧[1m\n");
    assert_eq!(odif(&["text", "--utf8=t61", &plain]).text(), "Müller $ ¤⟦1B⟧[1m\n");
    assert_eq!(odif(&["text", "--utf8=latin1", &plain]).text(), "MÈuller ¤ $⟦1B⟧[1m\n");
    let on_terminal = on_terminal(&["text", "--utf8=iso6937", &plain]);
    assert_eq!(on_terminal, "Müller $ $⟦1B⟧[1m\n", "nothing for a terminal to obey");
    // a presentation style whose character attributes designate ISO 8859-1
    let style = b"\xA7\x0C\x45\x011\xA3\x07\xA0\x05\x8D\x03\x1B-A";
    let declared = scratch.write("declared", &[&letter(b"M\xFCller")[..], style].concat());
    assert_eq!(odif(&["text", "--utf8", &declared]).text(), "Müller\n");
    assert_eq!(odif(&["text", "--utf8=iso6937", &declared]).text(), "Mþller\n");
}

/// An escape sequence in a text that designates another set is heeded, left out, and told.
#[test]
fn a_set_that_is_designated_in_the_text_is_told() {
    let scratch = Scratch::new("text-designated");
    let file = scratch.write("designated", &letter(b"M\xC8uller \x1B-AM\xFCller\x1B[1m"));
    let run = odif(&["text", "--utf8=iso6937", &file]);
    let note = format!(
        "odif: {file}: 1 escape sequence in the text designated a character set, and the text is split there\n"
    );
    assert_eq!((run.status, run.text(), run.stderr.as_str()), (0, "Müller Müller⟦1B⟧[1m\n", &*note));
    assert_eq!(odif(&["text", "--raw", &file]).stderr, "", "the octets are handed on");
}

/// A set that no one named is told where it matters.
#[test]
fn an_assumed_set_is_told() {
    let scratch = Scratch::new("text-assumed");
    let plain = scratch.write("plain", &letter(b"Z\xFCrich caf\xE9"));
    let run = odif(&["text", "--utf8", &plain]);
    let note = format!(
        "odif: {plain}: the letter declares no character set, so ISO 6937 is taken; with --utf8=SET another is\n"
    );
    assert_eq!((run.status, run.text(), run.stderr.as_str()), (0, "Zþrich cafØ\n", &*note));
    assert_eq!(odif(&["text", "--utf8=latin1", &plain]).stderr, "");
    let ascii = scratch.write("ascii", &letter(b"Zurich"));
    assert_eq!(odif(&["text", "--utf8", &ascii]).stderr, "", "all sets have the same letters for these");
    let style = b"\xA7\x10\x45\x011\xA3\x0B\xA0\x09\x8D\x03\x1B-A\x8D\x02\x1B)";
    let one = scratch.write("one", &[&letter(b"\xFC")[..], style].concat());
    assert_eq!(odif(&["text", "--utf8", &one]).stderr, "");
    let style = b"\xA7\x11\x45\x011\xA3\x0C\xA0\x0A\x8D\x03\x1B-A\x8D\x03\x1B)v";
    let several = scratch.write("several", &[&letter(b"\xFC")[..], style].concat());
    let run = odif(&["text", "--utf8", &several]);
    assert!(run.stderr.contains("the letter declares several character sets, so ISO 6937"), "{}", run.stderr);
}

/// The pages of annex D.1's letter, by its own objects: a block belongs to the page above it.
#[test]
fn pages_of_a_letter() {
    const ANNEX: &str = "samples/letters/annex-d-1.odif";
    let all = odif(&["text", ANNEX]);
    let pages: Vec<String> = ["1", "2", "3"].map(|page| odif(&["text", "--page", page, ANNEX]).text().into()).into();
    assert_eq!(pages.concat(), all.text());
    assert!(pages.iter().all(|page| !page.is_empty()), "{pages:?}");
    assert!(pages[0].starts_with("CESSON, 26 JUNE 1985\n"), "{}", pages[0]);
    let feeds = odif(&["text", "--form-feeds", ANNEX]);
    assert_eq!(feeds.text().split('\x0C').collect::<Vec<_>>(), pages);
    assert_eq!(odif(&["text", "--page", "1,3", "--form-feeds", ANNEX]).text(), [&pages[0][..], &pages[2]].join("\x0C"));
    let raw: Vec<u8> =
        ["1", "2", "3"].iter().flat_map(|page| odif(&["text", "--raw", "--page", page, ANNEX]).stdout).collect();
    assert_eq!(raw, odif(&["text", "--raw", ANNEX]).stdout);
}

#[test]
fn a_page_that_is_not_there() {
    let run = odif(&["text", "--page", "4", "samples/letters/annex-d-1.odif"]);
    assert_eq!((run.status, run.text()), (1, ""));
    assert!(run.stderr.contains("the layout side has 3 pages, and no page 4"), "{}", run.stderr);
    let run = odif(&["text", "--page", "1", "--logical", CLAIM]);
    assert!(run.status == 1 && run.stderr.contains("the logical side has 0 pages, and no page 1"), "{}", run.stderr);
    let run = odif_with(&["text", "--page", "1", "-"], &letter(b"on no page"));
    assert_eq!((run.status, run.text()), (1, ""));
    assert_eq!(odif_with(&["text", "--form-feeds", "-"], &letter(b"on no page")).text(), "on no page\n");
}
