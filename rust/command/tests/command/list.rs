//! `odif list`

use super::support::{CLAIM, IN_PIECES, Scratch, WRONG_PIECE, assert_unreadable_json, letter, odif, odif_with};

#[test]
fn matches_in_reading_order() {
    let run = odif_with(&["list", "-"], &letter(b"Hi\n"));
    let wanted = "element portion  unit  octets  identifier  content\n      \
                  1       0     2       3  1 0 2 0     Hi\\n\n";
    assert_eq!((run.status, run.text()), (0, wanted));
    let run = odif_with(&["list", "--logical", "-"], &letter(b"Hi"));
    assert_eq!((run.status, run.text().lines().count()), (0, 1));
    assert!(run.stderr.contains("1 text unit of 1 not in the reading order of the logical side"), "{}", run.stderr);
    let run = odif(&["list", "--logical", CLAIM]);
    assert_eq!((run.text().lines().count(), run.stderr.as_str()), (10, ""));
}

#[test]
fn json() {
    let run = odif_with(&["list", "--json", "-"], &letter(b"Hi"));
    assert_eq!(
        run.text(),
        "{\"file\":\"-\",\"outcome\":\"accepted\",\"number\":0,\"place\":0,\
         \"side\":\"layout\",\"elements\":3,\"matches\":[\
         {\"element\":1,\"portion\":0,\"unit\":2,\"identifier\":\"1 0 2 0\",\
         \"octets\":2,\"in_pieces\":false,\"first\":36,\"past\":38,\"content\":\"Hi\",\"content_hex\":\"4869\"}],\"not_shown\":[]}\n"
    );
    let run = odif_with(&["list", "--json", "-"], WRONG_PIECE);
    assert_eq!(run.status, 1);
    assert!(run.text().contains("\"outcome\":\"refused\",\"number\":12,"), "{}", run.text());
    assert!(run.text().ends_with(",\"side\":null,\"elements\":0,\"matches\":[],\"not_shown\":[]}\n"), "{}", run.text());
}

/// No octet is altered, and nothing is escaped but by JSON: what a program reads is what stands there.
#[test]
fn octets_in_json_are_exact() {
    for (text, string) in [
        (&b"a\\n\n\t\"\x1B[1m\x00"[..], r#""a\\n\n\t\"\u001b[1m\u0000""#),
        (b"Z\xFCrich", "null"),
        (b"\x7F", "null"),
        (b"", "\"\""),
    ] {
        let hex: String = text.iter().map(|octet| format!("{octet:02X}")).collect();
        for (subcommand, name) in [("list", "content"), ("outline", "text")] {
            let run = odif_with(&[subcommand, "--json", "-"], &letter(text));
            let wanted = format!("\"{name}\":{string},\"{name}_hex\":\"{hex}\"}}");
            assert!(run.text().contains(&wanted), "{wanted}: {}", run.text());
        }
    }
}

/// A letter with two units, of which the second is no one's.
#[test]
fn units_that_are_not_listed_and_where_they_stand() {
    let stream = [&letter(b"Hi")[..], b"\xA3\x0A\x31\x05\x40\x039 9\x04\x01x"].concat();
    let run = odif_with(&["list", "-"], &stream);
    let note = "1 text unit of 2 not in the reading order of the layout side: element 3 at octet 38\n";
    assert!(run.stderr.ends_with(note), "{}", run.stderr);
    let run = odif_with(&["list", "--json", "-"], &stream);
    let wanted = ",\"not_shown\":[{\"unit\":3,\"place\":38,\"first\":49,\"past\":50}]}\n";
    assert!(run.text().ends_with(wanted), "{}", run.text());
}

#[test]
fn content_in_pieces_is_joined() {
    let run = odif(&["list", IN_PIECES]);
    assert!(run.text().ends_with("\n      1       0     2       2  1 0 2 0     Hi\n"), "{}", run.text());
    let run = odif(&["list", "--json", IN_PIECES]);
    assert_eq!(run.status, 0);
    assert!(
        run.text().contains("\"octets\":2,\"in_pieces\":true,\"first\":36,\"past\":42,\"content\":\"Hi\","),
        "{}",
        run.text()
    );
}

#[test]
fn refused_empty_huge_and_unreadable_files() {
    let scratch = Scratch::new("list-bad");
    let run = odif(&["list", &scratch.write("wrong-piece", WRONG_PIECE)]);
    assert_eq!((run.status, run.text()), (1, ""));
    assert!(run.stderr.contains("number 12 at octet 21"), "{}", run.stderr);
    assert_eq!(odif(&["list", &scratch.write("empty", b"")]).status, 1);
    assert_eq!(odif(&["list", &scratch.write_huge("huge")]).status, 1);
    assert_eq!(odif(&["list", "none"]).status, 2);
    assert_unreadable_json("list");
}
