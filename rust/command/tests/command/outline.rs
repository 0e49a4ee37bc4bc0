//! `odif outline`

use super::support::{CLAIM, WRONG_PIECE, assert_unreadable_json, letter, odif, odif_with};

/// A page after its frame, a block with a text, and an object that no one carries on.
fn page() -> Vec<u8> {
    let object = |octet: u8, kind: u8, identifier: &str, portions: &[u8]| {
        let name = [&[0x41, identifier.len() as u8], identifier.as_bytes()].concat();
        let body = [&[0x02, 1, kind, 0x31, (name.len() + portions.len()) as u8], &name[..], portions].concat();
        [&[octet, body.len() as u8], &body[..]].concat()
    };
    let unit = b"\xA3\x13\x31\x0D\x40\x0B1 0 0 0 0 0\x04\x02Hi";
    let elements = [
        object(0xA2, 3, "1 0 0", &[]),
        object(0xA2, 2, "1 0", &[]),
        object(0xA2, 4, "1 0 0 0 0", &[0xA1, 3, 0x12, 1, b'0']),
        object(0xA6, 0, "1", &[]),
        object(0xA2, 4, "1 0 0 0", &[]),
        unit.to_vec(),
    ];
    [&[0xA0, 0x00], &elements.concat()[..]].concat()
}

#[test]
fn children_below_their_parents() {
    let run = odif_with(&["outline", "-"], &page());
    let wanted = "    2  1 0  layout object, page\n    \
                  1    1 0 0  layout object, frame\n    \
                  5      1 0 0 0  layout object, block\n    \
                  3        1 0 0 0 0  layout object, block  Hi\n";
    assert_eq!((run.status, run.text()), (0, wanted));
    let run = odif_with(&["outline", "--logical", "-"], &page());
    assert_eq!((run.status, run.text()), (0, "    4  1  logical object, document-logical-root\n"));
}

#[test]
fn json() {
    let run = odif_with(&["outline", "--json", "-"], &letter(b"Hi"));
    assert_eq!(
        run.text(),
        "{\"file\":\"-\",\"outcome\":\"accepted\",\"number\":0,\"place\":0,\"side\":\"layout\",\"outline\":[\
         {\"depth\":0,\"element\":1,\"parent\":null,\"kind\":\"layout object\",\"type\":\"block\",\
         \"identifier\":\"1 0 2\",\"text\":\"Hi\",\"text_hex\":\"4869\"}]}\n"
    );
    let run = odif_with(&["outline", "--json", "-"], &page());
    assert!(run.text().contains("\"depth\":1,\"element\":1,\"parent\":2,"), "{}", run.text());
}

#[test]
fn a_whole_letter_and_a_refused_one() {
    for side in ["layout", "logical"] {
        let run = odif(&["outline", "--side", side, CLAIM]);
        assert_eq!((run.status, run.stderr.as_str()), (0, ""));
    }
    assert_eq!(odif_with(&["outline", "-"], WRONG_PIECE).status, 1);
    let run = odif_with(&["outline", "--json", "-"], WRONG_PIECE);
    assert!(run.text().ends_with(",\"side\":null,\"outline\":[]}\n"), "{}", run.text());
    assert_unreadable_json("outline");
}
