//! Content in pieces and, in 1993, in tiles: nested and empty pieces, every level, wrong items among them, and as many as there can be.

use odif::{MOST_ELEMENTS, STREAM_LIMIT};

use super::{Case, PROFILE, case, letter, runs_of};
use crate::coding::{Form, indefinite, item, item_in};

/// All short runs of pieces, and of what looks like one, in a definite and an indefinite content, with and without more
/// behind it.
pub fn short_runs() -> Vec<Case> {
    let items = [
        item(0x04, &[]),
        item(0x04, b"t"),
        item_in(Form::Long(4), 0x04, b"uv"),
        item(0x24, &[]),
        indefinite(0x24, &[]),
        item(0x24, &item(0x04, b"w")),
        indefinite(0x24, &[item(0x04, &[0, 0]), indefinite(0x24, &item(0x04, b"x"))].concat()),
        item(0x05, &[]),
        item(0x44, b"y"),
        item(0x24, &[item(0x04, b"z"), item(0x12, b"1")].concat()),
        indefinite(0x24, &item(0x24, &item(0x31, &[]))),
        item(0xA4, &item(0x04, b"q")),
        item(0x30, &item(0x04, b"r")),
    ];
    let mut cases = Vec::new();
    for run in runs_of(&items, 3) {
        for (form, content) in [("a definite", item(0x24, &run)), ("an indefinite", indefinite(0x24, &run))] {
            let named = [item(0x31, &item(0x40, b"1 0")), content.clone()].concat();
            cases.push(case(format!("pieces in {form} content"), letter(&[item(0xA3, &content)])));
            cases.push(case(format!("pieces in {form} content, named"), letter(&[indefinite(0xA3, &named)])));
            cases.push(case(format!("pieces in {form} content twice"), letter(&[item(0xA3, &content.repeat(2))])));
        }
    }
    for misplaced in [0xA0, 0xA1, 0xA2, 0xA5, 0xA6, 0xA7, 0xA8] {
        let contents = [item(0x45, b"1"), item(0x24, &item(0x05, &[]))].concat();
        cases.push(case(format!("pieces in {misplaced:02X}"), letter(&[item(misplaced, &contents)])));
    }
    cases.push(case("pieces in the profile", item(0xA0, &item(0x24, &item(0x05, &[])))));
    let misspelt = [item(0x31, &item(0x40, b"x")), item(0x24, &item(0x05, &[]))].concat();
    cases.push(case("a wrong piece, and a misspelt identifier", letter(&[item(0xA3, &misspelt)])));
    cases
}

/// Pieces down to the deepest level and one past it, each level definite or not, with one item at each level and a wrong
/// one at one of them.
pub fn deep() -> Vec<Case> {
    let innermost: [(&str, Vec<u8>); 7] = [
        ("nothing", vec![]),
        ("a piece", item(0x04, b"in")),
        ("an empty piece", item(0x04, &[])),
        ("an empty 24", item(0x24, &[])),
        ("an indefinite 24", indefinite(0x24, &[])),
        ("a null", item(0x05, &[])),
        ("a set", item(0x31, &[])),
    ];
    let mut cases = Vec::new();
    for depth in [2, 3, 14, 15, 16, 17] {
        for (name, innermost) in &innermost {
            for forms in [0x00000, 0xFFFFF, 0x55555, 0xAAAAA, 0x00004, 0x08000] {
                for wrong in [0, 2, 3, 9, depth - 1, depth] {
                    let stream = letter(&[item(0xA3, &nested(depth, innermost, forms, wrong))]);
                    cases.push(case(format!("{name} in pieces to level {depth}, forms {forms:05X}"), stream));
                }
            }
        }
    }
    cases
}

/// A content of 24 items from level 2 to this depth, each with a piece before and behind the next one. One bit for each
/// level says which are indefinite; where `wrong` is one of the levels, its 24 also has an item that is no piece.
fn nested(depth: usize, innermost: &[u8], forms: usize, wrong: usize) -> Vec<u8> {
    let mut content = innermost.to_vec();
    for level in (2..=depth).rev() {
        let name = [b'a' + level as u8];
        let around = |inner: &[u8]| [item(0x04, &name), inner.to_vec(), item(0x04, &name.repeat(2))].concat();
        // At the deepest level there is no room for pieces beside the innermost item.
        let mut run = if level == depth { content } else { around(&content) };
        if level == wrong {
            run.extend(item(0x13, b"w"));
        }
        content = if forms >> level & 1 == 1 { indefinite(0x24, &run) } else { item(0x24, &run) };
    }
    content
}

/// Content of many pieces, and of one that is long.
pub fn many() -> Vec<Case> {
    let content = |octets: Vec<u8>| letter(&[item(0xA3, &octets)]);
    let text: Vec<u8> = (0..=255).collect();
    let mut cases = Vec::new();
    for count in [127, 128, 255, 256, 1_000] {
        let run: Vec<u8> = (0..count).flat_map(|number| item(0x04, &text[..number % 7])).collect();
        cases.push(case(format!("{count} pieces"), content(item(0x24, &run))));
        cases.push(case(format!("{count} pieces, indefinite"), content(indefinite(0x24, &run))));
        let in_turn: Vec<u8> =
            (0..count).flat_map(|number| indefinite(0x24, &item(0x04, &text[..number % 5]))).collect();
        cases.push(case(format!("{count} nested pieces"), content(item(0x24, &in_turn))));
    }
    for length in [0x7F, 0x80, 0xFF, 0x100, 0xFFFF, 0x10000] {
        let run = [item(0x04, b"("), item(0x04, &vec![b'x'; length]), item(0x04, b")")].concat();
        cases.push(case(format!("a piece of {length} octets"), content(indefinite(0x24, &run))));
    }
    cases
}

/// Pieces that fill a stream, and units in pieces that fill a table.
pub fn most() -> Vec<Case> {
    let mut cases = Vec::new();
    let room = STREAM_LIMIT - 12;
    for length in [room - 1, room, room + 1] {
        let first = item(0x04, &vec![b'f'; 1 + length % 3]);
        let run = [first, item(0x04, b"g").repeat(length / 3 - 1)].concat();
        let stream = [&PROFILE[..], &item_in(Form::Long(3), 0xA3, &item_in(Form::Long(3), 0x24, &run))].concat();
        cases.push(case(format!("{length} octets of pieces"), stream));
    }
    let unit = |number: usize| {
        let name = item(0x31, &item(0x40, number.to_string().as_bytes()));
        let pieces: Vec<u8> = (0..number % 4).flat_map(|count| item(0x04, &b"text"[..count])).collect();
        item(0xA3, &[name, item(0x24, &pieces)].concat())
    };
    let units: Vec<_> = (0..MOST_ELEMENTS - 1).map(unit).collect();
    cases.push(case("all elements are units in pieces", letter(&units)));
    cases
}

/// A letter in tiles: each 24 that is a unit's own item is a 30 instead.
pub fn tiles() -> Vec<Case> {
    let tiled = |(name, mut stream): Case| {
        let reading = reader::Reading::of(&stream);
        let items = reading.tree().items().iter();
        let contents: Vec<usize> =
            items.filter(|item| item.level() == 2 && item.octet() == 0x24).map(reader::Item::first).collect();
        contents.into_iter().for_each(|content| stream[content] = 0x30);
        case(format!("{name}, as tiles"), stream)
    };
    [short_runs(), deep(), many(), most()].into_iter().flatten().map(tiled).collect()
}
