//! The text of a side: contents of every make in every order, as many lines as there can be, and as long a text.

use odif::{MOST_ELEMENTS, STREAM_LIMIT};

use super::{Case, case, letter, object, portions};
use crate::coding::{indefinite, item};

/// The two sides: the octet of an object, and that of a unit's identifier.
const SIDES: [(u8, u8); 2] = [(0xA2, 0x40), (0xA6, 0x84)];

/// An object with so many portions.
fn holder(octet: u8, name: &str, count: usize) -> Vec<u8> {
    let numbers: Vec<String> = (0..count).map(|portion| portion.to_string()).collect();
    object(octet, &[item(0x41, name.as_bytes()), portions(&numbers)].concat())
}

/// A unit with these items as its content, or with none.
fn unit(identifier: u8, name: &str, content: &[u8]) -> Vec<u8> {
    item(0xA3, &[item(0x31, &item(identifier, name.as_bytes())), content.to_vec()].concat())
}

/// Three units of one block or of three, in every order, with contents of every make.
pub fn orders() -> Vec<Case> {
    let tiles = item(0x30, &[item(0x04, b"ti"), item(0x24, &item(0x04, b"le"))].concat());
    let contents = [
        item(0x04, b"one"),
        item(0x04, b""),
        item(0x24, &[item(0x04, b"pie"), item(0x04, b""), item(0x24, &item(0x04, b"ces"))].concat()),
        indefinite(0x24, &[]),
        tiles,
        Vec::new(),
    ];
    let mut cases = Vec::new();
    for (octet, identifier) in SIDES {
        for choice in 0..contents.len().pow(3) {
            let content = |place: u32| &contents[choice / contents.len().pow(place) % contents.len()];
            for (number, order) in [[0, 1, 2], [0, 2, 1], [1, 0, 2], [1, 2, 0], [2, 0, 1], [2, 1, 0]].iter().enumerate()
            {
                let in_one = order.map(|place| unit(identifier, &format!("1 {place}"), content(place)));
                let in_three = order.map(|place| unit(identifier, &format!("{place} 0"), content(place)));
                let name = format!("contents {choice} in order {number} of {octet:02X}");
                let block = vec![holder(octet, "1", 3)];
                cases.push(case(format!("{name}, one block"), letter(&[&in_one[..], &block].concat())));
                let blocks: Vec<_> = (0..3).map(|block| holder(octet, &block.to_string(), 1)).collect();
                cases.push(case(format!("{name}, three blocks"), letter(&[&blocks[..], &in_three].concat())));
            }
        }
    }
    cases
}

/// 63 blocks of 64 portions with all their units, and the units of half of them.
pub fn most() -> Vec<Case> {
    let blocks = (MOST_ELEMENTS - 1) / 65;
    let mut cases = Vec::new();
    for (octet, identifier) in SIDES {
        for every in [1, 2] {
            let holders = (0..blocks).map(|block| holder(octet, &block.to_string(), 64));
            let units = (0..blocks).flat_map(|block| (0..64).step_by(every).map(move |portion| (block, portion)));
            let units = units.map(|(block, portion)| {
                unit(identifier, &format!("{block} {portion}"), &item(0x04, format!("{block}.{portion} ").as_bytes()))
            });
            let elements: Vec<_> = units.rev().chain(holders).collect();
            let name = format!("{blocks} blocks of 64 portions of {octet:02X}, every {every}");
            cases.push(case(name, letter(&elements)));
        }
    }
    cases
}

/// A unit as long as can be between an empty and a short one, in one piece and in many.
pub fn long() -> Vec<Case> {
    let mut cases = Vec::new();
    for (octet, identifier) in SIDES {
        let around = |content: Vec<u8>| {
            letter(&[
                holder(octet, "1", 3),
                unit(identifier, "1 0", &item(0x04, b"")),
                unit(identifier, "1 1", &content),
                unit(identifier, "1 2", &item(0x04, b"last")),
            ])
        };
        let room = STREAM_LIMIT - around(item(0x04, &vec![0; 70_000])).len() + 70_000;
        for length in [room - 1, room, room + 1] {
            cases.push(case(format!("a text of {length} octets"), around(item(0x04, &vec![b'x'; length]))));
        }
        cases.push(case("a text in many pieces", around(item(0x24, &item(0x04, b"x").repeat(room / 3)))));
    }
    cases
}

#[cfg(test)]
mod tests {
    use super::*;
    use reader::{Edition, Reading, Side};

    #[test]
    fn the_texts_are_as_long_as_they_say() {
        let [_, longest, over, pieces, ..] = &long()[..] else { panic!("eight cases") };
        assert_eq!(longest.1.len(), STREAM_LIMIT);
        let (lines, text) = Reading::of(&longest.1).whole_text(Side::Layout);
        assert_eq!((lines.len(), longest.0.clone()), (3, format!("a text of {} octets", text.len() - b"last".len())));
        assert_eq!(Reading::of(&over.1).refusal().map(|refusal| refusal.number()), Some(1));
        assert_eq!(Reading::of(&pieces.1).whole_text(Side::Layout).0.len(), 3);
        assert_eq!(Reading::of(&most()[0].1).whole_text(Side::Layout).0.len(), 63 * 64);
        for (name, stream) in orders() {
            assert_eq!(Reading::by(Edition::Of1993, &stream).refusal(), None, "{name}");
        }
    }
}
