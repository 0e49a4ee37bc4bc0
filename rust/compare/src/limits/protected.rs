//! Protected parts of 1993: their two items and every other run of items, strings in pieces, their names, as many as there
//! can be, and what stands before and after them.

use odif::MOST_ELEMENTS;

use super::{Case, case, letter, object, portions, runs_of, unit};
use crate::coding::{Form, indefinite, item, item_in};

/// The octets of the protected parts, and those beside them.
const OCTETS: std::ops::RangeInclusive<u8> = 0xA8..=0xAD;

/// A protected part with these items, with the information of another one too.
fn part(octet: u8, identifier: &[u8], information: &[u8]) -> Vec<u8> {
    let inner = if octet == 0xA9 { 0x03 } else { 0x04 };
    item(octet, &[item(0x47, identifier), item(inner, information)].concat())
}

/// All runs of up to three items, each of which one might take for one of the two.
pub fn contents() -> Vec<Case> {
    let mut items: Vec<Vec<u8>> = [0x03, 0x04, 0x05, 0x13, 0x41, 0x44, 0x45, 0x47].map(|octet| item(octet, &[])).into();
    items.extend([0x23, 0x24, 0x30, 0x31, 0x67].map(|octet| item(octet, &[])));
    let mut cases = Vec::new();
    for run in runs_of(&items, 3) {
        for octet in OCTETS {
            cases.push(case(format!("contents of {octet:02X}"), letter(&[item(octet, &run)])));
        }
        cases.push(case("contents of an indefinite AA", letter(&[indefinite(0xAA, &run)])));
    }
    // A constructed string is one of the two if it holds its own pieces; what is in another item does not make it one.
    for octet in OCTETS {
        for (outer, inner) in [(0x67, 0x13), (0x67, 0x47), (0x24, 0x04), (0x23, 0x03), (0x30, 0x04)] {
            let constructed = item(outer, &item(inner, b"1"));
            for run in [[constructed.clone(), item(0x04, b"1")], [item(0x47, b"1"), constructed.clone()]] {
                cases.push(case(format!("{outer:02X} in {octet:02X}"), letter(&[item(octet, &run.concat())])));
            }
        }
        cases.push(case(format!("{octet:02X} first of all"), part(octet, b"1", b"")));
        cases.push(case(format!("a primitive {octet:02X}"), letter(&[item(octet & !0x20, &[])])));
    }
    cases
}

/// Strings in pieces: every short run of what may be a piece and what may not, and pieces down to the deepest level and
/// one past it, with a wrong one at one of the levels.
pub fn pieces() -> Vec<Case> {
    let mut cases = Vec::new();
    let items = [
        item(0x03, &[]),
        item(0x03, &[7, 0x80]),
        item(0x04, &[]),
        item(0x04, b"xy"),
        item(0x05, &[]),
        item(0x23, &[]),
        indefinite(0x23, &item(0x03, &[0])),
        item(0x23, &item(0x04, b"x")),
        item(0x24, &[]),
        indefinite(0x24, &item(0x04, b"x")),
        item(0x24, &item(0x03, &[0])),
        item(0x30, &item(0x04, b"x")),
    ];
    for run in runs_of(&items, 3) {
        for octet in [0xA9, 0xAA, 0xAC] {
            for string in [item(0x23, &run), indefinite(0x24, &run)] {
                let inner = [item(0x47, b"1"), string].concat();
                cases.push(case(format!("pieces in {octet:02X}"), letter(&[item(octet, &inner)])));
            }
        }
    }
    for (octet, string) in [(0xA9, 0x03), (0xAA, 0x04), (0xAB, 0x04), (0xAC, 0x04)] {
        for depth in [2, 3, 14, 15, 16] {
            for wrong in 0..=depth {
                let mut nested = item(string, &[0]);
                for level in (2..=depth).rev() {
                    if level == wrong {
                        nested.extend(item(string ^ 0x07, &[0]));
                    }
                    nested =
                        if level % 3 == 0 { indefinite(string | 0x20, &nested) } else { item(string | 0x20, &nested) };
                }
                let inner = [item(0x47, b"1"), nested].concat();
                cases.push(case(format!("{octet:02X} in pieces to level {depth}"), letter(&[item(octet, &inner)])));
            }
        }
    }
    cases
}

/// Names of protected parts that are no names, or those of other elements; and content in every form of its length.
pub fn named() -> Vec<Case> {
    let mut cases = Vec::new();
    let long = [b'7'; 200];
    for octet in OCTETS {
        for name in [&b""[..], b" ", b"x", b"1", b"1 0", b"1  0", &long[..64], &long[..65], &long] {
            let part = part(octet, name, b"content");
            let one = || part.clone();
            let holder = object(0xA2, &[item(0x41, b"1"), portions(&["0".into()])].concat());
            let met = unit(&[item(0x40, b"1 0"), item(0x84, b"1 0")].concat(), b"text");
            let style = item(0xA7, &item(0x45, b"1"));
            let name = format!("{octet:02X} with the name {:?}", String::from_utf8_lossy(name));
            cases.push(case(name.clone(), letter(&[one(), one()])));
            cases.push(case(name.clone(), letter(&[one(), met.clone()])));
            cases.push(case(name.clone(), letter(&[holder.clone(), one(), met.clone(), one(), style.clone()])));
            cases.push(case(name, letter(&[met, one(), style, holder, one()])));
        }
        for length in [0, 1, 2, 0x7F, 0x80, 0xFF, 0x100, 0xFFFF, 0x10000] {
            for form in [Form::Shortest, Form::Long(1), Form::Long(4)] {
                let value = vec![0x11; length];
                let inner = [item(0x47, b"1"), item_in(form, if octet == 0xA9 { 0x03 } else { 0x04 }, &value)].concat();
                for outer in [Form::Shortest, Form::Long(3), Form::Indefinite] {
                    let stream = letter(&[item_in(outer, octet, &inner)]);
                    cases.push(case(format!("{length} octets in {octet:02X}, {form:?}, {outer:?}"), stream));
                }
            }
        }
    }
    cases
}

/// As many protected parts as there can be, one more, and the last one wrong.
pub fn many() -> Vec<Case> {
    let parts = |count: usize| (0..count).map(|at| part(0xA9 + (at % 4) as u8, b"1", b"xy")).collect::<Vec<_>>();
    let mut cases = Vec::new();
    for count in [511, 512, MOST_ELEMENTS - 1, MOST_ELEMENTS, MOST_ELEMENTS + 1] {
        cases.push(case(format!("{count} protected parts"), letter(&parts(count))));
    }
    for last in [vec![0xAA, 0x00], vec![0xA3, 0x00], vec![0xA4, 0x00], vec![0xA0, 0x00], unit(&[], b"text")] {
        for count in [MOST_ELEMENTS - 2, MOST_ELEMENTS - 1] {
            let stream = letter(&[parts(count), vec![last.clone()]].concat());
            cases.push(case(format!("{last:02X?} after {count} protected parts"), stream));
        }
    }
    cases
}

/// Two elements, one of them protected or a unit without content or with tiles: which fault counts, by which edition?
pub fn before_and_after() -> Vec<Case> {
    let some = [
        part(0xA9, b"1", &[7, 0x80]),
        part(0xAA, b"1", b"x"),
        part(0xAC, b"", b""),
        vec![0xA9, 0x00],
        item(0xAB, &[item(0x04, b""), item(0x47, b"1")].concat()),
        vec![0xA3, 0x00],
        item(0xA3, &item(0x31, &item(0x40, b"1 0"))),
        item(0xA3, &item(0x31, &item(0x40, b"1  0"))),
        item(0xA3, &[item(0x31, &item(0x84, b"1 0")), item(0x30, &item(0x04, b"t"))].concat()),
        item(0xA3, &item(0x30, &item(0x05, &[]))),
        item(0xA3, &[item(0x04, b"t"), item(0x30, &[])].concat()),
        unit(&item(0x40, b"1 0"), b"t"),
        object(0xA2, &[item(0x41, b"1"), portions(&["0".into()])].concat()),
        object(0xA6, &[item(0x41, b"1"), portions(&["0".into()])].concat()),
        object(0xA2, &item(0x61, &[])),
        item(0xA2, &item(0x02, &[9])),
        vec![0xA4, 0x00],
        vec![0xA0, 0x00],
        vec![0xA2, 0x02, 0x01, 0x00],
    ];
    let mut cases = Vec::new();
    for one in &some {
        cases.push(case("an element first of all", one.clone()));
        for other in &some {
            cases.push(case("two elements", letter(&[one.clone(), other.clone()])));
            for third in &some {
                cases.push(case("three elements", letter(&[one.clone(), other.clone(), third.clone()])));
            }
        }
    }
    cases
}
