//! Order: all short runs of elements that have to do with each other, long identifiers, and as many elements as there can be.

use odif::MOST_ELEMENTS;

use super::{Case, case, letter, object, portions, unit};
use crate::coding::item;

/// The longest identifier.
const LONGEST: usize = 64;

/// A class or object with this identifier that lists portions from 0 on.
fn lister(octet: u8, identifier: &str, count: usize) -> Vec<u8> {
    let numbers: Vec<String> = (0..count).map(|number| number.to_string()).collect();
    object(octet, &[item(0x41, identifier.as_bytes()), portions(&numbers)].concat())
}

fn layout(name: &str) -> Vec<u8> {
    unit(&item(0x40, name.as_bytes()), b"x")
}

fn logical(name: &str) -> Vec<u8> {
    unit(&item(0x84, name.as_bytes()), b"x")
}

fn both(name: &str, other: &str) -> Vec<u8> {
    unit(&[item(0x40, name.as_bytes()), item(0x84, other.as_bytes())].concat(), b"x")
}

/// Classes and objects that list a portion, and units of one or two of them.
fn central() -> Vec<Vec<u8>> {
    vec![
        lister(0xA1, "0", 1),
        lister(0xA5, "2", 1),
        lister(0xA2, "1", 1),
        lister(0xA6, "3", 1),
        layout("0 0"),
        layout("1 0"),
        logical("3 0"),
        both("0 0", "3 0"),
        both("1 0", "3 0"),
        both("0 0", "2 0"),
    ]
}

/// All runs of up to three elements, and all of four different ones that have to do with each other.
pub fn short_runs() -> Vec<Case> {
    let central = central();
    let others = [
        lister(0xA2, "4", 0),
        object(0xA6, &portions(&["0".into()])),
        both("1 0", "2 0"),
        unit(&[], b"x"),
        item(0xA7, &item(0x45, b"1")),
        item(0xA8, &item(0x45, b"2")),
        item(0xA9, &[item(0x47, b"1"), item(0x03, &[7, 0x80])].concat()),
        item(0xAB, &[item(0x47, b"1"), item(0x04, b"x")].concat()),
        item(0xAC, &[item(0x47, b"1"), item(0x04, b"x")].concat()),
    ];
    let all = [&central[..], &others].concat();
    let mut cases = Vec::new();
    for run in super::runs_of(&all, 3) {
        cases.push(case("a run of up to three elements", letter(&[run])));
    }
    let apart = |places: [usize; 4]| (0..4).all(|at| !places[..at].contains(&places[at]));
    let count = central.len();
    for number in 0..count.pow(4) {
        let places = [1, count, count.pow(2), count.pow(3)].map(|power| number / power % count);
        if apart(places) {
            let run = places.map(|place| central[place].clone());
            cases.push(case("four elements that have to do with each other", letter(&run)));
        }
    }
    cases
}

/// Identifiers so long that no unit can be named after them, and those just below.
pub fn long_names() -> Vec<Case> {
    let mut cases = Vec::new();
    for octet in [0xA1, 0xA2, 0xA5, 0xA6] {
        for length in LONGEST - 4..=LONGEST {
            let name = "7".repeat(length);
            let named = format!("a name of {length} octets in {octet:02X}");
            cases.push(case(format!("{named}, no unit"), letter(&[lister(octet, &name, 1)])));
            let next = lister(octet, "1", 1);
            cases.push(case(format!("{named}, another behind"), letter(&[lister(octet, &name, 1), next])));
            let unit = if octet < 0xA3 { layout(&format!("{name} 0")) } else { logical(&format!("{name} 0")) };
            cases.push(case(format!("{named}, its unit"), letter(&[lister(octet, &name, 1), unit])));
        }
    }
    cases
}

/// As many elements as there can be, in the order of one class and nearly so, and elements of 64 portions.
pub fn many() -> Vec<Case> {
    let pairs = (MOST_ELEMENTS - 1) / 2;
    let block = |number: usize| lister(0xA2, &number.to_string(), 1);
    let unit = |number: usize| layout(&format!("{number} 0"));
    let in_a: Vec<_> = (0..pairs).map(block).chain((0..pairs).map(unit)).collect();
    let in_b: Vec<_> = (0..pairs).flat_map(|number| [block(number), unit(number)]).collect();
    let mut cases = Vec::new();
    for (name, elements) in [("class A", in_a), ("class B", in_b)] {
        cases.push(case(format!("{} elements in the order of {name}", elements.len() + 1), letter(&elements)));
        for place in [0, pairs - 1, pairs, 2 * pairs - 2, 2 * pairs - 1] {
            let mut fewer = elements.clone();
            fewer.remove(place);
            cases.push(case(format!("{name}, without element {}", place + 1), letter(&fewer)));
            let mut other = elements.clone();
            other.swap(place, (place + 2) % elements.len());
            cases.push(case(format!("{name}, element {} swapped", place + 1), letter(&other)));
        }
        // One unit more would be the 4,097th element.
        let full = [&elements[..], &[block(pairs)]].concat();
        cases.push(case(format!("{name}, and a block whose unit has no room"), letter(&full)));
    }
    for backwards in [false, true] {
        let listers = [lister(0xA2, "1", 64), lister(0xA2, "2", 64)];
        let mut units: Vec<_> = (0..128).map(|at| layout(&format!("{} {}", 1 + at / 64, at % 64))).collect();
        if backwards {
            units[64..].reverse();
        }
        cases.push(case("two blocks of 64 portions, their units behind", letter(&[&listers[..], &units].concat())));
        let (first, second) = units.split_at(64);
        let each = [&listers[..1], first, &listers[1..], second].concat();
        cases.push(case("two blocks of 64 portions, each with its units", letter(&each)));
    }
    cases
}
