//! Parents: where they stand, what carries the shorter identifier, and how many there are.

use odif::MOST_ELEMENTS;

use super::{Case, OBJECTS, case, letter, object, unit};
use crate::coding::item;

/// A class or object with this identifier.
fn named(octet: u8, identifier: &str) -> Vec<u8> {
    object(octet, &item(0x41, identifier.as_bytes()))
}

/// A chain of so many groups, each identifier one group longer than the one before.
fn chain(octet: u8, groups: usize) -> Vec<Vec<u8>> {
    (1..=groups).map(|count| named(octet, &vec!["7"; count].join(" "))).collect()
}

/// Two or three elements whose identifiers meet, or only nearly do, on every pair of sides and in either order.
pub fn places() -> Vec<Case> {
    let mut cases = Vec::new();
    for (child, parent) in OBJECTS.into_iter().flat_map(|child| OBJECTS.map(|parent| (child, parent))) {
        for (own, above) in
            [("1 0", "1"), ("1 0", "1 "), ("1 00", "1 0"), ("1 0 2", "1 0"), ("1 0 2", "1"), ("10", "1"), ("1 0", "01")]
        {
            let elements = [named(child, own), named(parent, above)];
            let name = format!("{own} of {child:02X} and {above} of {parent:02X}");
            cases.push(case(format!("{name}, the parent after"), letter(&elements)));
            cases.push(case(format!("{name}, the parent before"), letter(&[elements[1].clone(), elements[0].clone()])));
        }
    }
    // "1 0" and "1 00" have one parent, and are not each other's; a unit and styles with such names have none.
    cases.push(case("siblings 1 0 and 1 00", letter(&[named(0xA2, "1 0"), named(0xA2, "1"), named(0xA2, "1 00")])));
    cases.push(case("a unit below an object", letter(&[named(0xA2, "1"), unit(&item(0x40, b"1 0"), b"x")])));
    cases.push(case("an object below a unit", letter(&[unit(&item(0x40, b"1"), b"x"), named(0xA2, "1 0")])));
    let style = item(0xA7, &item(0x45, b"1"));
    cases.push(case("an object below a style", letter(&[style, named(0xA2, "1 0")])));
    cases.push(case("no identifier", letter(&[object(0xA2, &[]), named(0xA2, "1 0")])));
    cases
}

/// 32 groups, the most that 64 octets hold, from either end; and a letter whose every row is a child of one.
pub fn many() -> Vec<Case> {
    let mut cases = Vec::new();
    for octet in OBJECTS {
        let down = chain(octet, 32);
        cases.push(case(format!("32 groups of {octet:02X}"), letter(&down)));
        cases.push(case(
            format!("32 groups of {octet:02X}, the last first"),
            letter(&down.into_iter().rev().collect::<Vec<_>>()),
        ));
    }
    for count in [1, 2, 600, MOST_ELEMENTS - 2] {
        let mut elements: Vec<_> = (0..count).map(|number| named(0xA2, &format!("1 {number}"))).collect();
        elements.push(named(0xA1, "1"));
        cases.push(case(format!("{count} children of one"), letter(&elements)));
    }
    cases
}
