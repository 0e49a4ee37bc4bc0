//! Type numbers above 30: every first and second octet, every octet that may be missing, and every place of an item.

use super::{Case, case, letter, object, unit};
use crate::coding::{indefinite, item};

/// The octets with number bits 11111, universal ones first.
const LONG: [u8; 8] = [0x1F, 0x3F, 0x5F, 0x7F, 0x9F, 0xBF, 0xDF, 0xFF];

/// An item with these octets after the first of its type field.
fn long_item(first: u8, further: &[u8], value: &[u8]) -> Vec<u8> {
    [&[first][..], further, &[value.len() as u8], value].concat()
}

/// Every octet after the first, and every one after that where it matters, in a profile and as an element.
pub fn numbers() -> Vec<Case> {
    let mut cases = Vec::new();
    for first in LONG {
        for second in 0..=0xFF {
            for third in [0x00, 0x01, 0x1E, 0x1F, 0x7F, 0x80, 0xFF] {
                let inner = [first, second, third, 0x00];
                cases.push(case(format!("{inner:02X?} in a profile"), item(0xA0, &inner)));
                cases.push(case(format!("{inner:02X?} in an indefinite profile"), indefinite(0xA0, &inner)));
            }
            cases.push(case(format!("{first:02X} {second:02X} as an element"), letter(&[vec![first, second, 0x00]])));
        }
        for third in 0..=0xFF {
            for second in [0x1F, 0x7F, 0x80, 0x81, 0xFF] {
                let inner = [first, second, third, 0x01, 0x00];
                cases.push(case(format!("{inner:02X?} in a profile"), item(0xA0, &inner)));
            }
        }
    }
    cases
}

/// The header cut after each of its octets, by its parent's end, by the stream's, and by a closing mark; and at level 17.
pub fn cut() -> Vec<Case> {
    let further: [&[u8]; 9] = [
        &[0x1E],
        &[0x1F],
        &[0x7F],
        &[0x80],
        &[0x81, 0x00],
        &[0x81, 0x80],
        &[0xFF, 0x7F],
        &[0xFF, 0xFF],
        &[0x81, 0x80, 0x00],
    ];
    let mut cases = Vec::new();
    for first in LONG {
        for further in further {
            for length in [&[0x00][..], &[0x80], &[0x81, 0x01], &[0x84, 0, 0, 0, 1], &[0x85]] {
                let whole = [&[first][..], further, length, &[0x05, 0x00]].concat();
                for end in 1..=whole.len() {
                    let front = &whole[..end];
                    let name = format!("{front:02X?}");
                    cases.push(case(format!("{name} at the end of a profile"), item(0xA0, front)));
                    cases
                        .push(case(format!("{name}, then an element"), [item(0xA0, front), vec![0xA2, 0x00]].concat()));
                    cases.push(case(format!("{name} at the end"), [&[0xA0, 0x00][..], front].concat()));
                    cases.push(case(format!("{name} in an indefinite profile"), indefinite(0xA0, front)));
                    cases.push(case(format!("{name} in an open profile"), [&[0xA0, 0x80][..], front].concat()));
                }
            }
            for depth in [15, 16] {
                let inner = [&[first][..], further, &[0x00]].concat();
                let around = (2..=depth).fold(inner, |inner, _| item(0x30, &inner));
                cases.push(case(format!("{first:02X} {further:02X?} under {depth} levels"), item(0xA0, &around)));
            }
        }
    }
    cases
}

/// An item with a long type field wherever an item may stand, before and after those that are looked for.
pub fn places() -> Vec<Case> {
    let mut cases = Vec::new();
    for first in LONG {
        for further in [&[0x1F][..], &[0x41], &[0x81, 0x00], &[0xC1, 0x41]] {
            let inner = if first & 0x20 == 0 { b"1".to_vec() } else { item(0x41, b"1") };
            let free = long_item(first, further, &inner);
            let name = format!("{first:02X} {further:02X?}");
            let named = |octet: u8| [free.clone(), item(octet, b"1 0"), free.clone()].concat();
            let portions = item(0xA1, &[free.clone(), item(0x12, b"1")].concat());
            let streams = [
                item(0xA0, &free.repeat(3)),
                letter(std::slice::from_ref(&free)),
                letter(&[object(0xA2, &named(0x41))]),
                letter(&[object(0xA2, &[named(0x41), portions].concat())]),
                letter(&[unit(&[named(0x40), named(0x84)].concat(), b"text")]),
                letter(&[item(0xA2, &free)]),
                letter(&[item(0xA2, &[item(0x02, &[1]), free.clone()].concat())]),
                letter(&[item(0xA3, &free)]),
                letter(&[item(0xA3, &[item(0x04, b"text"), free.clone()].concat())]),
                letter(&[item(0xA3, &item(0x24, &[item(0x04, b"text"), free.clone()].concat()))]),
                letter(&[item(0xA7, &named(0x45))]),
                letter(&[indefinite(0xA8, &[named(0x45), indefinite(0x30, &free)].concat())]),
            ];
            cases.extend(streams.into_iter().map(|stream| case(format!("{name} as an item"), stream)));
        }
    }
    cases
}
