//! Text in ISO 6937, T.61 or ISO 8859-1 as UTF-8.
//!
//! The tables are glibc's and Unicode's, as facts (`characters.txt`), with what differs from them on purpose said here,
//! line by line.

use std::collections::HashMap;
use std::sync::LazyLock;

/// The answer of [`utf8`].
#[derive(Clone, Copy, Debug, Default, PartialEq, Eq)]
pub struct InUtf8 {
    /// 0, or 18.
    pub number: u32,
    /// 0.
    pub place: u32,
    /// The octets written.
    pub length: u32,
    /// How many octets were shown by their number.
    pub numbers: u32,
}

/// The accents from C1 on, as they combine with a letter.
const COMBINING: [u32; 15] =
    [0x300, 0x301, 0x302, 0x303, 0x304, 0x306, 0x307, 0x308, 0x308, 0x30A, 0x327, 0x332, 0x30B, 0x328, 0x30C];
/// Characters that glibc does not have in a set, or has others for: octet, in ISO 6937 and in T.61.
const OTHERS: [(u8, u32, u32); 5] =
    [(0x24, 0x24, 0xA4), (0xA4, 0x24, 0x24), (0xA6, 0x23, 0x23), (0xE0, 0x3A9, 0x3A9), (0xE2, 0x110, 0x110)];
/// The dash of ISO 6937, which is another in glibc.
const DASH: (u8, u32) = (0xD0, 0x2015);
/// Accents before a space that glibc does not have: they are characters of ASCII, and the umlaut is the diaeresis.
const ALONE: [(u8, u32); 5] = [(0xC1, 0x60), (0xC3, 0x5E), (0xC4, 0x7E), (0xC9, 0xA8), (0xCC, 0x5F)];

struct Tables {
    /// What an octet is in ISO 6937, and in T.61.
    octets: HashMap<u8, [Option<u32>; 2]>,
    pairs: HashMap<(u8, u8), u32>,
    composed: HashMap<(u32, u32), u32>,
}

static TABLES: LazyLock<Tables> = LazyLock::new(|| {
    let mut tables = Tables { octets: HashMap::new(), pairs: HashMap::new(), composed: HashMap::new() };
    for line in include_str!("characters.txt").lines().filter(|line| !line.starts_with('#')) {
        let words: Vec<&str> = line.split(' ').collect();
        let point = |word: &str| u32::from_str_radix(word, 16).ok();
        let [first, second, third] = [0, 1, 2].map(|place| point(words[place]));
        let first = first.expect("an octet or a letter");
        let second = || second.expect("an octet or a point");
        let third = || third.expect("a point");
        if words[0].len() > 2 {
            tables.composed.insert((first, second()), third());
        } else if words[1].len() == 2 {
            tables.pairs.insert((first as u8, second() as u8), third());
        } else {
            tables.octets.insert(first as u8, [point(words[1]), point(words[2])]);
        }
    }
    // T.61 has all of ASCII here, and what ISO 6937 has besides.
    for points in tables.octets.values_mut() {
        points[1] = points[1].or(points[0]);
    }
    for (octet, iso6937, t61) in OTHERS {
        tables.octets.insert(octet, [Some(iso6937), Some(t61)]);
    }
    tables.octets.insert(DASH.0, [Some(DASH.1); 2]);
    tables.pairs.extend(ALONE.map(|(accent, point)| ((accent, b' '), point)));
    tables
});

/// The code point of an octet that is no part of a pair.
fn alone(set: u32, octet: u8) -> Option<u32> {
    let itself = Some(u32::from(octet));
    match octet {
        b'\t' | b'\n' | 0x0C => itself,
        0..0x20 | 0x7F..0xA0 => None,
        _ if set == 2 => itself,
        _ => TABLES.octets.get(&octet).map_or(itself, |points| points[usize::from(set == 1)]),
    }
}

/// The code points of two octets that are one sign.
fn together(set: u32, first: u8, second: u8) -> Option<Vec<u32>> {
    if (first, second) == (b'\r', b'\n') {
        return Some(vec![0x0D, 0x0A]);
    }
    if set == 2 || !(0xC1..=0xCF).contains(&first) {
        return None;
    }
    if let Some(&point) = TABLES.pairs.get(&(first, second)) {
        return Some(vec![point]);
    }
    let (letter, accent) = (u32::from(second), COMBINING[usize::from(first - 0xC1)]);
    let whole = second.is_ascii_alphabetic().then(|| TABLES.composed.get(&(letter, accent)));
    whole.map(|whole| whole.map_or(vec![letter, accent], |&point| vec![point]))
}

/// Shows octets of a set as UTF-8: ISO 6937 (0, and any number from 3 on), T.61 (1) or ISO 8859-1 (2).
pub fn utf8(set: u32, octets: &[u8], out: &mut [u8]) -> InUtf8 {
    let (text, numbers) = shown(set, octets);
    let Some(front) = out.get_mut(..text.len()) else { return InUtf8 { number: 18, ..InUtf8::default() } };
    front.copy_from_slice(text.as_bytes());
    InUtf8 { length: text.len() as u32, numbers, ..InUtf8::default() }
}

fn shown(set: u32, octets: &[u8]) -> (String, u32) {
    let (mut text, mut numbers, mut rest) = (String::new(), 0, octets);
    while let [first, after @ ..] = rest {
        rest = after;
        let pair = after.first().and_then(|&second| together(set, *first, second));
        let points = match pair {
            Some(points) => {
                rest = &after[1..];
                points
            }
            None => alone(set, *first).into_iter().collect(),
        };
        if points.is_empty() {
            numbers += 1;
            text.push_str(&format!("\u{27E6}{first:02X}\u{27E7}"));
        }
        text.extend(points.into_iter().map(|point| char::from_u32(point).expect("a character")));
    }
    (text, numbers)
}

#[cfg(test)]
mod tests {
    use super::*;

    #[test]
    fn some_texts() {
        assert_eq!(shown(0, b"M\xC8uller, Fran\xCBcois\r\n"), ("Müller, François\r\n".into(), 0));
        assert_eq!(shown(1, b"5$ \xA45 \xC2q\xC8"), ("5¤ $5 q\u{301}\u{27E6}C8\u{27E7}".into(), 1));
        assert_eq!(shown(2, b"M\xFCller\r"), ("Müller\u{27E6}0D\u{27E7}".into(), 1));
        assert_eq!(utf8(0, b"\0", &mut [0; 7]).number, 18);
    }
}
