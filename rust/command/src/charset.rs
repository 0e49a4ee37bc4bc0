//! Which set of characters a text is in: T.61, ISO 6937 or ISO 8859-1. What its octets are as UTF-8 is the library's to
//! say.

use clap::ValueEnum;
use odif::CharacterSet;

/// A set of characters.
#[derive(Clone, Copy, Debug, PartialEq, Eq, ValueEnum)]
pub enum Charset {
    /// What the letter's presentation attributes declare, or else ISO 6937, which a note then tells
    Auto,
    /// The primary and supplementary sets of T.61 (24 is the currency sign)
    T61,
    /// ISO 6937: ASCII and the supplementary set, with an accent before its letter
    Iso6937,
    /// ISO 8859-1
    #[value(alias = "iso8859-1")]
    Latin1,
}

/// Escape sequences that put a set in the place of the right half (ISO 2022, with the finals of the register).
const DESIGNATIONS: [(&[u8], Charset); 6] = [
    (b"\x1B-A", Charset::Latin1),
    (b"\x1B.A", Charset::Latin1),
    (b"\x1B)v", Charset::T61),
    (b"\x1B)l", Charset::Iso6937),
    (b"\x1B-J", Charset::Iso6937),
    (b"\x1B-R", Charset::Iso6937),
];

/// The set that some octets declare by an escape sequence, and how long that is.
fn designated(octets: &[u8]) -> Option<(Charset, usize)> {
    let known = DESIGNATIONS.iter().find(|(sequence, _)| octets.starts_with(sequence));
    known.map(|(sequence, set)| (*set, sequence.len()))
}

/// What every such sequence begins with.
pub const ESCAPE: u8 = 0x1B;

/// The set that is taken where none is declared.
pub const ASSUMED: Charset = Charset::Iso6937;

/// What a letter declares.
#[derive(Clone, Copy, Debug, PartialEq, Eq)]
pub enum Declared {
    None,
    One(Charset),
    Several,
}

/// What presentation attributes declare among these values.
pub fn declared<'a>(values: impl Iterator<Item = &'a [u8]>) -> Declared {
    let mut sets = values.flat_map(|value| (0..value.len()).filter_map(|at| Some(designated(&value[at..])?.0)));
    match sets.next() {
        None => Declared::None,
        Some(first) if sets.all(|set| set == first) => Declared::One(first),
        Some(_) => Declared::Several,
    }
}

/// The sets besides one.
pub fn others(set: Charset) -> impl Iterator<Item = Charset> {
    [Charset::T61, Charset::Iso6937, Charset::Latin1].into_iter().filter(move |other| *other != set)
}

/// Do all of the sets turn these octets into themselves? Of most letters that is so.
pub fn is_plain(octets: &[u8]) -> bool {
    let is_so = |octet: &u8| matches!(octet, b' '..=b'#' | b'%'..=b'~' | b'\n' | b'\r' | b'\t' | 0x0C);
    let mut returns = octets.iter().enumerate().filter(|(_, octet)| **octet == b'\r');
    octets.iter().all(is_so) && returns.all(|(at, _)| octets.get(at + 1) == Some(&b'\n'))
}

impl Charset {
    fn of_library(self) -> CharacterSet {
        match self {
            Charset::T61 => CharacterSet::T61,
            Charset::Latin1 => CharacterSet::Latin1,
            Charset::Iso6937 => CharacterSet::Iso6937,
            Charset::Auto => ASSUMED.of_library(),
        }
    }
}

/// How many escape sequences in octets designate another of the sets. The text is split there.
pub fn designations(octets: &[u8]) -> usize {
    let escapes = octets.iter().enumerate().filter(|(_, octet)| **octet == ESCAPE);
    escapes.filter(|(at, _)| designated(&octets[*at..]).is_some()).count()
}

/// Turns octets into text. An escape sequence in them that designates another of the sets is heeded.
pub fn to_utf8(octets: &[u8], set: Charset) -> String {
    to_utf8_at(octets, set, &[]).0
}

/// Turns octets into text, and says where in it these places of the octets are, which are in order. A place between an
/// accent and its letter, or within an escape sequence that designates another set, is behind both. Such a sequence is
/// no text: the library would show it by its numbers, so the octets are split there.
pub fn to_utf8_at(octets: &[u8], set: Charset, places: &[usize]) -> (String, Vec<usize>) {
    let (mut text, mut found) = (String::new(), Vec::with_capacity(places.len()));
    let (mut set, mut from) = (set, 0);
    while from < octets.len() {
        let escape = (from..octets.len()).find(|&at| octets[at] == ESCAPE && designated(&octets[at..]).is_some());
        let past = escape.unwrap_or(octets.len());
        let inside = places[found.len()..].iter().take_while(|place| **place <= past);
        let inside: Vec<usize> = inside.map(|place| place.saturating_sub(from)).collect();
        let part = odif::utf8_at(set.of_library(), &octets[from..past], &inside);
        found.extend(part.places.iter().map(|place| text.len() + place));
        text.push_str(&part.text);
        from = past;
        if let Some((other, length)) = designated(&octets[past..]) {
            set = other;
            from += length;
        }
    }
    found.resize(places.len(), text.len());
    (text, found)
}

#[cfg(test)]
mod tests {
    use super::*;

    #[test]
    fn accents_stand_before_their_letters() {
        for set in [Charset::T61, Charset::Iso6937, Charset::Auto] {
            assert_eq!(to_utf8(b"M\xC8uller, Fran\xCBcois, \xCAAngstr\xC8om", set), "Müller, François, Ångström");
            assert_eq!(to_utf8(b"\xC2\x20\xC2q", set), "´q\u{301}", "alone, and over a letter that has no such form");
            assert_eq!(to_utf8(b"stra\xFBe \xE9re \xE1 \xF1", set), "straße Øre Æ æ");
        }
        assert_eq!(to_utf8(b"M\xFCller 5$", Charset::Latin1), "Müller 5$");
        assert_eq!(to_utf8(b"5$ \xA45", Charset::T61), "5¤ $5");
    }

    #[test]
    fn what_cannot_be_turned_is_marked() {
        assert_eq!(to_utf8(b"a\x1B[31mb\x07\xE5", Charset::Iso6937), "a⟦1B⟧[31mb⟦07⟧⟦E5⟧");
        assert_eq!(to_utf8(b"x\xC8", Charset::Iso6937), "x⟦C8⟧");
        assert_eq!(to_utf8(b"\xC8\xC8u \xC8;", Charset::Iso6937), "⟦C8⟧ü ⟦C8⟧;");
        assert_eq!(to_utf8(b"a\rb\r\n\x85", Charset::Latin1), "a⟦0D⟧b\r\n⟦85⟧");
    }

    #[test]
    fn places_are_found_again() {
        let (text, found) = to_utf8_at(b"M\xC8uller\n\x07", Charset::Iso6937, &[0, 1, 2, 3, 8, 9, 9, 20]);
        assert_eq!(text, "M\u{FC}ller\n\u{27E6}07\u{27E7}");
        let parts: Vec<&str> = found.windows(2).map(|part| &text[part[0]..part[1]]).collect();
        assert_eq!(parts, ["M", "\u{FC}", "", "ller\n", "\u{27E6}07\u{27E7}", "", ""]);
        assert_eq!(to_utf8_at(b"", Charset::Latin1, &[0, 0]), (String::new(), vec![0, 0]));
    }

    #[test]
    fn plain_octets_are_themselves_in_all_sets() {
        for octets in (0..=0xFF).flat_map(|octet| [vec![octet], vec![octet, b'\n'], vec![octet, b'a']]) {
            for set in [Charset::T61, Charset::Iso6937, Charset::Latin1] {
                assert!(!is_plain(&octets) || to_utf8(&octets, set).as_bytes() == octets, "{octets:02X?} {set:?}");
            }
        }
        assert!(is_plain(b"Dear Sir,\r\n\x0C") && !is_plain(b"$5") && !is_plain(b"\x1B-A") && !is_plain(b"a\r"));
    }

    #[test]
    fn no_octet_is_lost() {
        for set in [Charset::T61, Charset::Iso6937, Charset::Latin1] {
            for octet in 0..=0xFF {
                assert!(to_utf8(&[b'a', octet, b'.'], set).chars().count() >= 3, "{set:?} {octet:02X}");
            }
        }
    }

    #[test]
    fn declared_sets() {
        assert_eq!(to_utf8(b"\xC8u\x1B-A\xFC", Charset::Auto), "üü");
        let (text, found) = to_utf8_at(b"\xC8u\x1B-A\xFC\x1B)v$", Charset::Auto, &[2, 3, 5, 6, 9, 10]);
        assert_eq!((text.as_str(), found), ("üü¤", vec![2, 2, 2, 4, 4, 6]));
        assert_eq!((designations(b"\x1B-A\x1B[\x1B.A"), designations(b"\x1B")), (2, 0));
        assert_eq!(declared([&b"xx\x1B-A"[..], b"\x1B.A"].into_iter()), Declared::One(Charset::Latin1));
        assert_eq!(declared([&b"\x1B-A"[..], b"\x1B)v"].into_iter()), Declared::Several);
        assert_eq!(declared([&b"abc"[..]].into_iter()), Declared::None);
    }
}
