//! The characters of a text: octets of the sets of around 1990 as UTF-8.

use crate::raw;

/// A set of characters that a text may be in. Which one it is in, a letter declares by escape sequences in its
/// presentation attributes; where it declares none, nothing here guesses.
#[derive(Clone, Copy, Debug, PartialEq, Eq, Hash)]
#[non_exhaustive]
pub enum CharacterSet {
    /// ISO 6937: ASCII and a supplement, with an accent before its letter.
    Iso6937,
    /// T.61: the same, but that 24 is the currency sign.
    T61,
    /// ISO 8859-1.
    Latin1,
}

impl CharacterSet {
    fn number(self) -> u32 {
        match self {
            CharacterSet::Iso6937 => 0,
            CharacterSet::T61 => 1,
            CharacterSet::Latin1 => 2,
        }
    }
}

/// A text in UTF-8.
#[derive(Clone, Debug, Default, PartialEq, Eq)]
#[non_exhaustive]
pub struct Utf8 {
    /// The text. An octet that the set has no character for is shown by its number, as `⟦C8⟧`.
    pub text: String,
    /// How many octets are shown by their number.
    pub numbers: usize,
    /// Where the places are that were asked for.
    pub places: Vec<usize>,
}

/// So many octets are shown at once: the library counts what it writes in 32 bits, and no octet takes more than eight.
const AT_ONCE: usize = 1 << 28;
/// The most octets that one takes.
const MOST: usize = 8;

/// Shows the octets of a text as UTF-8: each as its character, as a part of a character of two octets, or by its
/// number.
pub fn utf8(set: CharacterSet, octets: &[u8]) -> Utf8 {
    utf8_at(set, octets, &[])
}

/// As [`utf8`], and says where in it these places of the octets are, which are in order. A place between two octets
/// that are one character, as an accent and its letter, is behind both; one past the octets is at the end.
pub fn utf8_at(set: CharacterSet, octets: &[u8], places: &[usize]) -> Utf8 {
    let mut shown = Utf8::default();
    let mut from = 0;
    for &place in places {
        let cut = cut_at(set, octets, place).max(from);
        put(set, &octets[from..cut], &mut shown);
        from = cut;
        shown.places.push(shown.text.len());
    }
    put(set, &octets[from..], &mut shown);
    shown
}

/// Adds the text of octets that begin and end between characters.
fn put(set: CharacterSet, octets: &[u8], shown: &mut Utf8) {
    let mut from = 0;
    while from < octets.len() {
        let past = cut_at(set, octets, from.saturating_add(AT_ONCE));
        let (text, numbers) = part(set, &octets[from..past]);
        shown.text.push_str(&text);
        shown.numbers += numbers;
        from = past;
    }
}

/// The text of so many octets as are shown at once. Most take little more room than they have octets.
fn part(set: CharacterSet, octets: &[u8]) -> (String, usize) {
    let mut out = vec![0; octets.len() + octets.len() / 4 + 32];
    let mut answer = raw::utf8(set.number(), octets, &mut out);
    if answer.number != 0 {
        out = vec![0; MOST * octets.len()];
        answer = raw::utf8(set.number(), octets, &mut out);
    }
    out.truncate(answer.length as usize);
    (String::from_utf8(out).expect("what the library writes is UTF-8"), answer.numbers as usize)
}

/// The place itself, or the one behind it where the octets on both sides are one character.
fn cut_at(set: CharacterSet, octets: &[u8], place: usize) -> usize {
    match octets.get(place.wrapping_sub(1)..).and_then(|from| from.get(..2)) {
        Some(pair) if is_one(set, pair) => place + 1,
        _ => place.min(octets.len()),
    }
}

/// Two octets are one character where fewer of them are shown by their number together than alone (`together` and
/// `apart` of what is promised).
fn is_one(set: CharacterSet, pair: &[u8]) -> bool {
    let numbers = |octets: &[u8]| raw::utf8(set.number(), octets, &mut [0; 2 * MOST]).numbers;
    numbers(pair) < numbers(&pair[..1]) + numbers(&pair[1..])
}

#[cfg(test)]
mod tests {
    use super::*;

    #[test]
    fn places_are_found_again() {
        let shown = utf8_at(CharacterSet::Iso6937, b"M\xC8uller\r\n\x07", &[0, 1, 2, 3, 8, 9, 10, 10, 20]);
        assert_eq!((shown.text.as_str(), shown.numbers), ("Müller\r\n⟦07⟧", 1));
        let parts: Vec<&str> = shown.places.windows(2).map(|part| &shown.text[part[0]..part[1]]).collect();
        assert_eq!(parts, ["M", "ü", "", "ller\r\n", "", "⟦07⟧", "", ""]);
        assert_eq!(utf8_at(CharacterSet::Latin1, b"", &[0, 0]).places, [0, 0]);
    }

    /// However octets are cut, their text is the same.
    #[test]
    fn cut_anywhere() {
        let octets: Vec<u8> = b"C\xC8\xC8u \xC2 \r\r\n\xCC\x07\xCFz$\xFF\xE5".repeat(3);
        for set in [CharacterSet::Iso6937, CharacterSet::T61, CharacterSet::Latin1] {
            let whole = utf8(set, &octets);
            let every: Vec<usize> = (0..=octets.len()).collect();
            let cut = utf8_at(set, &octets, &every);
            assert_eq!((&cut.text, cut.numbers), (&whole.text, whole.numbers), "{set:?}");
            for place in every {
                let before = cut.places[place];
                assert!(whole.text.is_char_boundary(before), "{set:?} {place}");
            }
        }
    }

    #[test]
    fn every_octet_takes_room() {
        let shown = utf8(CharacterSet::T61, &[0; 100]);
        assert_eq!((shown.text.as_str(), shown.numbers), ("⟦00⟧".repeat(100).as_str(), 100));
    }
}
