//! Identifiers and portion numbers: their spelling, and a map from identifiers to elements.

use std::collections::HashMap;
use std::hash::{BuildHasherDefault, Hasher};

/// The most bytes of an identifier.
const LONGEST_IDENTIFIER: usize = 64;
/// The most digits of a portion number.
const LONGEST_PORTION: usize = 16;

/// "An identifier is groups of digits with one space between groups, 1 to 64 bytes."
pub(crate) fn is_identifier(value: &[u8]) -> bool {
    let is_group = |group: &[u8]| !group.is_empty() && group.iter().all(u8::is_ascii_digit);
    value.len() <= LONGEST_IDENTIFIER && value.split(|&byte| byte == b' ').all(is_group)
}

/// A portion number as one number that tells it from every other: its digits behind a leading 1, so that 0 and 00
/// differ. `None` where it is not "1 to 16 digits".
pub(crate) fn portion_key(value: &[u8]) -> Option<u64> {
    if !(1..=LONGEST_PORTION).contains(&value.len()) {
        return None;
    }
    value.iter().try_fold(1, |key, byte| byte.is_ascii_digit().then(|| key * 10 + u64::from(byte - b'0')))
}

/// The identifiers of one name space, each with the number of the element that has it.
pub(crate) type Names<'a> = HashMap<&'a [u8], u32, BuildHasherDefault<Folded>>;

/// A quick hash for short byte strings, eight bytes a step.
#[derive(Default)]
pub(crate) struct Folded(u64);

impl Folded {
    fn fold(&mut self, word: u64) {
        self.0 = (self.0.rotate_left(23) ^ word).wrapping_mul(0x9E37_79B9_7F4A_7C15);
    }
}

impl Hasher for Folded {
    fn write(&mut self, bytes: &[u8]) {
        for chunk in bytes.chunks(8) {
            let mut word = [0; 8];
            word[..chunk.len()].copy_from_slice(chunk);
            self.fold(u64::from_le_bytes(word));
        }
    }

    fn write_usize(&mut self, number: usize) {
        self.fold(number as u64);
    }

    fn finish(&self) -> u64 {
        self.0 ^ self.0 >> 29
    }
}

#[cfg(test)]
mod tests {
    use super::*;

    #[test]
    fn identifiers() {
        for good in ["0", "1 0 2 0", "00 1", &"9".repeat(64)] {
            assert!(is_identifier(good.as_bytes()), "{good}");
        }
        for bad in ["", " ", " 1", "1 ", "1  2", "1.2", "a", "1\t2", &"9".repeat(65)] {
            assert!(!is_identifier(bad.as_bytes()), "{bad}");
        }
    }

    #[test]
    fn portion_numbers() {
        assert_ne!(portion_key(b"0"), portion_key(b"00"));
        assert_ne!(portion_key(b"7"), portion_key(b"07"));
        assert_eq!(portion_key(b"12"), Some(112));
        assert!(portion_key(b"9999999999999999").is_some());
        for bad in ["", "0 2", "-1", "+1", "99999999999999999"] {
            assert_eq!(portion_key(bad.as_bytes()), None, "{bad}");
        }
    }
}
