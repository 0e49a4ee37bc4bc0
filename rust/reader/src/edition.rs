//! The editions of the standard: which octets begin elements, and where the tables of their contents differ.

use std::fmt;

/// The edition by which a stream is read.
#[derive(Clone, Copy, Debug, Default, PartialEq, Eq)]
pub enum Edition {
    /// T.415 of 1988, as document 01 tables it.
    #[default]
    Of1988,
    /// T.415 of 1993: the same, with protected parts (7.15), and text units whose content is missing or in tiles (7.13).
    Of1993,
}

impl Edition {
    /// Both, the earlier one first.
    pub const ALL: [Edition; 2] = [Edition::Of1988, Edition::Of1993];

    /// Does an element of this edition begin with the octet? (7.6; of 1993, A9 to AC too)
    pub(crate) fn has_element(self, octet: u8) -> bool {
        match octet {
            0xA0..=0xA3 | 0xA5..=0xA8 => true,
            0xA9..=0xAC => self == Edition::Of1993,
            _ => false,
        }
    }
}

impl fmt::Display for Edition {
    fn fmt(&self, f: &mut fmt::Formatter<'_>) -> fmt::Result {
        f.write_str(match self {
            Edition::Of1988 => "1988",
            Edition::Of1993 => "1993",
        })
    }
}
