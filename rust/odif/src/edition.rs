//! The editions of the standard.

use std::fmt;

/// The edition of the standard by which a letter is read. What does not ask for one reads by that of 1988.
#[derive(Clone, Copy, Debug, Default, PartialEq, Eq, PartialOrd, Ord, Hash)]
pub enum Edition {
    /// CCITT T.415 of 1988.
    #[default]
    Of1988,
    /// CCITT T.415 of 1993. A letter of 1988 is one of 1993 too, with the same answers. Besides, there are protected parts,
    /// and the content of a text unit may be missing or be tiled.
    Of1993,
}

impl Edition {
    /// Both, the earlier one first.
    pub const ALL: [Edition; 2] = [Edition::Of1988, Edition::Of1993];
}

impl fmt::Display for Edition {
    fn fmt(&self, f: &mut fmt::Formatter<'_>) -> fmt::Result {
        f.write_str(match self {
            Edition::Of1988 => "1988",
            Edition::Of1993 => "1993",
        })
    }
}
