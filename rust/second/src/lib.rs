//! A second opinion on one stream: every question of both editions, put to the proved library and to the independent reader,
//! with the same memory lent, long enough, exact and one short.
//!
//! `compare` does so on examples, limits and generated streams, and `odif check --second` on a user's own letter.
//!
//! ```no_run
//! let opinion = second::opinion(&[0xA0, 0x00]);
//! assert!(opinion.comparisons > 100 && opinion.differences.is_empty());
//! ```

pub mod blocks;
pub mod dates;
pub mod editions;
pub mod hold;
pub mod lent;
pub mod one;
pub mod order;
pub mod pages;
pub mod rng;
pub mod sources;
pub mod tally;
pub mod text;

use self::rng::Rng;
use self::tally::{Origin, Tally};

/// What came of putting all questions about one stream to both readers.
#[derive(Clone, Debug, PartialEq, Eq)]
pub struct Opinion {
    /// How many answers, and how much lent memory, were compared.
    pub comparisons: u64,
    /// How many comparisons did not hold.
    pub differing: u64,
    /// What differs, in words: the first of them.
    pub differences: Vec<String>,
}

/// Puts all questions about a stream to both readers, by both editions.
pub fn opinion(stream: &[u8]) -> Opinion {
    let mut tally = Tally::keeping();
    hold::hold(stream, &Origin::Fixed("this stream".into()), &mut tally, &mut Rng::new(1));
    Opinion::of(&tally)
}

impl Opinion {
    fn of(tally: &Tally) -> Opinion {
        // Behind the words stand the octets of the stream, which who asks has.
        let differences = tally.kept().iter().filter_map(|told| told.lines().next().map(String::from));
        let comparisons = tally.passed + tally.failed;
        Opinion { comparisons, differing: tally.failed, differences: differences.collect() }
    }
}

#[cfg(test)]
mod tests {
    use odif::Edition;
    use reader::Reading;

    use super::*;
    use crate::one::One;

    /// A letter with a block and its unit, whose text is this of two octets.
    fn letter(text: &[u8; 2]) -> Vec<u8> {
        let object = b"\xA2\x11\x02\x01\x04\x31\x0C\x41\x051 0 2\xA1\x03\x12\x010";
        [&[0xA0, 0x00], &object[..], b"\xA3\x0F\x31\x09\x40\x071 0 2 0\x04\x02", text].concat()
    }

    #[test]
    fn the_readers_agree_on_letters_and_on_what_is_none() {
        for stream in [letter(b"Hi"), b"\xA0\x00\xA4\x00".to_vec(), Vec::new(), vec![0xFF; 40]] {
            let opinion = opinion(&stream);
            assert!(opinion.comparisons > 100, "{opinion:?}");
            assert_eq!((opinion.differing, opinion.differences.len()), (0, 0), "{opinion:?}");
        }
    }

    /// A reader that reads another letter differs, and the words say in which question.
    #[test]
    fn another_letter_is_told_from_this() {
        let (mine, other) = (letter(b"Hi"), letter(b"Ho"));
        let (reading, origin, mut tally) = (Reading::of(&other), Origin::Fixed("x".into()), Tally::keeping());
        let mut one =
            One { edition: Edition::Of1988, stream: &mine, reading: &reading, origin: &origin, tally: &mut tally };
        hold::hold_by(&mut one, &mut Rng::new(1));
        let opinion = Opinion::of(&tally);
        assert!(opinion.differing > 0 && opinion.comparisons > opinion.differing, "{opinion:?}");
        assert!(opinion.differences.iter().any(|told| told.contains("normal form with an output of")), "{opinion:?}");
        assert!(opinion.differences.iter().all(|told| !told.contains('\n')), "{opinion:?}");
    }
}
