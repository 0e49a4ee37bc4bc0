//! The comparisons on one stream by one edition.

use odif::Edition;
use reader::Reading;

use crate::tally::{Origin, Question, Tally, hex};

/// One stream by one edition, the reader's reading of it, and the counts.
pub struct One<'a> {
    /// The edition by which the library is asked.
    pub edition: Edition,
    /// The stream.
    pub stream: &'a [u8],
    /// What the library is held against.
    pub reading: &'a Reading<'a>,
    /// Where the stream comes from.
    pub origin: &'a Origin,
    /// The counts so far.
    pub tally: &'a mut Tally,
}

impl One<'_> {
    /// Counts a comparison, and tells of one that does not hold.
    pub fn expect(&mut self, holds: bool, question: &str, tell: impl FnOnce() -> String) {
        let (origin, edition, stream) = (self.origin, self.edition, self.stream);
        self.tally.expect(holds, || format!("{origin}, by {edition}: {question}: {}\n  {}", tell(), hex(stream)));
    }

    /// Counts what the library gave for a question.
    pub fn meet(&mut self, question: Question, number: u32) {
        self.tally.meet(self.edition, question, number);
    }
}
