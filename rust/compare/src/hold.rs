//! Streams one after another: every question about each put to both readers, and the items of accepted ones to openssl.

use second::blocks;

use crate::openssl::Batch;
use crate::rng::Rng;
use crate::tally::{Origin, Tally};

/// Compares streams and keeps count.
#[derive(Default)]
pub struct Holder {
    /// The counts so far.
    pub tally: Tally,
    batch: Batch,
}

impl Holder {
    /// Holds the library against the reader on one stream, by both editions. What is lent is chosen by `rng` where there
    /// is a choice.
    pub fn hold(&mut self, stream: &[u8], origin: Origin, rng: &mut Rng) {
        self.tally.streams += 1;
        let [_, of_1993] = second::hold::hold(stream, &origin, &mut self.tally, rng);
        if of_1993.refusal().is_none() {
            self.tally.accepted += 1;
            self.batch.add(stream, &of_1993, origin, &mut self.tally);
        }
    }

    /// Every question, and the block engine on the stream cut at every place.
    pub fn hold_and_cut(&mut self, stream: &[u8], origin: Origin, rng: &mut Rng) {
        blocks::hold_everywhere(stream, &origin, &mut self.tally);
        self.hold(stream, origin, rng);
    }

    /// Ends the comparisons and gives the counts.
    pub fn finish(mut self) -> Tally {
        self.batch.flush(&mut self.tally);
        self.tally
    }
}
