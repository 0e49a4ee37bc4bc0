//! Letters that arrive in blocks.

use std::error::Error;
use std::{fmt, io};

use crate::raw::blocks as raw;
use crate::refusal::Refusal;

/// The number of an early close.
const EARLY: u32 = 29;

/// A letter that arrives block by block and is not held: rules 1 to 8 and the header count, for any cutting.
///
/// It is told the total first, takes blocks of whatever length by [`take`](Blocks::take) or as [`io::Write`], and tells at
/// the close what the walk of the whole letter tells. It is a hundred and twenty octets, and a copy of it goes on by itself.
///
/// ```
/// use odif::Blocks;
///
/// let mut blocks = Blocks::start(4)?;
/// blocks.take(b"\xA0")?;
/// blocks.take(b"\x80\x00")?;
/// assert!(blocks.close().is_err(), "an octet is still to come");
/// blocks.take(b"\x00")?;
/// let walked = blocks.close()?;
/// assert_eq!((walked.verdict, walked.headers), (Ok(()), 1));
/// # Ok::<(), Box<dyn std::error::Error>>(())
/// ```
#[derive(Clone, Copy, Debug, PartialEq, Eq)]
pub struct Blocks(raw::Blocks);

/// What the walk of a letter tells.
#[derive(Clone, Copy, Debug, PartialEq, Eq)]
pub struct Walked {
    /// The first fault, by one of rules 2 to 8, if there is one.
    pub verdict: Result<(), Refusal>,
    /// How many items passed.
    pub headers: usize,
}

/// A block that is past the total, number 28. Nothing of it was taken.
#[derive(Clone, Copy, Debug, PartialEq, Eq)]
pub struct PastTotal;

/// The close came before all octets, number 29. The letter may go on.
#[derive(Clone, Copy, Debug, PartialEq, Eq)]
pub struct ClosedEarly;

impl Blocks {
    /// A letter of so many octets, of which none has come. More than [`STREAM_LIMIT`](crate::STREAM_LIMIT) are refused.
    pub fn start(total: usize) -> Result<Self, Refusal> {
        let started = raw::start(total);
        Refusal::unless_accepted(started.number, 0)?;
        Ok(Blocks(started.state))
    }

    /// Takes the next block, which may be empty.
    pub fn take(&mut self, block: &[u8]) -> Result<(), PastTotal> {
        let taken = raw::take(self.0, block);
        self.0 = taken.state;
        if taken.number == 0 { Ok(()) } else { Err(PastTotal) }
    }

    /// How many octets are still to come.
    pub fn left(&self) -> usize {
        // both are octets of one letter, which has no more than a slice may have
        (self.0.total - self.0.taken) as usize
    }

    /// What the walk of the letter tells, if all octets have come.
    pub fn close(&self) -> Result<Walked, ClosedEarly> {
        let walked = raw::close(self.0);
        if walked.number == EARLY {
            return Err(ClosedEarly);
        }
        let verdict = Refusal::unless_accepted(walked.number, walked.place);
        Ok(Walked { verdict, headers: walked.headers as usize })
    }
}

/// Each block that is written is taken whole, or refused whole as invalid input.
impl io::Write for Blocks {
    fn write(&mut self, block: &[u8]) -> io::Result<usize> {
        self.take(block).map_err(|refused| io::Error::new(io::ErrorKind::InvalidInput, refused))?;
        Ok(block.len())
    }

    fn flush(&mut self) -> io::Result<()> {
        Ok(())
    }
}

impl fmt::Display for PastTotal {
    fn fmt(&self, f: &mut fmt::Formatter<'_>) -> fmt::Result {
        f.write_str("number 28: a block is past the total that was told")
    }
}

impl Error for PastTotal {}

impl fmt::Display for ClosedEarly {
    fn fmt(&self, f: &mut fmt::Formatter<'_>) -> fmt::Result {
        f.write_str("number 29: the letter was closed before all its octets had come")
    }
}

impl Error for ClosedEarly {}
