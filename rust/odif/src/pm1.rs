//! The PM1 desk: whether the pages of a letter are within the dimensions of T.502, table 10.
//!
//! ```
//! use odif::pm1::{self, Verdict};
//! // A page of 9920 by 14030 units, which is ISO A4.
//! let stream = b"\xA0\x00\xA2\x0F\x02\x01\x02\x31\x0A\xA4\x08\x80\x02\x26\xC0\x80\x02\x36\xCE";
//! let pages = pm1::pages(stream)?;
//! assert_eq!((pages[0].element, pages[0].verdict), (1, Verdict::NonEssential));
//! # Ok::<(), odif::Refusal>(())
//! ```

use std::fmt;

use crate::edition::Edition;
use crate::letter::Letter;
use crate::raw::pm1 as raw;
use crate::refusal::Refusal;
use crate::{MOST_ELEMENTS, ROW_WIDTH};

/// What the desk says of a page.
#[derive(Clone, Copy, Debug, PartialEq, Eq, Hash)]
#[non_exhaustive]
pub enum Verdict {
    /// It has no dimensions.
    None,
    /// Its dimensions are within the essential ones, which every partner takes.
    Essential,
    /// They are within the non-essential ones, as ISO A4, NAL or ISO A3 are.
    NonEssential,
    /// They are beyond all of these, or under 1.
    Outside,
    /// They are anything but two fixed numbers, or stand there twice.
    NotFixed,
    /// Another number: the library is newer than this crate.
    #[non_exhaustive]
    Unknown(u32),
}

impl Verdict {
    /// Every verdict that this crate knows, in the order of their numbers, from 0.
    pub const ALL: [Verdict; 5] =
        [Verdict::None, Verdict::Essential, Verdict::NonEssential, Verdict::Outside, Verdict::NotFixed];

    fn from_number(number: u32) -> Verdict {
        Verdict::ALL.get(number as usize).copied().unwrap_or(Verdict::Unknown(number))
    }

    /// The verdict in words.
    pub fn name(self) -> &'static str {
        match self {
            Verdict::None => "none",
            Verdict::Essential => "essential",
            Verdict::NonEssential => "non-essential",
            Verdict::Outside => "outside",
            Verdict::NotFixed => "not fixed",
            Verdict::Unknown(_) => "a verdict that is newer than this program",
        }
    }
}

impl fmt::Display for Verdict {
    fn fmt(&self, f: &mut fmt::Formatter<'_>) -> fmt::Result {
        f.write_str(self.name())
    }
}

/// A page, or a class of pages.
#[derive(Clone, Copy, Debug, PartialEq, Eq)]
#[non_exhaustive]
pub struct Page {
    /// The layout object or class, by its number among the elements.
    pub element: usize,
    /// What the desk says of it.
    pub verdict: Verdict,
}

/// The layout pages and page classes of a stream, in stream order, each with its verdict.
pub fn pages(stream: &[u8]) -> Result<Vec<Page>, Refusal> {
    pages_in(Edition::Of1988, stream)
}

/// As [`pages`], by an edition.
pub fn pages_in(edition: Edition, stream: &[u8]) -> Result<Vec<Page>, Refusal> {
    // An element has at least two octets.
    ask(edition, stream, (stream.len() / 2).min(MOST_ELEMENTS))
}

fn ask(edition: Edition, stream: &[u8], elements: usize) -> Result<Vec<Page>, Refusal> {
    let mut table = vec![0; elements * ROW_WIDTH];
    let mut list = vec![raw::Page::default(); elements];
    let answer = raw::pages_in(edition, stream, &mut table, &mut list);
    Refusal::unless_accepted(answer.number, answer.place)?;
    list.truncate(answer.pages as usize);
    let widened = list
        .into_iter()
        .map(|page| Page { element: page.element as usize, verdict: Verdict::from_number(page.verdict) });
    Ok(widened.collect())
}

impl Letter<'_> {
    /// The layout pages and page classes, in stream order, each with the verdict of the PM1 desk.
    pub fn pages(&self) -> Vec<Page> {
        ask(self.edition(), self.stream(), self.elements().len()).expect("as many records as elements are enough")
    }
}
