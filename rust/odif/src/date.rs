//! The date of the document.

use std::fmt;
use std::ops::Range;

use crate::edition::Edition;
use crate::letter::Letter;
use crate::raw;
use crate::refusal::Refusal;

/// The date of a document, as its own octets spell it.
#[derive(Clone, Debug, PartialEq, Eq, Hash)]
#[non_exhaustive]
pub struct Date {
    /// Where its octets stand in the stream. What follows the first ten of them is not judged.
    pub place: Range<usize>,
    /// The year, 1 to 9999.
    pub year: u16,
    /// The month, 1 to 12.
    pub month: u8,
    /// The day of the month, from 1 on.
    pub day: u8,
}

impl Date {
    fn of(answer: raw::Dated) -> Result<Self, Refusal> {
        Refusal::unless_accepted(answer.number, answer.place)?;
        Ok(Date {
            place: answer.first as usize..answer.past as usize,
            year: answer.year as u16,
            month: answer.month as u8,
            day: answer.day as u8,
        })
    }
}

impl fmt::Display for Date {
    fn fmt(&self, f: &mut fmt::Formatter<'_>) -> fmt::Result {
        write!(f, "{:04}-{:02}-{:02}", self.year, self.month, self.day)
    }
}

/// The date of a document by its first element alone.
#[derive(Clone, Debug, PartialEq, Eq)]
#[non_exhaustive]
pub struct FirstDate {
    /// The date, or what refuses it: a rule of 1 to 8, 10, 11, 23 or 24.
    pub date: Result<Date, Refusal>,
    /// Always true: what follows the first element is unread.
    pub unread: bool,
}

/// The date of a document by its first element alone: no octet after it is read, so the front of a stream is enough, if the
/// first element is whole in it. Of an accepted letter it is [`Letter::date`].
pub fn first_date(stream: &[u8]) -> FirstDate {
    first_date_in(Edition::Of1988, stream)
}

/// As [`first_date`], by an edition: the editions differ in which octets begin an element, and so in whether 10 or 11 refuses the first one.
pub fn first_date_in(edition: Edition, stream: &[u8]) -> FirstDate {
    let answer = raw::first_date_in(edition, stream);
    FirstDate { date: Date::of(answer.date), unread: answer.unread != 0 }
}

impl Letter<'_> {
    /// The date of the document, or the refusal by 23 or 24.
    pub fn date(&self) -> Result<Date, Refusal> {
        // Of an accepted letter the first element tells it, and nothing else has to be read again.
        first_date_in(self.edition(), self.stream()).date
    }
}
