//! The date of the document and the date by the first element alone: what the library and the reader answer, and what the
//! two questions have to do with each other.

use odif::{Edition, raw};
use reader::Reading;

use crate::editions::to_reader;
use crate::one::One;
use crate::rng::Rng;
use crate::tally::Question;

fn numbers(date: raw::Dated) -> [u32; 7] {
    [date.number, date.place, date.first, date.past, date.year, date.month, date.day]
}

fn wanted(date: reader::Dated) -> [u32; 7] {
    [date.number, date.place, date.first, date.past, date.year, date.month, date.day]
}

/// Puts both questions to the library and to the reader.
pub fn hold(one: &mut One<'_>, rng: &mut Rng) {
    let date = raw::date_in(one.edition, one.stream);
    let first = raw::first_date_in(one.edition, one.stream);
    one.meet(Question::Date, date.number);
    one.meet(Question::FirstDate, first.date.number);
    let theirs = wanted(one.reading.date());
    one.expect(numbers(date) == theirs, "the date", || format!("{date:?}, not {theirs:?}"));
    let theirs = wanted(reader::first_date(to_reader(one.edition), one.stream));
    one.expect(numbers(first.date) == theirs, "the first date", || format!("{first:?}, not {theirs:?}"));
    one.expect(first.unread == 1, "the note of the first date", || format!("{first:?}"));
    let empty = numbers(date)[2..] == [0; 5];
    one.expect((date.number != 0) == empty, "a refused date is empty", || format!("{date:?}"));
    if one.reading.refusal().is_none() {
        one.expect(first.date == date, "the first date of a letter", || format!("{first:?}, not {date:?}"));
        one.date_of_crate(date);
    }
    if let Some(end) = whole_first_element(one.stream, one.reading) {
        one.first_date_of_fronts(first, end, rng);
    }
}

impl One<'_> {
    /// The crate's letter has the date that the library gives.
    fn date_of_crate(&mut self, date: raw::Dated) {
        let letter = odif::Letter::read_in(self.edition, self.stream).ok().map(|letter| letter.date());
        let same = letter.as_ref().is_some_and(|found| match found {
            Ok(found) => {
                date.number == 0
                    && [found.place.start, found.place.end] == [date.first as usize, date.past as usize]
                    && [u32::from(found.year), found.month.into(), found.day.into()]
                        == [date.year, date.month, date.day]
            }
            Err(refusal) => (refusal.number(), refusal.place) == (date.number, 0),
        });
        self.expect(same, "the crate's date", || format!("{letter:?}, not {date:?}"));
    }

    /// Nothing past the first element, which ends here, has a word in the first date.
    fn first_date_of_fronts(&mut self, first: raw::FirstDated, end: usize, rng: &mut Rng) {
        // Rule 1 looks at the whole length.
        let room = (odif::STREAM_LIMIT - end).min(8);
        let damaged = [&self.stream[..end], &rng.number().to_le_bytes()[..rng.below(room + 1)]].concat();
        let other = raw::first_date_in(self.edition, &damaged);
        self.expect(other == first, "the first date with another remainder", || format!("{other:?}, not {first:?}"));
        let front = raw::first_date_in(self.edition, &self.stream[..end]);
        self.expect(front == first, "the first date of a front", || format!("{front:?}, not {first:?}"));
    }
}

/// Where the first element ends, if it is whole.
fn whole_first_element(stream: &[u8], reading: &Reading<'_>) -> Option<usize> {
    let items = reading.tree().items();
    match items.iter().skip(1).find(|item| item.level() == 1) {
        Some(second) => Some(second.first()),
        None if reading.refusal().is_none_or(|refusal| refusal.number() > 8) && !items.is_empty() => Some(stream.len()),
        None => None,
    }
}

/// What is told of a date apart from its place: the number, the octets and the day.
pub fn told(edition: Edition, stream: &[u8]) -> (u32, &[u8], [u32; 3]) {
    let date = raw::date_in(edition, stream);
    (date.number, &stream[date.first as usize..date.past as usize], [date.year, date.month, date.day])
}
