//! The date of the document (W-203), and the same by the first element alone (W-206).
//!
//! Clause 5.6 gives the path: document-management-attributes [3], in it dates-and-times [0], in it document-date-and-time
//! [0]. Every tag on it is IMPLICIT, so the items are A3, A0 and 80, or A0 where the date is constructed.

use std::str;

use crate::STREAM_LIMIT;
use crate::edition::Edition;
use crate::elements;
use crate::items::{self, Item, Tree};
use crate::refusal::{Refusal, Why};

/// The answer of the question for the date.
#[derive(Clone, Copy, Debug, Default, PartialEq, Eq)]
pub struct Dated {
    /// 0, or the number of the refusal.
    pub number: u32,
    /// The place of the refusal.
    pub place: u32,
    /// Where the date begins.
    pub first: u32,
    /// Past the date.
    pub past: u32,
    /// The year, from 1 on.
    pub year: u32,
    /// The month, from 1 on.
    pub month: u32,
    /// The day of the month, from 1 on.
    pub day: u32,
}

impl From<Refusal> for Dated {
    fn from(refusal: Refusal) -> Self {
        Dated { number: refusal.number(), place: refusal.place, ..Dated::default() }
    }
}

/// The date of a letter with this tree: the first element is its profile.
pub(crate) fn of_letter(stream: &[u8], tree: &Tree) -> Dated {
    let within = |places: Vec<usize>, octet: u8| -> Vec<usize> {
        let inside = places.into_iter().flat_map(|place| tree.run(place));
        inside.filter(|(_, item)| item.octet() == octet).map(|(place, _)| place).collect()
    };
    let times = within(within(vec![0], 0xA3), 0xA0);
    let dates: Vec<&Item> = times
        .into_iter()
        .flat_map(|place| tree.run(place))
        .map(|(_, item)| item)
        .filter(|item| matches!(item.octet(), 0x80 | 0xA0))
        .collect();
    let [date] = dates[..] else { return Dated { number: 23, ..Dated::default() } };
    if date.is_constructed() {
        return Dated { number: 23, ..Dated::default() };
    }
    match day_of(&stream[date.value()]) {
        Some((year, month, day)) => {
            let value = date.value();
            Dated { first: value.start as u32, past: value.end as u32, year, month, day, ..Dated::default() }
        }
        None => Dated { number: 24, ..Dated::default() },
    }
}

/// The date of the first element, walked alone by 1 to 8, 10 and 11. What follows it is not looked at.
pub fn first_date(edition: Edition, stream: &[u8]) -> Dated {
    let refused = |why, place| Dated::from(Refusal { why, place });
    if stream.len() > STREAM_LIMIT {
        return refused(Why::StreamTooLong, 0);
    }
    let (tree, fault) = items::read_first(stream);
    if let Some(refusal) = fault {
        return refusal.into();
    }
    let Some(element) = tree.items().first() else { return refused(Why::EmptyStream, 0) };
    match elements::kind_of(element.octet(), edition) {
        Err(why) => refused(why, 0),
        Ok(elements::kind::PROFILE) => of_letter(stream, &tree),
        Ok(_) => refused(Why::ProfileMissing, 0),
    }
}

/// "four, two and two digits with hyphens between, naming a day of the Gregorian calendar, its leap rule in all years, 0001
/// on. Bytes after the ten aren't judged."
fn day_of(value: &[u8]) -> Option<(u32, u32, u32)> {
    let text = str::from_utf8(value.get(..10)?).ok()?;
    let mut groups = text.split('-').map(|group| (group.len(), number_of(group)));
    let (Some((4, year)), Some((2, month)), Some((2, day)), None) =
        (groups.next(), groups.next(), groups.next(), groups.next())
    else {
        return None;
    };
    let (year, month, day) = (year?, month?, day?);
    let leap = year.is_multiple_of(4) && (!year.is_multiple_of(100) || year.is_multiple_of(400));
    let last = match month {
        2 if leap => 29,
        2 => 28,
        4 | 6 | 9 | 11 => 30,
        1..=12 => 31,
        _ => return None,
    };
    (year >= 1 && (1..=last).contains(&day)).then_some((year, month, day))
}

/// The number that some digits spell. A sign is no digit.
fn number_of(group: &str) -> Option<u32> {
    group.bytes().all(|byte| byte.is_ascii_digit()).then(|| group.parse().ok()).flatten()
}

#[cfg(test)]
mod tests {
    use super::*;
    use crate::Reading;

    /// An item of less than 128 octets.
    fn item(octet: u8, value: &[u8]) -> Vec<u8> {
        [&[octet, value.len() as u8], value].concat()
    }

    fn profile(times: &[u8]) -> Vec<u8> {
        item(0xA0, &item(0xA3, &item(0xA0, times)))
    }

    fn numbers(stream: &[u8]) -> (u32, u32, u32, u32) {
        let date = Reading::of(stream).date();
        assert_eq!(first_date(Edition::Of1988, stream), date);
        (date.number, date.year, date.month, date.day)
    }

    #[test]
    fn the_path() {
        let date = item(0x80, b"1991-03-14T09:30");
        assert_eq!(numbers(&profile(&date)), (0, 1991, 3, 14));
        assert_eq!(Reading::of(&profile(&date)).date().first, 8);
        assert_eq!(numbers(&profile(&[date.clone(), date.clone()].concat())), (23, 0, 0, 0));
        assert_eq!(numbers(&profile(&item(0xA0, &date))), (23, 0, 0, 0));
        assert_eq!(numbers(&profile(&item(0x81, b"1991-03-14"))), (23, 0, 0, 0));
        assert_eq!(numbers(&item(0xA0, &item(0xA0, &date))), (23, 0, 0, 0));
        assert_eq!(numbers(&item(0xA0, &item(0xA3, &date))), (23, 0, 0, 0));
        let other = item(0xA3, &item(0xA0, &item(0x80, b"2000-02-29")));
        assert_eq!(numbers(&item(0xA0, &[item(0xA3, &[]), other.clone()].concat())), (0, 2000, 2, 29));
        assert_eq!(numbers(&item(0xA0, &[other.clone(), other].concat())), (23, 0, 0, 0));
    }

    #[test]
    fn days() {
        for (text, day) in [
            ("0001-01-01", Some((1, 1, 1))),
            ("9999-12-31", Some((9999, 12, 31))),
            ("2000-02-29", Some((2000, 2, 29))),
            ("1900-02-29", None),
            ("0000-01-01", None),
            ("1991-13-01", None),
            ("1991-00-01", None),
            ("1991-04-31", None),
            ("1991-01-00", None),
            ("19910101--", None),
            ("1991-1-001", None),
            ("+991-01-01", None),
            ("1991-01-0", None),
            ("1991/01/01", None),
        ] {
            assert_eq!(day_of(text.as_bytes()), day, "{text}");
        }
        assert_eq!(day_of(b"1991-01-01\xFF\x00"), Some((1991, 1, 1)));
        assert_eq!(day_of(b"199\xC3\xA9-01-01"), None);
    }

    #[test]
    fn the_remainder_is_not_looked_at() {
        let mut stream = profile(&item(0x80, b"1991-03-14"));
        let date = first_date(Edition::Of1988, &stream);
        for rest in [&[0x00][..], &[0xA0, 0x00], &[0xA2, 0x05], &[0xFF; 40]] {
            let front = stream.len();
            stream.extend(rest);
            assert_eq!(first_date(Edition::Of1988, &stream), date);
            stream.truncate(front);
        }
        assert_eq!(first_date(Edition::Of1988, &[]).number, 11);
        assert_eq!(first_date(Edition::Of1988, &stream[..stream.len() - 1]).number, 7);
        assert_eq!(first_date(Edition::Of1988, &[0xA2, 0x00, 0xFF]).number, 11);
        assert_eq!(first_date(Edition::Of1988, &[0x80, 0x00, 0xFF]).number, 10);
    }
}
