//! Why a letter has no date: what stands where its date should be.
//!
//! The verdict, 23 or 24, is the proved library's. It tells no octets, so what was found comes from the independent
//! reader's items, where they explain the verdict.

use odif::{Edition, Refusal};
use reader::{Item, Reading};
use serde::Serialize;

use crate::asked::of_reader;
use crate::show;

/// The octets of a date that are shown to people.
const SHOWN: usize = 40;

/// What stands where the date of the document should be.
#[derive(Debug, PartialEq, Eq, Serialize)]
pub struct Found {
    /// Where the item begins, and where its value stands.
    pub place: usize,
    pub first: usize,
    pub past: usize,
    pub constructed: bool,
    pub value: Option<String>,
    pub value_hex: String,
    /// Its beginning, for people.
    #[serde(skip)]
    beginning: String,
}

/// The reason for people, and what was found.
pub struct Undated {
    pub detail: String,
    pub dates: Vec<Found>,
}

impl Undated {
    /// Why 23 or 24 refuses the date of a stream of which at least the first element is there.
    pub fn of(edition: Edition, stream: &[u8], refusal: &Refusal) -> Undated {
        let reading = Reading::by(of_reader(edition), stream);
        let dates: Vec<Found> = dates(reading.tree().items()).map(|item| found(stream, item)).collect();
        let detail = detail(refusal.number(), &dates).unwrap_or_else(|| refusal.rule.sentence().into());
        Undated { detail, dates }
    }
}

fn found(stream: &[u8], item: &Item) -> Found {
    let octets = &stream[item.value()];
    Found {
        place: item.first(),
        first: item.value().start,
        past: item.value().end,
        constructed: item.is_constructed(),
        value: show::ascii(octets),
        value_hex: show::hex(octets),
        beginning: show::beginning(octets, SHOWN),
    }
}

/// The items 80 or A0 in an A0 in an A3 of the first element.
fn dates(items: &[Item]) -> impl Iterator<Item = &Item> {
    let inside = items.iter().skip(1).take_while(|item| item.level() > 1);
    let (mut is_management, mut is_times) = (false, false);
    inside.filter(move |item| {
        match item.level() {
            2 => (is_management, is_times) = (item.octet() == 0xA3, false),
            3 => is_times = is_management && item.octet() == 0xA0,
            _ => {}
        }
        item.level() == 4 && is_times && matches!(item.octet(), 0x80 | 0xA0)
    })
}

/// The reason in words, if what was found is one.
fn detail(number: u32, dates: &[Found]) -> Option<String> {
    match (number, dates) {
        (23, []) => Some("the profile has no date of the document".into()),
        (23, [date]) if date.constructed => {
            Some(format!("the date of the document, at octet {}, is constructed", date.place))
        }
        (23, [_, _, ..]) => {
            let each = dates.iter().map(|date| format!("\"{}\" at octet {}", date.beginning, date.first));
            let each = each.collect::<Vec<_>>().join(", ");
            Some(format!("the profile has {} dates of the document: {each}", dates.len()))
        }
        (24, [date]) => {
            let (text, at) = (&date.beginning, date.first);
            Some(match date.value.as_deref().is_some_and(is_spelt_as_a_day) {
                true => format!("the date of the document, \"{text}\" at octet {at}, is no day of the calendar"),
                false => {
                    format!(
                        "the date of the document, \"{text}\" at octet {at}, does not begin with a day as in 1988-06-05"
                    )
                }
            })
        }
        _ => None,
    }
}

/// Four, two and two digits with hyphens between, and anything behind.
fn is_spelt_as_a_day(text: &str) -> bool {
    let is_fit =
        |(place, octet): (usize, u8)| if matches!(place, 4 | 7) { octet == b'-' } else { octet.is_ascii_digit() };
    text.len() >= 10 && text.bytes().take(10).enumerate().all(is_fit)
}
