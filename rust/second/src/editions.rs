//! The two editions held against each other on one stream: what the library answers by one and by the other.

use std::cmp::Ordering;

use odif::{Edition, MOST_ELEMENTS, ROW_WIDTH, raw};
use reader::{Item, Reading};

use crate::sources;
use crate::tally::{Origin, Tally, hex};
use crate::text;

/// The reader's word for an edition.
pub fn to_reader(edition: Edition) -> reader::Edition {
    match edition {
        Edition::Of1988 => reader::Edition::Of1988,
        Edition::Of1993 => reader::Edition::Of1993,
    }
}

/// Where the editions agree on a stream, the library answers every question alike. A letter of 1988 is one of 1993 with
/// the same answers. And 1988 refuses a protected part by 10, unless something before it is refused. The reading is that
/// of 1988.
pub fn hold(stream: &[u8], reading: &Reading<'_>, origin: &Origin, tally: &mut Tally) {
    if reading.refusal().is_some_and(|refusal| refusal.number() < 9) {
        // No edition has a word in this, and there are many such streams: the readers' own answers are enough.
        return;
    }
    let [old, new] = Edition::ALL.map(|edition| Answers::of(edition, stream));
    let mut expect = |holds: bool, what: &str| {
        tally.expect(holds, || format!("{origin}: {what}: {old:?} and {new:?}\n  {}", hex(stream)));
    };
    if reading.refusal().is_none() || agree(reading) {
        expect(old == new, "the editions should answer alike");
    }
    if let Some(part) = first_protected_part(reading) {
        let (number, place) = (old.check.number, old.check.place as usize);
        // Its place among the elements is judged first: it may be the 4,097th.
        let holds = matches!((number, place.cmp(&part)), (9 | 10, Ordering::Equal) | (9.., Ordering::Less));
        expect(holds && old.rows.is_empty(), "1988 should refuse the first protected part by 10, and fill no row");
    }
}

/// Everything that the library says of a stream by an edition.
#[derive(Debug, PartialEq)]
struct Answers {
    check: raw::Checked,
    rows: Vec<u32>,
    lists: [(raw::Listed, Vec<raw::Match>); 2],
    normal: (raw::Written, Vec<u8>),
    short: (raw::Written, Vec<u8>),
    texts: [(raw::TextRead, Vec<raw::Line>, Vec<u8>); 2],
    sources: [sources::Told; 2],
    contents: Vec<(raw::Found, raw::Copied, Vec<u8>)>,
}

/// Contents are asked of so many elements, the first and one that no letter has among them.
const ASKED: u32 = 6;

impl Answers {
    fn of(edition: Edition, stream: &[u8]) -> Self {
        let mut table = vec![0; (stream.len() / 2).min(MOST_ELEMENTS) * ROW_WIDTH];
        let check = raw::check_in(edition, stream, &mut table);
        let mut list = vec![raw::Match::default(); stream.len().min(MOST_ELEMENTS)];
        let layout = raw::layout_in(edition, stream, &mut table, &mut list);
        let layout = (layout, list[..layout.matches as usize].to_vec());
        let logical = raw::logical_in(edition, stream, &mut table, &mut list);
        let logical = (logical, list[..logical.matches as usize].to_vec());
        let mut out = vec![0; stream.len() + 1_024];
        let normal = raw::normal_in(edition, stream, &mut out);
        let normal = (normal, out[..normal.length as usize].to_vec());
        let short = raw::normal_short_in(edition, stream, &mut out);
        let short = (short, out[..short.length as usize].to_vec());
        let contents = (0..ASKED - 1).chain([u32::MAX]).map(|element| {
            let copied = raw::joined_in(edition, stream, element, &mut out);
            (raw::content_in(edition, stream, element), copied, out[..copied.length as usize].to_vec())
        });
        let contents = contents.collect();
        table.truncate(check.elements as usize * ROW_WIDTH);
        let (texts, sources) = (text::told(edition, stream), sources::told(edition, stream));
        Answers { check, rows: table, lists: [layout, logical], normal, short, texts, sources, contents }
    }
}

/// The elements of a stream, each with its own items.
fn elements<'t>(reading: &'t Reading<'_>) -> impl Iterator<Item = (&'t Item, impl Iterator<Item = &'t Item>)> {
    let groups = reading.tree().items().chunk_by(|_, next| next.level() > 1);
    groups.filter_map(|items| {
        let (element, inside) = items.split_first()?;
        Some((element, inside.iter().filter(|item| item.level() == 2)))
    })
}

fn is_protected(element: &Item) -> bool {
    (0xA9..=0xAC).contains(&element.octet())
}

/// Is no element a protected part, and has every text unit one 04 or 24?
fn agree(reading: &Reading<'_>) -> bool {
    elements(reading).all(|(element, run)| {
        let contents = run.filter(|item| matches!(item.octet(), 0x04 | 0x24)).count();
        !is_protected(element) && (element.octet() != 0xA3 || contents == 1)
    })
}

/// Where the first protected part begins.
fn first_protected_part(reading: &Reading<'_>) -> Option<usize> {
    elements(reading).map(|(element, _)| element).find(|element| is_protected(element)).map(Item::first)
}
