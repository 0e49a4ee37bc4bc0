//! Letters: the questions of the library with the memory they need, answered as Rust values.

use std::borrow::Cow;
use std::fmt;
use std::ops::Range;

use crate::edition::Edition;
use crate::raw;
use crate::refusal::{Refusal, Rule};
use crate::{MOST_ELEMENTS, NO_PARENT, ROW_WIDTH, SHORT_LIMIT, STREAM_LIMIT};

/// One side of a letter.
#[derive(Clone, Copy, Debug, PartialEq, Eq)]
pub enum Side {
    /// Layout classes and objects, and the units' layout identifiers.
    Layout,
    /// Logical classes and objects, and the units' logical identifiers.
    Logical,
}

impl fmt::Display for Side {
    fn fmt(&self, f: &mut fmt::Formatter<'_>) -> fmt::Result {
        f.write_str(match self {
            Side::Layout => "layout",
            Side::Logical => "logical",
        })
    }
}

/// The kind of an element.
#[derive(Clone, Copy, Debug, PartialEq, Eq, Hash)]
#[non_exhaustive]
pub enum Kind {
    /// A0
    DocumentProfile,
    /// A1
    LayoutClass,
    /// A2
    LayoutObject,
    /// A3
    TextUnit,
    /// A5
    LogicalClass,
    /// A6
    LogicalObject,
    /// A7
    PresentationStyle,
    /// A8
    LayoutStyle,
    /// A9, of 1993
    SealedProfile,
    /// AA, of 1993
    EncipheredProfile,
    /// AB, of 1993
    PreEncipheredPart,
    /// AC, of 1993
    PostEncipheredPart,
    /// Another number: the library is newer than this crate.
    #[non_exhaustive]
    Unknown(u32),
}

impl Kind {
    /// The kind of a number of the table, if there is one: 0 to 8, and in 1993 9 to 12.
    pub fn from_number(number: u32) -> Option<Kind> {
        Some(match number {
            0 => Kind::DocumentProfile,
            1 => Kind::LayoutClass,
            2 => Kind::LayoutObject,
            3 => Kind::TextUnit,
            5 => Kind::LogicalClass,
            6 => Kind::LogicalObject,
            7 => Kind::PresentationStyle,
            8 => Kind::LayoutStyle,
            9 => Kind::SealedProfile,
            10 => Kind::EncipheredProfile,
            11 => Kind::PreEncipheredPart,
            12 => Kind::PostEncipheredPart,
            _ => return None,
        })
    }

    /// The kind in words.
    pub fn name(self) -> &'static str {
        match self {
            Kind::DocumentProfile => "document profile",
            Kind::LayoutClass => "layout class",
            Kind::LayoutObject => "layout object",
            Kind::TextUnit => "text unit",
            Kind::LogicalClass => "logical class",
            Kind::LogicalObject => "logical object",
            Kind::PresentationStyle => "presentation style",
            Kind::LayoutStyle => "layout style",
            Kind::SealedProfile => "sealed document profile",
            Kind::EncipheredProfile => "enciphered document profile",
            Kind::PreEncipheredPart => "pre-enciphered body part",
            Kind::PostEncipheredPart => "post-enciphered body part",
            Kind::Unknown(_) => "element of an unknown kind",
        }
    }
}

impl fmt::Display for Kind {
    fn fmt(&self, f: &mut fmt::Formatter<'_>) -> fmt::Result {
        f.write_str(self.name())
    }
}

/// One element: a row of the table. The ranges are of the stream; all but the element's own bound a value.
#[derive(Clone, Debug, PartialEq, Eq)]
#[non_exhaustive]
pub struct Element {
    /// What it is.
    pub kind: Kind,
    /// Its object type, if it has one.
    pub object_type: Option<u8>,
    /// The whole element.
    pub place: Range<usize>,
    /// Its identifier; of a text unit the layout identifier.
    pub identifier: Option<Range<usize>>,
    /// A text unit's logical identifier.
    pub logical_identifier: Option<Range<usize>>,
    /// The portions of a class or object.
    pub portions: Option<Range<usize>>,
    /// A text unit's content. If that is in pieces or tiled, it is the value that holds them, with their headers; the
    /// joined octets are [`Letter::content`]. Of an enciphered part, the enciphered information.
    pub content: Option<Range<usize>>,
    /// The number of the class or object of its side that it is a child of: the one whose identifier is its own without the
    /// last group. A parent may stand after its child.
    pub parent: Option<usize>,
}

impl Element {
    /// The first so many rows of a table.
    pub(crate) fn of_table(table: &[u32], count: usize) -> Vec<Self> {
        table.chunks_exact(ROW_WIDTH).take(count).map(Element::from_row).collect()
    }

    fn from_row(row: &[u32]) -> Self {
        let range = |at: usize| row[at] as usize..row[at + 1] as usize;
        let value = |at: usize| (row[at + 1] != 0).then(|| range(at));
        Element {
            kind: Kind::from_number(row[0]).unwrap_or(Kind::Unknown(row[0])),
            object_type: u8::try_from(row[1]).ok().filter(|&number| number != u8::MAX),
            place: range(2),
            identifier: value(4),
            logical_identifier: value(6),
            portions: value(8),
            content: value(10),
            parent: (row[12] != NO_PARENT).then_some(row[12] as usize),
        }
    }
}

/// One record of a reading list, all numbers from 0.
#[derive(Clone, Copy, Debug, PartialEq, Eq)]
#[non_exhaustive]
pub struct Match {
    /// The class or object.
    pub element: usize,
    /// The portion's place in it.
    pub portion: usize,
    /// The text unit.
    pub unit: usize,
}

/// The outcome of a check. The header count comes with a refusal too.
#[derive(Clone, Copy, Debug, PartialEq, Eq)]
#[non_exhaustive]
pub struct Checked {
    /// How many items passed the octet rules, 2 to 8.
    pub headers: usize,
    /// The number of elements, or the refusal.
    pub verdict: Result<usize, Refusal>,
}

/// Checks a stream by the rules 1 to 15.
pub fn check(stream: &[u8]) -> Checked {
    check_in(Edition::Of1988, stream)
}

/// As [`check`], by an edition.
pub fn check_in(edition: Edition, stream: &[u8]) -> Checked {
    check_with_table(edition, stream, &mut new_table(stream))
}

fn check_with_table(edition: Edition, stream: &[u8], table: &mut [u32]) -> Checked {
    let answer = raw::check_in(edition, stream, table);
    let verdict = Refusal::unless_accepted(answer.number, answer.place).map(|()| answer.elements as usize);
    Checked { headers: answer.headers as usize, verdict }
}

/// Fetches the content of a text unit: a part of the stream, or, where it was saved in pieces, those joined in order. It
/// judges the whole stream; for all units of a side [`text`](crate::text()) does so once.
pub fn content(stream: &[u8], element: usize) -> Result<Cow<'_, [u8]>, Refusal> {
    content_in(Edition::Of1988, stream, element)
}

/// As [`content`], by an edition. Tiles are joined in order, and a unit without content has an empty one.
pub fn content_in(edition: Edition, stream: &[u8], element: usize) -> Result<Cow<'_, [u8]>, Refusal> {
    let element = u32::try_from(element).unwrap_or(u32::MAX);
    let answer = raw::content_in(edition, stream, element);
    match Refusal::unless_accepted(answer.number, answer.place) {
        Ok(()) => Ok(Cow::Borrowed(&stream[answer.first as usize..answer.past as usize])),
        Err(refusal) if refusal.rule == Rule::InPieces => joined(edition, stream, element).map(Cow::Owned),
        Err(refusal) => Err(refusal),
    }
}

/// The joined content of a text unit, which is shorter than the stream.
fn joined(edition: Edition, stream: &[u8], element: u32) -> Result<Vec<u8>, Refusal> {
    let mut out = vec![0; stream.len()];
    let answer = raw::joined_in(edition, stream, element, &mut out);
    Refusal::unless_accepted(answer.number, answer.place)?;
    out.truncate(answer.length as usize);
    Ok(out)
}

/// Makes the normal form of a stream.
pub fn normal_form(stream: &[u8]) -> Result<Vec<u8>, Refusal> {
    normal_form_in(Edition::Of1988, stream)
}

/// As [`normal_form`], by an edition.
pub fn normal_form_in(edition: Edition, stream: &[u8]) -> Result<Vec<u8>, Refusal> {
    // An item's header grows by at most one octet, and only where its value is over 65,535 octets.
    let longest = (stream.len() + stream.len() / 4_096 + 16).min(STREAM_LIMIT);
    let mut out = vec![0; longest];
    let answer = raw::normal_in(edition, stream, &mut out);
    Refusal::unless_accepted(answer.number, answer.place)?;
    out.truncate(answer.length as usize);
    Ok(out)
}

/// Makes the normal form of a stream of at most [`SHORT_LIMIT`](crate::SHORT_LIMIT) octets, which is never longer than the
/// stream. A longer one is refused by rule 1.
pub fn short_normal_form(stream: &[u8]) -> Result<Vec<u8>, Refusal> {
    short_normal_form_in(Edition::Of1988, stream)
}

/// As [`short_normal_form`], by an edition.
pub fn short_normal_form_in(edition: Edition, stream: &[u8]) -> Result<Vec<u8>, Refusal> {
    let mut out = vec![0; stream.len().min(SHORT_LIMIT)];
    let answer = raw::normal_short_in(edition, stream, &mut out);
    Refusal::unless_accepted(answer.number, answer.place)?;
    out.truncate(answer.length as usize);
    Ok(out)
}

/// Writes the normal form of a stream of at most [`SHORT_LIMIT`](crate::SHORT_LIMIT) octets in memory that the caller lends:
/// it allocates nothing and takes less than 8 KiB of stack. An output as long as the stream is always enough;
/// [`lent_rows`](raw::lent_rows) and [`lent_index`](raw::lent_index) say how much scratch is, and less is refused by rule 32.
pub fn short_normal_form_lent<'a>(
    edition: Edition,
    stream: &[u8],
    out: &'a mut [u8],
    rows: &mut [u32],
    index: &mut [u16],
) -> Result<&'a [u8], Refusal> {
    let answer = raw::normal_short_lent_in(edition, stream, out, rows, index);
    Refusal::unless_accepted(answer.number, answer.place)?;
    Ok(&out[..answer.length as usize])
}

/// No accepted stream of this length has more elements: one has at least two octets.
pub(crate) fn most_elements(stream: &[u8]) -> usize {
    (stream.len() / 2).min(MOST_ELEMENTS)
}

fn new_table(stream: &[u8]) -> Vec<u32> {
    vec![0; most_elements(stream) * ROW_WIDTH]
}

/// An accepted letter: the caller's stream with its table.
#[derive(Clone, Debug)]
pub struct Letter<'a> {
    edition: Edition,
    stream: &'a [u8],
    headers: usize,
    elements: Vec<Element>,
}

impl<'a> Letter<'a> {
    /// Checks a stream and takes up its elements.
    pub fn read(stream: &'a [u8]) -> Result<Self, Refusal> {
        Letter::read_in(Edition::Of1988, stream)
    }

    /// Checks a stream and takes up its elements by an edition, by which the letter then answers everything.
    pub fn read_in(edition: Edition, stream: &'a [u8]) -> Result<Self, Refusal> {
        let mut table = new_table(stream);
        let checked = check_with_table(edition, stream, &mut table);
        let count = checked.verdict?;
        let elements = Element::of_table(&table, count);
        Ok(Letter { edition, stream, headers: checked.headers, elements })
    }

    /// The edition by which it was read.
    pub fn edition(&self) -> Edition {
        self.edition
    }

    /// The stream it was read from.
    pub fn stream(&self) -> &'a [u8] {
        self.stream
    }

    /// How many items it has.
    pub fn headers(&self) -> usize {
        self.headers
    }

    /// The elements in stream order.
    pub fn elements(&self) -> &[Element] {
        &self.elements
    }

    /// The content of a text unit: a part of the caller's own stream, or, where it was saved in pieces or tiles, those
    /// joined in order. It is empty where the unit has none. `None` where the element is no text unit or does not exist.
    /// The library judges the whole stream for each; [`Letter::text`] asks once for all units of a side.
    pub fn content(&self, element: usize) -> Option<Cow<'a, [u8]>> {
        self.elements.get(element).filter(|element| element.kind == Kind::TextUnit)?;
        content_in(self.edition, self.stream, element).ok()
    }

    /// The identifier of an element; of a text unit the layout identifier.
    pub fn identifier(&self, element: usize) -> Option<&'a [u8]> {
        let bounds = self.elements.get(element)?.identifier.clone()?;
        Some(&self.stream[bounds])
    }

    /// The logical identifier of a text unit.
    pub fn logical_identifier(&self, element: usize) -> Option<&'a [u8]> {
        let bounds = self.elements.get(element)?.logical_identifier.clone()?;
        Some(&self.stream[bounds])
    }

    /// The reading list of a side, in stream order of the elements and then in the order of their portions.
    pub fn reading_list(&self, side: Side) -> Result<Vec<Match>, Refusal> {
        // A unit is in at most one match of a side.
        let units = self.elements.iter().filter(|element| element.kind == Kind::TextUnit).count();
        let mut table = vec![0; self.elements.len() * ROW_WIDTH];
        let mut list = vec![raw::Match::default(); units];
        let answer = match side {
            Side::Layout => raw::layout_in(self.edition, self.stream, &mut table, &mut list),
            Side::Logical => raw::logical_in(self.edition, self.stream, &mut table, &mut list),
        };
        Refusal::unless_accepted(answer.number, answer.place)?;
        list.truncate(answer.matches as usize);
        let widened = list.into_iter().map(|found| Match {
            element: found.element as usize,
            portion: found.portion as usize,
            unit: found.unit as usize,
        });
        Ok(widened.collect())
    }

    /// The children of an element in stream order, by number: the elements whose parent it is. `None` where the element does
    /// not exist.
    pub fn children(&self, element: usize) -> Option<Vec<usize>> {
        let row = u32::try_from(element).ok().filter(|_| element < self.elements.len())?;
        let mut table = vec![0; self.elements.len() * ROW_WIDTH];
        let mut list = vec![0; self.elements.len()];
        let answer = raw::children_in(self.edition, self.stream, row, &mut table, &mut list);
        list.truncate(answer.children as usize);
        (answer.number == 0).then(|| list.into_iter().map(|child| child as usize).collect())
    }

    /// Makes the normal form.
    pub fn normal_form(&self) -> Result<Vec<u8>, Refusal> {
        normal_form_in(self.edition, self.stream)
    }
}
