//! The text of a side: all of its reading list at once.

use std::ops::Range;

use crate::ROW_WIDTH;
use crate::edition::Edition;
use crate::letter::{Element, Letter, Side, most_elements};
use crate::raw;
use crate::refusal::Refusal;

/// One line of a text: a match of the reading list, all numbers from 0, and where its unit's content stands.
#[derive(Clone, Debug, PartialEq, Eq)]
#[non_exhaustive]
pub struct Line {
    /// The class or object.
    pub element: usize,
    /// The portion's place in it.
    pub portion: usize,
    /// The text unit.
    pub unit: usize,
    /// Where the unit's content stands in [`Text::octets`]. It is empty where the unit has none.
    pub place: Range<usize>,
}

/// The text of a side: the contents of the units of its reading list, one after another in its order, each with its pieces
/// or tiles joined.
#[derive(Clone, Debug, PartialEq, Eq)]
pub struct Text {
    elements: Vec<Element>,
    lines: Vec<Line>,
    octets: Vec<u8>,
}

impl Text {
    /// All of it. It is never longer than the stream.
    pub fn octets(&self) -> &[u8] {
        &self.octets
    }

    /// Its lines, one for each match, in order. They meet end to end.
    pub fn lines(&self) -> &[Line] {
        &self.lines
    }

    /// The octets of each line.
    pub fn units(&self) -> impl Iterator<Item = &[u8]> {
        self.lines.iter().map(|line| self.content(line))
    }

    /// The octets of one of its lines.
    pub fn content(&self, line: &Line) -> &[u8] {
        &self.octets[line.place.clone()]
    }

    /// The elements of the letter in stream order, as [`Letter::elements`] has them.
    pub fn elements(&self) -> &[Element] {
        &self.elements
    }

    /// The octets alone.
    pub fn into_octets(self) -> Vec<u8> {
        self.octets
    }
}

/// A text unit in a match has an identifier of at least three octets, in two items, and so at least as many octets.
const SHORTEST_UNIT: usize = 9;

/// Reads the text of a side of a stream, in one judging of it.
pub fn text(stream: &[u8], side: Side) -> Result<Text, Refusal> {
    text_in(Edition::Of1988, stream, side)
}

/// As [`text`], by an edition.
pub fn text_in(edition: Edition, stream: &[u8], side: Side) -> Result<Text, Refusal> {
    let most = most_elements(stream);
    let mut table = vec![0; most * ROW_WIDTH];
    let mut lines = vec![raw::Line::default(); most.min(stream.len() / SHORTEST_UNIT)];
    let mut octets = vec![0; stream.len()];
    let shown = match side {
        Side::Layout => raw::layout_text_in(edition, stream, &mut table, &mut lines, &mut octets),
        Side::Logical => raw::logical_text_in(edition, stream, &mut table, &mut lines, &mut octets),
    };
    Refusal::unless_accepted(shown.number, shown.place)?;
    octets.truncate(shown.length as usize);
    let lines = lines[..shown.lines as usize].iter().map(|line| Line {
        element: line.element as usize,
        portion: line.portion as usize,
        unit: line.unit as usize,
        place: line.first as usize..line.past as usize,
    });
    Ok(Text { elements: Element::of_table(&table, shown.elements as usize), lines: lines.collect(), octets })
}

impl Letter<'_> {
    /// The text of a side.
    pub fn text(&self, side: Side) -> Result<Text, Refusal> {
        text_in(self.edition(), self.stream(), side)
    }
}
