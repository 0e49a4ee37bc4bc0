//! The whole stream: rules 1 to 15 in their order, and the rows of an accepted one.

use std::collections::hash_map::Entry;

use crate::edition::Edition;
use crate::elements::{self, Row, kind};
use crate::items::{Item, Tree};
use crate::names::Names;
use crate::refusal::{Refusal, Why};
use crate::{MOST_ELEMENTS, STREAM_LIMIT, items};

/// An accepted stream: its rows, and what the matching needs.
#[derive(Debug, Default)]
pub(crate) struct Letter<'a> {
    edition: Edition,
    pub rows: Vec<Row>,
    /// The portions of all elements, one after another; each row has its range.
    pub keys: Vec<u64>,
    /// The identifiers of the classes and objects of both sides.
    pub objects: Names<'a>,
    styles: Names<'a>,
    layout_identifiers: Names<'a>,
    logical_identifiers: Names<'a>,
}

/// Judges a stream by 1 to 15: the items that passed 2 to 8, and the letter or its refusal.
pub(crate) fn judge(stream: &[u8], edition: Edition) -> (Tree, Result<Letter<'_>, Refusal>) {
    if stream.len() > STREAM_LIMIT {
        return (Tree::default(), Err(Refusal { why: Why::StreamTooLong, place: 0 }));
    }
    let (tree, fault) = items::read(stream);
    let letter = match fault {
        Some(refusal) => Err(refusal),
        None => judge_elements(stream, edition, &tree),
    };
    (tree, letter)
}

/// "Then elements in order, 9 to 15 in order within each."
fn judge_elements<'a>(stream: &'a [u8], edition: Edition, tree: &Tree) -> Result<Letter<'a>, Refusal> {
    if stream.is_empty() {
        return Err(Refusal { why: Why::EmptyStream, place: 0 });
    }
    let mut letter = Letter { edition, ..Letter::default() };
    letter.rows.reserve(tree.elements().count().min(MOST_ELEMENTS));
    for (place, element) in tree.elements() {
        letter.add(stream, tree, place, element).map_err(|why| Refusal { why, place: element.first() as u32 })?;
    }
    Ok(letter)
}

impl<'a> Letter<'a> {
    /// Judges the next element and takes it up.
    fn add(&mut self, stream: &'a [u8], tree: &Tree, place: usize, element: &Item) -> Result<(), Why> {
        let count = self.rows.len();
        if count == MOST_ELEMENTS {
            return Err(Why::TooManyElements);
        }
        let kind = elements::kind_of(element.octet(), self.edition)?;
        match (count, kind) {
            (0, kind::PROFILE) => {}
            (0, _) => return Err(Why::ProfileMissing),
            (_, kind::PROFILE) => return Err(Why::ProfileAgain),
            _ => {}
        }
        let row = elements::judge(stream, self.edition, tree, place, &mut self.keys)?;
        if has_repetition(&self.keys[row.keys.start as usize..]) {
            return Err(Why::PortionAgain);
        }
        self.enter_names(stream, &row, count as u32)?;
        self.rows.push(row);
        Ok(())
    }

    /// Rule 15 for the identifiers: enters them in their name spaces. A protected part has none in its row.
    fn enter_names(&mut self, stream: &'a [u8], row: &Row, element: u32) -> Result<(), Why> {
        let space = match row.kind {
            kind::TEXT_UNIT => &mut self.layout_identifiers,
            kind::PRESENTATION_STYLE | kind::LAYOUT_STYLE => &mut self.styles,
            _ => &mut self.objects,
        };
        enter(space, row.identifier.octets(stream), element)?;
        enter(&mut self.logical_identifiers, row.logical_identifier.octets(stream), element)
    }
}

/// Enters a name if there is one; it must be new in its space.
fn enter<'a>(space: &mut Names<'a>, name: Option<&'a [u8]>, element: u32) -> Result<(), Why> {
    let Some(name) = name else { return Ok(()) };
    match space.entry(name) {
        Entry::Occupied(_) => Err(Why::IdentifierAgain),
        Entry::Vacant(free) => {
            free.insert(element);
            Ok(())
        }
    }
}

/// Does a portion stand twice?
fn has_repetition(keys: &[u64]) -> bool {
    keys.iter().enumerate().any(|(place, key)| keys[..place].contains(key))
}
