//! The lines of a text, piece by piece.

use std::io::{self, Write};
use std::ops::Range;

use serde::Serialize;

use super::Known;
use crate::input::Source;
use crate::on_pages::OnPages;
use crate::show;
use crate::text::{How, in_blocks};

/// Octets a row.
const ROW: usize = 16;

/// A line: the content of one text unit.
#[derive(Serialize)]
pub struct Line {
    /// From 1, in the order of the text.
    pub line: usize,
    /// From 1.
    page: Option<usize>,
    block: Option<String>,
    element: usize,
    portion: usize,
    unit: usize,
    /// The characters of its octets.
    text: String,
    sources: Vec<Piece>,
}

/// A piece of a line.
#[derive(Serialize)]
struct Piece {
    first: usize,
    past: usize,
    value: Option<String>,
    value_hex: String,
    text: String,
    #[serde(skip)]
    rows: Vec<Row>,
}

/// Some octets of a piece for people.
struct Row {
    place: Range<usize>,
    octets: Vec<u8>,
    text: String,
}

/// All lines of a text.
pub fn of(how: &How, source: &Source<'_>, known: &Known<'_>) -> Vec<Line> {
    let (octets, places) = in_blocks(&known.text);
    // Where each row of each piece is in these octets: the characters are those of the whole text.
    let parts = places.iter().enumerate().flat_map(|(line, place)| parts(known.sources.of_line(line), place.start));
    let (text, parts) = how.characters(source, octets, parts.collect());
    let mut characters = parts.into_iter().map(|part| String::from_utf8_lossy(&text[part]).into_owned());
    let pages = OnPages::of(known.text.elements());
    let lines = known.text.lines().iter().enumerate();
    lines.map(|(number, found)| line(known, &pages, number, found, &mut characters)).collect()
}

/// The places of rows in a text, of a line that begins at a place of the text.
fn parts(sources: &[Range<usize>], mut past: usize) -> Vec<Range<usize>> {
    let rows = sources.iter().flat_map(rows);
    rows.map(|row| {
        let first = past;
        past += row.len();
        first..past
    })
    .collect()
}

/// A piece cut into rows.
pub fn rows(piece: &Range<usize>) -> impl Iterator<Item = Range<usize>> + use<> {
    let past = piece.end;
    piece.clone().step_by(ROW).map(move |first| first..(first + ROW).min(past))
}

fn line(
    known: &Known<'_>,
    pages: &OnPages,
    number: usize,
    found: &odif::Line,
    characters: &mut impl Iterator<Item = String>,
) -> Line {
    let sources: Vec<Piece> =
        known.sources.of_line(number).iter().map(|place| Piece::of(known, place, characters)).collect();
    Line {
        line: number + 1,
        page: pages.page(found.element),
        block: known.letter.identifier(found.element).map(show::escaped),
        element: found.element,
        portion: found.portion,
        unit: found.unit,
        text: sources.iter().map(|piece| piece.text.as_str()).collect(),
        sources,
    }
}

impl Piece {
    fn of(known: &Known<'_>, place: &Range<usize>, characters: &mut impl Iterator<Item = String>) -> Piece {
        let octets = known.octets(place);
        let row = |place: Range<usize>| Row {
            octets: known.octets(&place).to_vec(),
            place,
            text: characters.next().expect("each row was turned into characters"),
        };
        let rows: Vec<Row> = rows(place).map(row).collect();
        Piece {
            first: place.start,
            past: place.end,
            value: show::ascii(octets),
            value_hex: show::hex(octets),
            text: rows.iter().map(|row| row.text.as_str()).collect(),
            rows,
        }
    }
}

impl Line {
    pub fn write(&self, out: &mut dyn Write) -> io::Result<()> {
        writeln!(out, "\n{}", self.in_words())?;
        for row in self.sources.iter().flat_map(|piece| &piece.rows) {
            write_row(out, &row.place, &row.octets, &on_one_row(&row.text))?;
        }
        Ok(())
    }

    fn in_words(&self) -> String {
        let Line { line, element, portion, unit, .. } = self;
        let page = self.page.map_or(String::new(), |page| format!("page {page}, "));
        let block = self.block.as_ref().map_or(String::new(), |block| format!(" {block}"));
        let pieces = match self.sources.len() {
            0 => ": no octets".into(),
            1 => String::new(),
            count => format!(", in {count} pieces"),
        };
        format!("line {line}: {page}block{block} (element {element}), portion {portion}, unit {unit}{pieces}")
    }
}

/// A row: where its octets stand, the octets and the characters.
pub fn write_row(out: &mut dyn Write, place: &Range<usize>, octets: &[u8], text: &str) -> io::Result<()> {
    let hex = octets.iter().map(|&octet| show::hex(&[octet])).collect::<Vec<_>>().join(" ");
    let place = format!("{}..{}", place.start, place.end);
    writeln!(out, "{place:>16}  {hex:47}  |{text}|")
}

/// Characters without what would end a row or move on it.
fn on_one_row(text: &str) -> String {
    let mut row = String::with_capacity(text.len());
    for letter in text.chars() {
        match letter {
            '\\' => row.push_str("\\\\"),
            '\n' => row.push_str("\\n"),
            '\r' => row.push_str("\\r"),
            '\t' => row.push_str("\\t"),
            letter if letter.is_control() => row.push_str(&format!("\\x{:02X}", u32::from(letter))),
            letter => row.push(letter),
        }
    }
    row
}

#[cfg(test)]
mod tests {
    use super::*;

    #[test]
    fn rows_do_not_cross_pieces() {
        assert_eq!(rows(&(5..40)).collect::<Vec<_>>(), [5..21, 21..37, 37..40]);
        assert_eq!(parts(&[5..25, 40..41], 100), [100..116, 116..120, 120..121]);
    }

    #[test]
    fn a_row_stays_one() {
        assert_eq!(on_one_row("a\\b\n\r\t\u{C}ü⟦1B⟧"), "a\\\\b\\n\\r\\t\\x0Cü⟦1B⟧");
    }
}
