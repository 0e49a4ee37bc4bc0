//! The lines of a text, each with where its octets stand in the file: `odif text --offsets`.

use std::io::{self, Write};
use std::ops::Range;

use serde::Serialize;

use crate::input::Source;
use crate::on_pages::OnPages;
use crate::show;
use crate::sources::{self, Place, Sources};
use crate::text::{Text, in_blocks};
use crate::units::{Unit, Units};

/// What JSON has besides the verdict.
#[derive(Default, Serialize)]
pub struct Offsets {
    side: Option<String>,
    lines: Vec<Line>,
    /// The text units that no line shows.
    not_shown: Vec<Unit>,
}

/// A line as it is written, up to its line end.
#[derive(Serialize)]
struct Line {
    /// From 1.
    page: Option<usize>,
    /// The class or object, by its number among the elements and by its identifier.
    element: usize,
    block: Option<String>,
    /// The text unit in which the line begins.
    unit: usize,
    /// The line in UTF-8 if that was asked, and its octets.
    text: Option<String>,
    text_hex: String,
    /// Where its octets stand, with its line end if that is one of the file.
    sources: Vec<Place>,
    #[serde(skip)]
    places: Vec<Range<usize>>,
    /// The line as `odif text` writes it, with its line end.
    #[serde(skip)]
    written: Vec<u8>,
}

impl Offsets {
    /// All lines of a text.
    pub fn of(source: &Source<'_>, text: &Text, pages: &OnPages) -> Offsets {
        let (octets, places) = in_blocks(&text.whole);
        let sources = Sources::of(source.edition, &source.stream, text.side, &text.whole);
        let looked = Looked { source, text, pages, places: &places, sources: &sources };
        let is_end = |octet: &u8| *octet == b'\n';
        let mut past = 0;
        // No set of characters turns another octet into a line end, or a line end into anything else.
        let pairs = octets.split_inclusive(is_end).zip(text.octets.split_inclusive(is_end));
        let lines = pairs.filter_map(|(line, written)| {
            let first = past;
            past += line.len();
            looked.line(&(first..past), written)
        });
        let lines = lines.collect();
        let not_shown = Units::of(text.side, &text.whole).not_shown().to_vec();
        Offsets { side: Some(text.side.to_string()), lines, not_shown }
    }

    /// Those on some pages alone.
    pub fn on_pages(mut self, pages: &[usize]) -> Offsets {
        self.lines.retain(|line| pages.is_empty() || line.page.is_some_and(|page| pages.contains(&page)));
        self
    }

    /// Writes each line behind its places and a tabulator.
    pub fn write(&self, out: &mut impl Write, escape: bool) -> io::Result<()> {
        for line in &self.lines {
            write!(out, "{}\t", sources::shown(&line.places))?;
            match escape {
                true => out.write_all(show::escaped_lines(&line.written).as_bytes())?,
                false => out.write_all(&line.written)?,
            }
        }
        Ok(())
    }
}

/// A text that is looked at line by line, and where the content of each unit is in its octets.
struct Looked<'a> {
    source: &'a Source<'a>,
    text: &'a Text,
    pages: &'a OnPages,
    places: &'a [Range<usize>],
    sources: &'a Sources,
}

impl Looked<'_> {
    /// A line, by the part of the octets that it is.
    fn line(&self, part: &Range<usize>, written: &[u8]) -> Option<Line> {
        let begin = self.places.partition_point(|place| place.end <= part.start);
        let units = begin..self.places.partition_point(|place| place.start < part.end).max(begin);
        let places: Vec<Range<usize>> = units.flat_map(|unit| self.of_unit(unit, part)).collect();
        let found = self.text.whole.lines().get(begin)?;
        let octets: Vec<u8> = places.iter().flat_map(|place| &self.source.stream[place.clone()]).copied().collect();
        let identifier = self.text.whole.elements()[found.element].identifier.clone();
        let is_added = octets.len() < part.len();
        let shown = if is_added { written.strip_suffix(b"\n").unwrap_or(written) } else { written };
        let text = if self.text.is_utf8 { String::from_utf8(shown.to_vec()).ok() } else { show::ascii(&octets) };
        Some(Line {
            page: self.pages.page(found.element),
            element: found.element,
            block: identifier.map(|place| show::escaped(&self.source.stream[place])),
            unit: found.unit,
            text,
            text_hex: show::hex(&octets),
            sources: places.iter().map(Place::of).collect(),
            places,
            written: written.to_vec(),
        })
    }

    /// Where those octets of a unit stand that are in a part of the text.
    fn of_unit(&self, unit: usize, part: &Range<usize>) -> Vec<Range<usize>> {
        let place = &self.places[unit];
        let (first, past) = (part.start.max(place.start), part.end.min(place.end));
        if first < past { self.sources.of_part(unit, &(first - place.start..past - place.start)) } else { Vec::new() }
    }
}
