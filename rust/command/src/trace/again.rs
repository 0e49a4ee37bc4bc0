//! A file read once more, and what is shown of it held against its octets: `odif trace --check`.

use std::io::{self, Write};
use std::ops::Range;

use serde::Serialize;

use super::Known;
use crate::asked::Files;
use crate::input::{self, Source};
use crate::show;
use crate::sources::Place;
use crate::status::Failure;

/// What was held against the file, and what is not as shown.
#[derive(Serialize)]
pub struct Held {
    lines: usize,
    octets: usize,
    places: usize,
    date: bool,
    differing: Vec<Differing>,
}

/// A line, counted from 1, or the date, whose octets are not those of the file.
#[derive(Debug, PartialEq, Eq, Serialize)]
struct Differing {
    line: Option<usize>,
    places: Vec<Place>,
}

impl Held {
    /// Reads the file of a source once more.
    pub fn of(files: &Files, source: &Source<'_>, known: &Known<'_>) -> Result<Held, Failure> {
        let read = input::read_file(source.file.as_ref(), files.hex);
        let stream = read.map_err(|error| Failure::File(format!("{}: {error}", source.shown)))?.octets;
        let text = &known.text;
        let lines = text.lines().iter().enumerate();
        let lines = lines.map(|(line, found)| (Some(line + 1), text.content(found), known.sources.of_line(line)));
        let date = known.date.as_ref().ok().map(|date| (date.to_string(), date.place.start));
        let date = date.map(|(day, first)| (day.clone(), first..first + day.len()));
        let dates = date.iter().map(|(day, place)| (None, day.as_bytes(), std::slice::from_ref(place)));
        Ok(Held {
            lines: text.lines().len(),
            octets: text.octets().len(),
            places: known.sources.all().count(),
            date: date.is_some(),
            differing: differing(&stream, lines.chain(dates)),
        })
    }

    pub fn differs(&self) -> bool {
        !self.differing.is_empty()
    }

    pub fn write(&self, out: &mut dyn Write) -> io::Result<()> {
        for Differing { line, places } in &self.differing {
            let what = line.map_or("the date".into(), |line| format!("line {line}"));
            let places: Vec<Range<usize>> = places.iter().map(|place| place.first..place.past).collect();
            writeln!(
                out,
                "\ncheck: {what} is not what the file, read once more, has at {}",
                crate::sources::shown(&places)
            )?;
        }
        if self.differs() {
            return Ok(());
        }
        let date = if self.date { ", and the date," } else { "" };
        let (octets, lines) = (show::counted(self.octets, "octet"), show::counted(self.lines, "line"));
        let places = show::counted(self.places, "place");
        writeln!(out, "\ncheck: the file, read once more, has the {octets} of {lines}{date} at these {places}")
    }
}

/// Those of some octets that are not the octets of a stream at their places, one after another.
fn differing<'a>(
    stream: &[u8],
    shown: impl Iterator<Item = (Option<usize>, &'a [u8], &'a [Range<usize>])>,
) -> Vec<Differing> {
    let is_other = |octets: &[u8], places: &[Range<usize>]| {
        let there: Option<Vec<&[u8]>> = places.iter().map(|place| stream.get(place.clone())).collect();
        there.is_none_or(|there| there.concat() != octets)
    };
    let other = shown.filter(|(_, octets, places)| is_other(octets, places));
    other.map(|(line, _, places)| Differing { line, places: places.iter().map(Place::of).collect() }).collect()
}

#[cfg(test)]
mod tests {
    use super::*;

    #[test]
    fn what_differs_is_named() {
        let stream = b"abcdefgh";
        let places = [[1..3, 5..6], [1..3, 6..7], [1..3, 7..9]];
        let shown = |at: usize| (Some(at + 1), &b"bcf"[..], &places[at][..]);
        let found = differing(stream, (0..3).map(shown));
        assert_eq!(found.iter().map(|differing| differing.line).collect::<Vec<_>>(), [Some(2), Some(3)]);
        assert_eq!(found[1].places[1], Place { first: 7, past: 9 });
        assert!(differing(stream, [(None, &b""[..], &[][..])].into_iter()).is_empty());
    }
}
