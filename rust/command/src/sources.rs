//! Where the octets of a text stand in the file, by the library's question `sources`.

use std::ops::Range;

use odif::{Edition, Side, Text};
use serde::Serialize;

/// For each line of a text, where its octets stand in the file: one place, or one for each of its pieces that has octets.
pub struct Sources(Vec<Pieces>);

/// The places of a line, and which octet of the line each begins with, so that one of very many is found at once.
#[derive(Clone, Default)]
struct Pieces {
    places: Vec<Range<usize>>,
    begins: Vec<usize>,
    length: usize,
}

impl Pieces {
    fn add(&mut self, place: Range<usize>) {
        self.begins.push(self.length);
        self.length += place.len();
        self.places.push(place);
    }

    /// Where some octets of the line stand.
    fn of_part(&self, part: &Range<usize>) -> Vec<Range<usize>> {
        let first = self.begins.partition_point(|begin| *begin <= part.start).saturating_sub(1);
        let pieces = self.begins[first..].iter().zip(&self.places[first..]).take_while(|(begin, _)| **begin < part.end);
        let clipped = pieces.map(|(&begin, place)| {
            let (from, to) = (part.start.max(begin) - begin, (part.end - begin).min(place.len()));
            place.start + from..place.start + to.max(from)
        });
        clipped.filter(|place| !place.is_empty()).collect()
    }
}

/// A place in JSON.
#[derive(Clone, Debug, PartialEq, Eq, Serialize)]
pub struct Place {
    pub first: usize,
    pub past: usize,
}

impl Sources {
    /// Those of the text of a side of an accepted stream.
    pub fn of(edition: Edition, stream: &[u8], side: Side, text: &Text) -> Sources {
        let sources = odif::sources_in(edition, stream, side).expect("the sources of an accepted letter");
        let mut of_lines = vec![Pieces::default(); text.lines().len()];
        for source in sources {
            of_lines[source.line].add(source.place);
        }
        Sources(of_lines)
    }

    /// Where the octets of a line stand.
    pub fn of_line(&self, line: usize) -> &[Range<usize>] {
        &self.0[line].places
    }

    /// Where some octets of a line stand, which are counted from its first.
    pub fn of_part(&self, line: usize, part: &Range<usize>) -> Vec<Range<usize>> {
        self.0[line].of_part(part)
    }

    /// The line that an octet of the file stands on, and which octet of that line it is.
    pub fn line_at(&self, octet: usize) -> Option<(usize, usize)> {
        self.0.iter().enumerate().find_map(|(line, Pieces { places, begins, .. })| {
            let piece = places.iter().position(|place| place.contains(&octet))?;
            Some((line, begins[piece] + octet - places[piece].start))
        })
    }

    /// All places, line by line.
    pub fn all(&self) -> impl Iterator<Item = &Range<usize>> {
        self.0.iter().flat_map(|pieces| &pieces.places)
    }
}

impl Place {
    pub fn of(range: &Range<usize>) -> Place {
        Place { first: range.start, past: range.end }
    }
}

/// Places for people, as `38..39,41..42`.
pub fn shown(places: &[Range<usize>]) -> String {
    places.iter().map(|place| format!("{}..{}", place.start, place.end)).collect::<Vec<_>>().join(",")
}

#[cfg(test)]
mod tests {
    use super::*;

    fn sources() -> Sources {
        let mut of_lines = vec![Pieces::default(); 3];
        for (line, place) in [(0, 10..13), (0, 20..24), (2, 30..31)] {
            of_lines[line].add(place);
        }
        Sources(of_lines)
    }

    #[test]
    fn parts_lie_in_pieces() {
        let sources = sources();
        assert_eq!(sources.of_part(0, &(0..7)), [10..13, 20..24]);
        assert_eq!(sources.of_part(0, &(2..4)), [12..13, 20..21]);
        assert_eq!(shown(&sources.of_part(0, &(3..7))), "20..24", "an empty part has no place");
        assert_eq!(shown(&sources.of_part(0, &(0..3))), "10..13");
        assert_eq!(shown(&sources.of_part(0, &(1..2))), "11..12");
        assert!(sources.of_part(1, &(0..0)).is_empty() && sources.of_part(0, &(3..3)).is_empty());
        assert_eq!(shown(&sources.of_part(0, &(2..4))), "12..13,20..21");
    }

    #[test]
    fn an_octet_is_on_a_line_or_on_none() {
        let sources = sources();
        let found = [9, 10, 12, 13, 20, 23, 24, 30].map(|octet| sources.line_at(octet));
        let wanted = [None, Some((0, 0)), Some((0, 2)), None, Some((0, 3)), Some((0, 6)), None, Some((2, 0))];
        assert_eq!(found, wanted);
        assert_eq!(sources.all().count(), 3);
    }
}
