//! Where the text of a side stands in the stream: of each line the pieces of its unit that have octets.

use super::{Reading, Side};

/// Which octets of the stream are shown in which line.
#[derive(Clone, Copy, Debug, Default, PartialEq, Eq)]
pub struct Source {
    /// The line.
    pub line: u32,
    /// Where the octets begin in the stream.
    pub first: u32,
    /// Past them.
    pub past: u32,
}

/// The answer of the question for the sources.
#[derive(Clone, Copy, Debug, Default, PartialEq, Eq)]
pub struct Sourced {
    /// 0, or the number of the refusal.
    pub number: u32,
    /// The place of the refusal.
    pub place: u32,
    /// The line count.
    pub lines: u32,
    /// The records filled.
    pub sources: u32,
}

impl Reading<'_> {
    /// Puts the sources of a side to the list. One that is too short is left as it was.
    pub fn sources(&self, side: Side, list: &mut [Source]) -> Sourced {
        if let Err(refusal) = &self.letter {
            return Sourced { number: refusal.number(), place: refusal.place, ..Sourced::default() };
        }
        let all = self.whole_sources(side);
        let Some(list) = list.get_mut(..all.len()) else {
            return Sourced { number: 31, ..Sourced::default() };
        };
        list.copy_from_slice(&all);
        Sourced { lines: self.matches(side).len() as u32, sources: all.len() as u32, ..Sourced::default() }
    }

    /// The sources of a side; none where the stream is refused.
    pub fn whole_sources(&self, side: Side) -> Vec<Source> {
        let mut sources = Vec::new();
        for (line, found) in (0..).zip(self.matches(side)) {
            let places =
                self.unit(found.unit).into_iter().flat_map(|row| self.places(row)).filter(|place| !place.is_empty());
            sources.extend(places.map(|place| Source { line, first: place.start as u32, past: place.end as u32 }));
        }
        sources
    }
}

#[cfg(test)]
mod tests {
    use super::*;
    use crate::Edition;

    /// A page with two portions. The unit of the second stands first; that of the first has its content in an indefinite 24,
    /// with an empty piece in it and one that is deeper.
    const LETTER: &[u8] = b"\xA0\x00\
        \xA2\x10\x02\x01\x02\x31\x0B\x41\x011\xA1\x06\x12\x010\x12\x011\
        \xA3\x0A\x31\x05\x40\x031 1\x04\x01c\
        \xA3\x15\x31\x05\x40\x031 0\x24\x80\x04\x01a\x04\x00\x24\x03\x04\x01b\x00\x00";

    const SOURCES: [Source; 3] = [
        Source { line: 0, first: 45, past: 46 },
        Source { line: 0, first: 52, past: 53 },
        Source { line: 1, first: 31, past: 32 },
    ];

    #[test]
    fn the_places_in_reading_order() {
        let reading = Reading::of(LETTER);
        let mut list = [Source { line: 9, first: 9, past: 9 }; 4];
        let told = reading.sources(Side::Layout, &mut list);
        assert_eq!(told, Sourced { number: 0, place: 0, lines: 2, sources: 3 });
        assert_eq!((&list[..3], list[3].line), (&SOURCES[..], 9));
        assert_eq!(reading.sources(Side::Layout, &mut list[..3]), told);
        assert_eq!(reading.sources(Side::Logical, &mut []), Sourced::default());
    }

    #[test]
    fn what_is_refused() {
        let mut list = [Source::default(); 2];
        let reading = Reading::by(Edition::Of1993, LETTER);
        assert_eq!(reading.sources(Side::Layout, &mut list), Sourced { number: 31, ..Sourced::default() });
        assert_eq!(list, [Source::default(); 2]);
        let refused = Reading::of(&LETTER[..LETTER.len() - 1]).sources(Side::Layout, &mut list);
        assert_eq!((refused.number, refused.lines, refused.sources), (7, 0, 0));
    }
}
