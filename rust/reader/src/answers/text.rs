//! The whole reading of a side: the joined contents of its matches, one after another, and where each stands.

use super::{Reading, Side, fill};

/// One line of a text: a match, and where its unit's content stands in the output.
#[derive(Clone, Copy, Debug, Default, PartialEq, Eq)]
pub struct Line {
    /// The element that lists the portion.
    pub element: u32,
    /// The portion's place in it.
    pub portion: u32,
    /// The text unit.
    pub unit: u32,
    /// Where the unit's content begins in the output.
    pub first: u32,
    /// Past it.
    pub past: u32,
}

/// The answer of the question for the text.
#[derive(Clone, Copy, Debug, Default, PartialEq, Eq)]
pub struct Shown {
    /// 0, or the number of the refusal.
    pub number: u32,
    /// The place of the refusal.
    pub place: u32,
    /// The element count.
    pub elements: u32,
    /// The line count.
    pub lines: u32,
    /// The octets written.
    pub length: u32,
}

impl Reading<'_> {
    /// Fills the table, and puts the text of a side into the lines and the output. Lines too few leave the filled table,
    /// as a list too short does; an output too short leaves everything as it was.
    pub fn text(&self, side: Side, table: &mut [u32], lines: &mut [Line], out: &mut [u8]) -> Shown {
        let letter = match self.rows_for(table.len()) {
            Ok(letter) => letter,
            Err((number, place)) => return Shown { number, place, ..Shown::default() },
        };
        let elements = letter.rows.len() as u32;
        let (all, text) = self.whole_text(side);
        let Some(lines) = lines.get_mut(..all.len()) else {
            fill(table, self.stream, letter);
            return Shown { number: 19, elements, ..Shown::default() };
        };
        let Some(out) = out.get_mut(..text.len()) else {
            return Shown { number: 22, ..Shown::default() };
        };
        fill(table, self.stream, letter);
        lines.copy_from_slice(&all);
        out.copy_from_slice(&text);
        Shown { elements, lines: all.len() as u32, length: text.len() as u32, ..Shown::default() }
    }

    /// The lines of a side, and the whole text; none where the stream is refused.
    pub fn whole_text(&self, side: Side) -> (Vec<Line>, Vec<u8>) {
        let mut text = Vec::new();
        let mut lines = Vec::new();
        for found in self.matches(side) {
            let first = text.len() as u32;
            if let Ok(row) = self.unit(found.unit) {
                self.pieces(row).for_each(|piece| text.extend_from_slice(piece));
            }
            let past = text.len() as u32;
            lines.push(Line { element: found.element, portion: found.portion, unit: found.unit, first, past });
        }
        (lines, text)
    }
}

#[cfg(test)]
mod tests {
    use super::*;
    use crate::{Edition, ROW_WIDTH};

    /// Two blocks; the second one's unit stands first, is in pieces and has text; the first one's two units follow, of
    /// which one is empty; and a unit that belongs to no block.
    const LETTER: &[u8] = b"\xA0\x00\
        \xA3\x11\x31\x05\x40\x032 0\x24\x08\x04\x02wo\x04\x02rl\
        \xA3\x0B\x31\x05\x40\x031 1\x04\x02Hi\
        \xA3\x09\x31\x05\x40\x031 0\x04\x00\
        \xA3\x0A\x31\x05\x40\x033 0\x04\x01!\
        \xA2\x0D\x31\x0B\x41\x011\xA1\x06\x12\x010\x12\x011\
        \xA2\x0A\x31\x08\x41\x012\xA1\x03\x12\x010";

    const LINES: [Line; 3] = [
        Line { element: 5, portion: 0, unit: 3, first: 0, past: 0 },
        Line { element: 5, portion: 1, unit: 2, first: 0, past: 2 },
        Line { element: 6, portion: 0, unit: 1, first: 2, past: 6 },
    ];

    #[test]
    fn the_text_in_reading_order() {
        let reading = Reading::of(LETTER);
        let (mut table, mut checked) = ([9; 7 * ROW_WIDTH + 1], [9; 7 * ROW_WIDTH + 1]);
        let (mut lines, mut out) = ([Line { first: 7, ..Line::default() }; 4], *b"........");
        let shown = reading.text(Side::Layout, &mut table, &mut lines, &mut out);
        assert_eq!(shown, Shown { number: 0, place: 0, elements: 7, lines: 3, length: 6 });
        assert_eq!((&lines[..3], lines[3].first), (&LINES[..], 7));
        assert_eq!(&out, b"Hiworl..");
        reading.check(&mut checked);
        assert_eq!(table, checked);
        assert_eq!(reading.text(Side::Layout, &mut table, &mut lines[..3], &mut out[..6]), shown);
        let none = Shown { elements: 7, ..Shown::default() };
        assert_eq!(reading.text(Side::Logical, &mut table, &mut [], &mut []), none);
    }

    #[test]
    fn what_is_too_short() {
        let reading = Reading::by(Edition::Of1993, LETTER);
        for (rows, records, octets, number, elements) in [(6, 3, 6, 16, 0), (7, 2, 0, 19, 7), (7, 3, 5, 22, 0)] {
            let (mut table, mut lines, mut out) = ([9; 7 * ROW_WIDTH], [Line::default(); 3], [b'.'; 6]);
            let table = &mut table[..rows * ROW_WIDTH];
            let shown = reading.text(Side::Layout, table, &mut lines[..records], &mut out[..octets]);
            assert_eq!(shown, Shown { number, elements, ..Shown::default() });
            assert_eq!((table[0] == 0, lines, out), (number == 19, [Line::default(); 3], [b'.'; 6]));
        }
        let refused = Reading::of(&LETTER[..LETTER.len() - 1]).text(Side::Layout, &mut [], &mut [], &mut []);
        assert_eq!((refused.number, refused.place), (7, LETTER.len() as u32 - 12));
    }
}
