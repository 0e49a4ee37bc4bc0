//! The whole reading of a side: what the library and the reader answer, with the same memory lent, exact, one short and
//! longer; and what it has to do with the list, the contents and the crate's own text.

use odif::raw::LINE_WIDTH;
use odif::{Edition, MOST_ELEMENTS, ROW_WIDTH, raw};
use reader::Side;

use crate::lent::{self, Lent};
use crate::one::One;
use crate::rng::Rng;
use crate::tally::{Question, hex};

/// Puts the question for both sides to the library and to the reader.
pub(crate) fn hold(one: &mut One<'_>, rng: &mut Rng) {
    let reading = one.reading;
    for side in [Side::Layout, Side::Logical] {
        let mut side = OneSide { side, one };
        let (lines, text) = reading.whole_text(side.side);
        for lengths in lengths(reading.element_count() * ROW_WIDTH, lines.len() * LINE_WIDTH, text.len(), rng) {
            side.ask(lengths);
        }
        if reading.refusal().is_none() {
            side.against_the_list(rng);
            side.against_the_crate();
        }
    }
}

/// How many numbers and octets to lend.
#[derive(Clone, Copy, Debug)]
struct Lengths {
    table: usize,
    lines: usize,
    out: usize,
}

/// All exact; one number or octet short; a whole line short; and each of them longer, or anything up to that.
fn lengths(table: usize, lines: usize, out: usize, rng: &mut Rng) -> Vec<Lengths> {
    let exact = Lengths { table, lines, out };
    let longer = Lengths {
        table: table + rng.between(1, 2 * ROW_WIDTH),
        lines: lines + rng.between(1, 3 * LINE_WIDTH),
        out: out + rng.between(1, 9),
    };
    let mut all = vec![exact, longer];
    if table > 0 {
        all.push(Lengths { table: table - 1, ..longer });
        all.push(Lengths { table: rng.below(table), lines: rng.below(lines + 1), out: rng.below(out + 1) });
    }
    if lines > 0 {
        all.push(Lengths { lines: lines - 1, ..longer });
        all.push(Lengths { lines: lines - LINE_WIDTH, out: out.saturating_sub(1), ..exact });
    }
    if out > 0 {
        all.push(Lengths { out: out - 1, ..exact });
        all.push(Lengths { out: rng.below(out), ..longer });
    }
    all
}

/// The comparisons on one side.
struct OneSide<'o, 'a> {
    side: Side,
    one: &'o mut One<'a>,
}

impl OneSide<'_, '_> {
    fn expect(&mut self, holds: bool, what: &str, tell: impl FnOnce() -> String) {
        let side = self.side;
        self.one.expect(holds, &format!("{side:?} text: {what}"), tell);
    }

    fn ask(&mut self, lengths: Lengths) {
        let table_before = Lent::new(lengths.table, lent::numbers);
        let lines_before = Lent::new(lengths.lines, lent::numbers);
        let out_before = Lent::new(lengths.out, lent::octets);
        let (mut our_table, mut their_table) = (table_before.clone(), table_before.clone());
        let (mut our_lines, mut their_lines) = (lines_before.clone(), lines_of_numbers(lines_before.cells()));
        let (mut our_out, mut their_out) = (out_before.clone(), out_before.clone());
        let (table, lines, out) = (our_table.lend(), our_lines.lend(), our_out.lend());
        let answer = match self.side {
            Side::Layout => raw::layout_text_numbers_in(self.one.edition, self.one.stream, table, lines, out),
            Side::Logical => raw::logical_text_numbers_in(self.one.edition, self.one.stream, table, lines, out),
        };
        let wanted = self.one.reading.text(self.side, their_table.lend(), &mut their_lines, their_out.lend());
        self.meet(answer.number);
        let question = format!("with {lengths:?}");
        let same = [answer.number, answer.place, answer.elements, answer.lines, answer.length]
            == [wanted.number, wanted.place, wanted.elements, wanted.lines, wanted.length];
        self.expect(same, &question, || format!("{answer:?}, not {wanted:?}"));
        self.expect(our_table == their_table, &question, || "the tables differ".into());
        let lines = lines_of_numbers(our_lines.cells());
        self.expect(lines == their_lines, &question, || format!("{lines:?}, not {their_lines:?}"));
        self.expect(our_out == their_out, &question, || {
            format!("{}, not {}", hex(our_out.cells()), hex(their_out.cells()))
        });
        let used = answer.elements as usize * ROW_WIDTH;
        self.expect(our_table.is_untouched_past(used, &table_before), &question, || "written past the rows".into());
        let used = answer.lines as usize * LINE_WIDTH;
        self.expect(our_lines.is_untouched_past(used, &lines_before), &question, || "written past the lines".into());
        let used = answer.length as usize;
        self.expect(our_out.is_untouched_past(used, &out_before), &question, || "written past the text".into());
        self.expect(used <= self.one.stream.len(), &question, || "the text is longer than the stream".into());
    }

    /// Counts what the library gave.
    fn meet(&mut self, number: u32) {
        let question = match self.side {
            Side::Layout => Question::LayoutText,
            Side::Logical => Question::LogicalText,
        };
        self.one.meet(question, number);
    }

    /// The lines are the matches of the list in its order, they meet end to end, each has the joined content of its unit,
    /// whatever stood in the output before, and the table is the check's.
    fn against_the_list(&mut self, rng: &mut Rng) {
        let numbers = self.one.reading.element_count() * ROW_WIDTH;
        let (mut table, mut other_table) = (vec![0; numbers], vec![1; numbers]);
        let mut list = vec![raw::Match::default(); MOST_ELEMENTS];
        let listed = match self.side {
            Side::Layout => raw::layout_in(self.one.edition, self.one.stream, &mut table, &mut list),
            Side::Logical => raw::logical_in(self.one.edition, self.one.stream, &mut table, &mut list),
        };
        list.truncate(listed.matches as usize);
        let filled = !lent::octets(rng.below(256)) ^ rng.number() as u8;
        let (mut lines, mut out) = (vec![raw::Line::default(); list.len()], vec![filled; self.one.stream.len()]);
        let shown = ask(self.one.edition, self.side, self.one.stream, &mut other_table, &mut lines, &mut out);
        let counts = [shown.number, shown.place, shown.elements, shown.lines];
        let wanted = [0, 0, listed.elements, listed.matches];
        self.expect(counts == wanted, "beside the list", || format!("{shown:?}, not {listed:?}"));
        self.expect(table == other_table, "beside the list", || "the tables differ".into());
        let matches: Vec<_> = lines.iter().map(match_of).collect();
        self.expect(matches == list, "beside the list", || format!("{matches:?}, not {list:?}"));
        let past = lines.iter().try_fold(0, |at, line| (line.first == at && line.past >= at).then_some(line.past));
        self.expect(past == Some(shown.length), "the lines meet end to end", || format!("{lines:?}, {shown:?}"));
        let some: Vec<raw::Line> = (0..lines.len().min(4)).map(|_| *rng.pick(&lines)).collect();
        for line in some {
            let mut joined = vec![0; self.one.stream.len()];
            let copied = raw::joined_in(self.one.edition, self.one.stream, line.unit, &mut joined);
            let same = copied.number == 0
                && out.get(line.first as usize..line.past as usize) == Some(&joined[..copied.length as usize]);
            self.expect(same, "the content of a line's unit", || format!("{line:?}, {copied:?}"));
        }
    }

    /// The crate's text, of its letter and of the stream, is the reader's.
    fn against_the_crate(&mut self) {
        let (wanted, octets) = self.one.reading.whole_text(self.side);
        let letter =
            odif::Letter::read_in(self.one.edition, self.one.stream).and_then(|letter| letter.text(self.to_crate()));
        let at_once = odif::text_in(self.one.edition, self.one.stream, self.to_crate());
        self.expect(letter == at_once, "the crate's two texts", || format!("{letter:?} and {at_once:?}"));
        let Ok(text) = at_once else {
            return self.expect(false, "the crate's text", || format!("{at_once:?}"));
        };
        let lines: Vec<_> = text.lines().iter().map(line_of_crate).collect();
        let same = lines == wanted && text.octets() == octets;
        self.expect(same, "the crate's text", || format!("{text:?}, not {wanted:?} and {}", hex(&octets)));
        let units = text.units().collect::<Vec<_>>().concat();
        self.expect(units == octets, "the crate's text by units", || hex(&units));
    }

    fn to_crate(&self) -> odif::Side {
        match self.side {
            Side::Layout => odif::Side::Layout,
            Side::Logical => odif::Side::Logical,
        }
    }
}

fn ask(
    edition: Edition,
    side: Side,
    stream: &[u8],
    table: &mut [u32],
    lines: &mut [raw::Line],
    out: &mut [u8],
) -> raw::TextRead {
    match side {
        Side::Layout => raw::layout_text_in(edition, stream, table, lines, out),
        Side::Logical => raw::logical_text_in(edition, stream, table, lines, out),
    }
}

/// What the library says of the text of both sides: the answer, the lines and the octets.
pub fn told(edition: Edition, stream: &[u8]) -> [(raw::TextRead, Vec<raw::Line>, Vec<u8>); 2] {
    [Side::Layout, Side::Logical].map(|side| told_of(edition, side, stream))
}

/// What it says of one.
pub(crate) fn told_of(edition: Edition, side: Side, stream: &[u8]) -> (raw::TextRead, Vec<raw::Line>, Vec<u8>) {
    let most = (stream.len() / 2).min(MOST_ELEMENTS);
    let (mut lines, mut out) = (vec![raw::Line::default(); most], vec![0; stream.len()]);
    let shown = ask(edition, side, stream, &mut vec![0; most * ROW_WIDTH], &mut lines, &mut out);
    lines.truncate(shown.lines as usize);
    out.truncate(shown.length as usize);
    (shown, lines, out)
}

/// The whole lines that some numbers are.
fn lines_of_numbers(numbers: &[u32]) -> Vec<reader::Line> {
    let line = |line: &[u32]| reader::Line {
        element: line[0],
        portion: line[1],
        unit: line[2],
        first: line[3],
        past: line[4],
    };
    numbers.chunks_exact(LINE_WIDTH).map(line).collect()
}

fn line_of_crate(line: &odif::Line) -> reader::Line {
    reader::Line {
        element: line.element as u32,
        portion: line.portion as u32,
        unit: line.unit as u32,
        first: line.place.start as u32,
        past: line.place.end as u32,
    }
}

fn match_of(line: &raw::Line) -> raw::Match {
    raw::Match { element: line.element, portion: line.portion, unit: line.unit }
}
