//! Where the text of a side stands: what the library and the reader answer, with the same list lent, exact, one short and
//! longer; and what it has to do with the text, the table and the crate's own sources. The reader takes its places from its
//! tree of items.

use odif::raw::{self, SOURCE_WIDTH};
use odif::{Edition, ROW_WIDTH};
use reader::Side;

use crate::lent::{self, Lent};
use crate::one::One;
use crate::rng::Rng;
use crate::tally::{Question, hex};
use crate::text;

/// Puts the question for both sides to the library and to the reader.
pub(crate) fn hold(one: &mut One<'_>, rng: &mut Rng) {
    for side in [Side::Layout, Side::Logical] {
        let mut side = OneSide { side, one };
        let exact = side.one.reading.whole_sources(side.side).len() * SOURCE_WIDTH;
        for length in lengths(exact, rng) {
            side.ask(length);
        }
        if side.one.reading.refusal().is_none() {
            side.against_the_text();
            side.against_the_table();
            side.against_the_crate();
        }
    }
}

/// Exact; longer; one number short, a record short, and anything below that.
fn lengths(exact: usize, rng: &mut Rng) -> Vec<usize> {
    let mut all = vec![exact, exact + rng.between(1, 3 * SOURCE_WIDTH)];
    if exact > 0 {
        all.extend([exact - 1, exact - SOURCE_WIDTH, rng.below(exact)]);
    }
    all
}

/// The comparisons on one side.
struct OneSide<'o, 'a> {
    side: Side,
    one: &'o mut One<'a>,
}

impl OneSide<'_, '_> {
    fn expect(&mut self, holds: bool, what: &str, tell: impl FnOnce() -> String) {
        let side = self.side;
        self.one.expect(holds, &format!("{side:?} sources: {what}"), tell);
    }

    fn ask(&mut self, length: usize) {
        let before = Lent::new(length, lent::numbers);
        let (mut ours, mut theirs) = (before.clone(), sources_of_numbers(before.cells()));
        let answer = match self.side {
            Side::Layout => raw::layout_sources_numbers_in(self.one.edition, self.one.stream, ours.lend()),
            Side::Logical => raw::logical_sources_numbers_in(self.one.edition, self.one.stream, ours.lend()),
        };
        let wanted = self.one.reading.sources(self.side, &mut theirs);
        let question = match self.side {
            Side::Layout => Question::LayoutSources,
            Side::Logical => Question::LogicalSources,
        };
        self.one.meet(question, answer.number);
        let question = format!("with {length} numbers");
        let same = [answer.number, answer.place, answer.lines, answer.sources]
            == [wanted.number, wanted.place, wanted.lines, wanted.sources];
        self.expect(same, &question, || format!("{answer:?}, not {wanted:?}"));
        let sources = sources_of_numbers(ours.cells());
        self.expect(sources == theirs, &question, || format!("{sources:?}, not {theirs:?}"));
        let used = answer.sources as usize * SOURCE_WIDTH;
        self.expect(ours.is_untouched_past(used, &before), &question, || "written past the records".into());
    }

    /// What stands at the places of each line, one after another, is the line's text; at all places, the text.
    fn against_the_text(&mut self) {
        let (edition, stream) = (self.one.edition, self.one.stream);
        let (told, sources) = told_of(edition, self.side, stream);
        let (shown, lines, out) = text::told_of(edition, self.side, stream);
        self.expect(told.lines == shown.lines, "the lines of the text", || format!("{told:?}, {shown:?}"));
        let all: Vec<u8> = sources.iter().flat_map(|source| &stream[range(source)]).copied().collect();
        self.expect(all == out, "the whole text", || format!("{}, not {}", hex(&all), hex(&out)));
        let mut pieces = vec![Vec::new(); lines.len()];
        for source in &sources {
            if let Some(piece) = pieces.get_mut(source.line as usize) {
                piece.extend_from_slice(&stream[range(source)]);
            }
        }
        let wanted: Vec<_> = lines.iter().map(|line| out[line.first as usize..line.past as usize].to_vec()).collect();
        self.expect(pieces == wanted, "the text of each line", || format!("{sources:?}, {lines:?}"));
    }

    /// The lines ascend; in a line the places do, none empty, in the content fields of its unit's row; no octet of the stream is
    /// in two; and there are no more than the check counts headers.
    fn against_the_table(&mut self) {
        let (edition, stream) = (self.one.edition, self.one.stream);
        let mut table = vec![0; self.one.reading.element_count() * ROW_WIDTH];
        let checked = raw::check_in(edition, stream, &mut table);
        let (_, sources) = told_of(edition, self.side, stream);
        let (_, lines, _) = text::told_of(edition, self.side, stream);
        let few = sources.len() <= checked.headers as usize;
        self.expect(few, "no more than headers", || format!("{} of {checked:?}", sources.len()));
        let ascend = sources
            .windows(2)
            .all(|two| two[0].line < two[1].line || two[0].line == two[1].line && two[0].past <= two[1].first);
        self.expect(ascend, "ascending", || format!("{sources:?}"));
        let inside = sources.iter().all(|source| {
            lines.get(source.line as usize).is_some_and(|line| {
                let row = &table[line.unit as usize * ROW_WIDTH..];
                row[10] <= source.first && source.first < source.past && source.past <= row[11]
            })
        });
        self.expect(inside, "in the content fields of their units", || format!("{sources:?}, {lines:?}"));
        let mut places: Vec<_> = sources.iter().map(range).collect();
        places.sort_by_key(|place| place.start);
        let once = places.windows(2).all(|two| two[0].end <= two[1].start);
        self.expect(once, "no octet twice", || format!("{sources:?}"));
    }

    /// The crate's sources, of its letter and of the stream.
    fn against_the_crate(&mut self) {
        let (edition, stream) = (self.one.edition, self.one.stream);
        let side = match self.side {
            Side::Layout => odif::Side::Layout,
            Side::Logical => odif::Side::Logical,
        };
        let of_letter = odif::Letter::read_in(edition, stream).and_then(|letter| letter.sources(side));
        let at_once = odif::sources_in(edition, stream, side);
        self.expect(of_letter == at_once, "the crate's two", || format!("{of_letter:?} and {at_once:?}"));
        let wanted = self.one.reading.whole_sources(self.side);
        let same = at_once.as_ref().is_ok_and(|sources| {
            let numbers = sources.iter().map(|source| (source.line as u32, source.place.start, source.place.end));
            numbers.eq(wanted.iter().map(|source| (source.line, source.first as usize, source.past as usize)))
        });
        self.expect(same, "the crate's", || format!("{at_once:?}, not {wanted:?}"));
    }
}

fn range(source: &raw::Source) -> std::ops::Range<usize> {
    source.first as usize..source.past as usize
}

/// What the library says of the sources of a side: the answer and the records.
fn told_of(edition: Edition, side: Side, stream: &[u8]) -> (raw::Sourced, Vec<raw::Source>) {
    let mut list = vec![raw::Source::default(); stream.len() / 2];
    let told = match side {
        Side::Layout => raw::layout_sources_in(edition, stream, &mut list),
        Side::Logical => raw::logical_sources_in(edition, stream, &mut list),
    };
    list.truncate(told.sources as usize);
    (told, list)
}

/// What the library says of a side: the answer, and of each record its line and its octets.
pub type Told = (raw::Sourced, Vec<(u32, Vec<u8>)>);

/// What the library says of both sides.
pub fn told(edition: Edition, stream: &[u8]) -> [Told; 2] {
    [Side::Layout, Side::Logical].map(|side| {
        let (told, sources) = told_of(edition, side, stream);
        (told, sources.iter().map(|source| (source.line, stream[range(source)].to_vec())).collect())
    })
}

/// The whole records that some numbers are.
fn sources_of_numbers(numbers: &[u32]) -> Vec<reader::Source> {
    let source = |source: &[u32]| reader::Source { line: source[0], first: source[1], past: source[2] };
    numbers.chunks_exact(SOURCE_WIDTH).map(source).collect()
}
