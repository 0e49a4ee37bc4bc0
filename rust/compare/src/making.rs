//! Making letters: the library and the reader are given the same entries and outputs, and what is made is read again.

use odif::{MOST_ENTRIES, ROW_WIDTH, STREAM_LIMIT, raw};
use reader::{ENTRY_WIDTH, Reading};

use crate::lent::{self, Lent};
use crate::rng::Rng;
use crate::tally::{Tally, hex};

/// The numbers that making a letter can give.
pub const NUMBERS: [u32; 7] = [0, 9, 14, 15, 17, 18, 27];
/// The numbers of the octets besides its text in a letter of one entry with the identifier and the portion `0`, where the
/// text has 65,536 octets or more.
const FRAME: usize = 2 + 15 + 5 + 7 + 5;

/// Entries with the buffer they stand in.
struct Case {
    name: String,
    buffer: Vec<u8>,
    entries: Vec<u32>,
}

impl Case {
    fn new(name: impl Into<String>) -> Case {
        Case { name: name.into(), buffer: Vec::new(), entries: Vec::new() }
    }

    /// Puts octets at the end of the buffer.
    fn put(&mut self, octets: &[u8]) -> [u32; 2] {
        let first = self.buffer.len();
        self.buffer.extend_from_slice(octets);
        [first as u32, self.buffer.len() as u32]
    }

    /// Adds an entry with parts of its own.
    fn entry(mut self, identifier: &str, portion: &str, text: &[u8]) -> Case {
        let parts = [self.put(identifier.as_bytes()), self.put(portion.as_bytes()), self.put(text)];
        self.entries.extend(parts.concat());
        self
    }

    /// Adds numbers, whatever they bound.
    fn numbers(mut self, numbers: &[u32]) -> Case {
        self.entries.extend_from_slice(numbers);
        self
    }

    /// Adds so many entries with an identifier each and the same text.
    fn many(mut self, count: usize) -> Case {
        let (portion, text) = (self.put(b"0"), self.put(b"Hi"));
        for number in 0..count {
            let identifier = self.put(format!("1 {number}").as_bytes());
            self.entries.extend([identifier, portion, text].concat());
        }
        self
    }

    /// Holds the two against each other, with outputs that are long enough, exact and one short.
    fn hold(&self, rng: &mut Rng, met: &mut [u64; 7], tally: &mut Tally) {
        tally.streams += 1;
        let mut whole = vec![0; self.room()];
        let size = reader::make(&self.buffer, &self.entries, &mut whole).length as usize;
        let outputs = match size {
            0 => vec![0, rng.below(40), self.room()],
            _ => vec![size, size - 1, size + rng.between(1, 9), rng.below(size)],
        };
        let (buffer, entries) = (self.buffer.clone(), self.entries.clone());
        for length in outputs {
            self.ask(length, met, tally);
        }
        let same = buffer == self.buffer && entries == self.entries;
        self.expect(same, tally, || "the buffer or the entries were written to".into());
        if size > 0 {
            self.read(&whole[..size], tally);
        }
    }

    /// An output that is long enough, if one can be: an entry has less than 200 octets besides its text.
    fn room(&self) -> usize {
        (200 + self.entries.len() / ENTRY_WIDTH * (200 + self.buffer.len())).min(STREAM_LIMIT)
    }

    fn expect(&self, holds: bool, tally: &mut Tally, tell: impl FnOnce() -> String) {
        tally.expect(holds, || {
            let entries = &self.entries[..self.entries.len().min(60)];
            format!("making {}: {}\n  {} {entries:?}", self.name, tell(), hex(&self.buffer))
        });
    }

    fn ask(&self, length: usize, met: &mut [u64; 7], tally: &mut Tally) {
        let before = Lent::new(length, lent::octets);
        let (mut ours, mut theirs) = (before.clone(), before.clone());
        let answer = raw::make(&self.buffer, &self.entries, ours.lend());
        let wanted = reader::make(&self.buffer, &self.entries, theirs.lend());
        for (count, _) in met.iter_mut().zip(NUMBERS).filter(|&(_, number)| number == answer.number) {
            *count += 1;
        }
        let same = [answer.number, answer.place, answer.length] == [wanted.number, wanted.place, wanted.length];
        self.expect(same, tally, || format!("with an output of {length} octets {answer:?}, not {wanted:?}"));
        self.expect(ours == theirs, tally, || format!("{}, not {}", hex(ours.cells()), hex(theirs.cells())));
        let used = answer.length as usize;
        self.expect(ours.is_untouched_past(used, &before), tally, || "written past its end".into());
    }

    /// What was made is accepted, is its own normal form, lists the entries in their order on one side and nothing on the
    /// other, and its contents are the texts: by the library, and that it is accepted by the reader too.
    fn read(&self, stream: &[u8], tally: &mut Tally) {
        let count = self.entries.len() / ENTRY_WIDTH;
        let mut table = vec![0; (1 + 2 * count) * ROW_WIDTH];
        let mut list = vec![raw::Match::default(); count + 1];
        let layout = raw::layout(stream, &mut table, &mut list);
        let wanted = (0..count as u32).map(|k| raw::Match { element: 1 + 2 * k, portion: 0, unit: 2 + 2 * k });
        let same =
            (layout.number, layout.matches as usize) == (0, count) && list.iter().copied().take(count).eq(wanted);
        self.expect(same, tally, || format!("its layout list is {layout:?}"));
        let checked = raw::check(stream, &mut table);
        let counts = [checked.number, checked.headers, checked.elements];
        let same = counts == [0, 1 + 10 * count as u32, 1 + 2 * count as u32];
        self.expect(same, tally, || format!("it is checked as {checked:?}"));
        let logical = raw::logical(stream, &mut table, &mut []);
        self.expect((logical.number, logical.matches) == (0, 0), tally, || format!("its logical list is {logical:?}"));
        self.expect(Reading::of(stream).refusal().is_none(), tally, || "the reader refuses it".into());
        let mut normal = vec![0; stream.len()];
        let written = raw::normal(stream, &mut normal);
        self.expect(written.number == 0 && normal == stream, tally, || "it is not its own normal form".into());
        let texts =
            self.entries.chunks_exact(ENTRY_WIDTH).map(|entry| &self.buffer[entry[4] as usize..entry[5] as usize]);
        let rows = table.chunks_exact(ROW_WIDTH).skip(2).step_by(2);
        let same = rows.map(|row| &stream[row[10] as usize..row[11] as usize]).eq(texts);
        self.expect(same, tally, || "its contents are not the texts".into());
    }
}

/// The cases that are always there: every limit from both sides. Gives back how often each of [`NUMBERS`] was given.
pub fn hold_fixed(tally: &mut Tally) -> [u64; 7] {
    let mut met = [0; 7];
    for (number, case) in fixed().into_iter().enumerate() {
        case.hold(&mut Rng::new(number as u64), &mut met, tally);
    }
    for (count, number) in met.iter().zip(NUMBERS) {
        tally.expect(*count > 0, || format!("making a letter never gave {number}"));
    }
    met
}

fn fixed() -> Vec<Case> {
    let good = || Case::new("a good entry and").entry("1 0 2", "0", b"Hi");
    let mut cases = vec![
        Case::new("no entries"),
        Case::new("the letter of document 01").entry("1 0 2", "0", b"Hi"),
        Case::new("overlapping parts").numbers(&[0, 5, 4, 5, 0, 8, 2, 3, 0, 1, 3, 3]).entry("7", "0", b"1 0 20Hi"),
        good().entry("1 0 2", "1", b"again"),
        good().entry("1 0 02", "0", b"not the same"),
        good().entry("1 0 2 ", "0", b""),
        good().entry("1 0 2", "", b"14 goes before 15"),
        good().entry("", "0", b""),
        good().entry("1", "12345678901234567", b""),
        good().entry("1", "1234567890123456", b""),
        good().entry("1", "0 1", b""),
        good().numbers(&[0, 5, 5, 6, 6, 9]),
        good().numbers(&[0, 5, 5, 6, 8, 7]),
        good().numbers(&[0, 9, 9, 6, 6, 8]),
        good().numbers(&[0, u32::MAX, 5, 6, 6, 8]),
        good().numbers(&[u32::MAX, u32::MAX, 5, 6, 6, 8]),
        good().numbers(&[0, 5, 5, 6, 8, 8]),
        good().numbers(&[0, 3, 5, 6, 8, 8]),
        good().numbers(&[1, 2, 3]),
        good().numbers(&[1, 2, 3, 4, 5]),
    ];
    for (identifier, portion) in [(61, 2), (62, 1), (62, 2), (63, 1), (64, 1), (48, 15), (48, 16), (47, 16)] {
        let (identifier, portion) = ("9".repeat(identifier), "8".repeat(portion));
        cases.push(Case::new("a long unit identifier").entry(&identifier, &portion, b"Hi"));
    }
    for text in [0, 1, 91, 92, 93, 94, 113, 114, 115, 116, 127, 128, 129, 255, 256, 65_520, 65_535, 65_536] {
        cases.push(Case::new(format!("a text of {text} octets")).entry("1 0", "0", &vec![0x55; text]));
    }
    for count in [127, 128, 129, MOST_ENTRIES - 1, MOST_ENTRIES, MOST_ENTRIES + 1, MOST_ENTRIES + 2] {
        cases.push(Case::new(format!("{count} entries")).many(count));
    }
    let full = || Case::new("2,047 entries and").many(MOST_ENTRIES);
    cases.push(full().numbers(&[2, 1, 0, 1, 1, 1]));
    cases.push(full().entry("1 ", "0", b""));
    cases.push(full().entry("1 7", "0", b""));
    let most = STREAM_LIMIT - FRAME;
    for text in [most - 1, most, most + 1, STREAM_LIMIT, 2 * STREAM_LIMIT] {
        let case = || Case::new(format!("a text of {text} octets")).entry("0", "0", &vec![0x55; text]);
        cases.push(case());
        cases.push(case().entry("1", "", b"14 goes before 17"));
        cases.push(case().entry("0", "0", b"15 goes before 17"));
    }
    // Overlapping texts, whose sum alone is over the limit, and over 2^32.
    for count in [2, 1_500] {
        let mut case = Case::new(format!("{count} times the same text")).entry("1", "0", &vec![0x55; 3 << 20]);
        let text = [case.entries[4], case.entries[5]];
        for number in 2..count + 2 {
            let (identifier, portion) = (case.put(number.to_string().as_bytes()), case.put(b"0"));
            case.entries.extend([identifier, portion, text].concat());
        }
        cases.push(case);
    }
    cases
}

/// Random entries: mostly good ones, in a buffer where parts overlap, with some that are not.
pub fn hold_seeded(seed: u64, number: u64, met: &mut [u64; 7], tally: &mut Tally) {
    let mut rng = Rng::of_stream(seed ^ 0x6D61_6B65, number);
    let mut case = Case::new(format!("of seed {seed}, number {number}"));
    let length = rng.between(1, 400);
    let digits = rng.between(2, 30);
    case.buffer = (0..length).map(|_| if rng.one_in(digits) { b' ' } else { b'0' + rng.below(10) as u8 }).collect();
    if rng.one_in(3) {
        let place = rng.below(length);
        case.buffer[place] = rng.octet();
    }
    let count = if rng.one_in(20) { rng.below(300) } else { rng.below(8) };
    let bad = rng.between(2, 200);
    for _ in 0..count {
        let identifier = if rng.one_in(10) { rng.below(70) } else { rng.between(1, 9) };
        let portion = if rng.one_in(10) { rng.below(19) } else { 1 };
        let sizes = [identifier, portion, rng.below(length + 1)];
        let mut parts = sizes.map(|size| part(&mut rng, length, size));
        if rng.one_in(bad) {
            let which = rng.below(3);
            parts[which] = match rng.below(3) {
                0 => [parts[which][1].max(1), parts[which][1].max(1) - 1],
                1 => [parts[which][0], length as u32 + rng.between(1, 3) as u32],
                _ => [rng.number() as u32, rng.number() as u32],
            };
        }
        case.entries.extend(parts.concat());
    }
    let cut = if rng.one_in(8) { rng.below(ENTRY_WIDTH) } else { 0 };
    case.entries.truncate(case.entries.len().saturating_sub(cut));
    case.hold(&mut rng, met, tally);
}

/// A part of the buffer of so many octets, if it has as many.
fn part(rng: &mut Rng, length: usize, size: usize) -> [u32; 2] {
    let first = rng.below(length + 1 - size.min(length));
    [first as u32, (first + size).min(length) as u32]
}

#[cfg(test)]
mod tests {
    use super::*;

    #[test]
    fn the_library_and_the_reader_make_the_same() {
        let mut tally = Tally::default();
        let mut met = hold_fixed(&mut tally);
        for number in 0..500 {
            hold_seeded(1, number, &mut met, &mut tally);
        }
        assert_eq!(tally.failed, 0);
        assert!(tally.passed > 5_000, "{}", tally.passed);
    }
}
