//! Accepted streams against `openssl asn1parse`: offset, depth, header length and length of every item.

use std::io::Write;
use std::process::{Command, Stdio};

use odif::{Edition, MOST_ELEMENTS, ROW_WIDTH, raw};
use reader::{Item, Length, Reading};

use crate::tally::{Origin, Tally, hex};

/// How many octets are parsed in one run of openssl. Streams one after another are a stream of items too.
const BATCH: usize = 1 << 18;

/// One item as openssl prints it.
#[derive(Clone, Copy, Debug, PartialEq, Eq)]
struct Line {
    offset: usize,
    depth: usize,
    header: usize,
    /// `None` where it is indefinite.
    length: Option<usize>,
}

/// One stream of a batch: the elements that openssl is asked about, and what they are expected to look like.
struct Waiting {
    origin: Origin,
    elements: Vec<u8>,
    lines: Vec<Line>,
}

/// Streams that wait to be parsed together.
#[derive(Default)]
pub struct Batch {
    waiting: Vec<Waiting>,
    octets: usize,
}

/// Is there an openssl to ask?
pub fn version() -> Result<String, String> {
    let missing = |error| format!("openssl does not run ({error}); it is in the package `openssl`");
    let output = Command::new("openssl").arg("version").output().map_err(missing)?;
    Ok(String::from_utf8_lossy(&output.stdout).trim().into())
}

impl Batch {
    /// Adds a stream that the edition of 1993 accepts, and with it every one that that of 1988 does. The library's header count and elements must be those of the items that openssl will be
    /// asked about.
    pub fn add(&mut self, stream: &[u8], reading: &Reading<'_>, origin: Origin, tally: &mut Tally) {
        let items = reading.tree().items();
        let mut table = vec![0; (stream.len() / 2).min(MOST_ELEMENTS) * ROW_WIDTH];
        let checked = raw::check_in(Edition::Of1993, stream, &mut table);
        let tops = items.iter().filter(|item| item.level() == 1).map(|item| item.first());
        let rows = table.chunks_exact(ROW_WIDTH).take(checked.elements as usize);
        let same = checked.headers as usize == items.len() && rows.clone().map(|row| row[2] as usize).eq(tops);
        tally.expect(same, || format!("{origin}: the library counts other items\n  {}", hex(stream)));
        let mut one = Waiting { origin, elements: Vec::new(), lines: Vec::new() };
        let bounds = rows.map(|row| row[2] as usize..row[3] as usize);
        for (items, bounds) in items.chunk_by(|_, next| next.level() > 1).zip(bounds) {
            if openssl_stumbles(items) {
                tally.left_out += 1;
            } else {
                let moved = one.elements.len();
                one.lines.extend(items.iter().map(|item| expected(item, moved, bounds.start)));
                one.elements.extend_from_slice(&stream[bounds]);
            }
        }
        self.octets += one.elements.len();
        self.waiting.push(one);
        if self.octets >= BATCH {
            self.flush(tally);
        }
    }

    /// Parses what waits.
    pub fn flush(&mut self, tally: &mut Tally) {
        let waiting = std::mem::take(&mut self.waiting);
        self.octets = 0;
        tally.parsed += waiting.len() as u64;
        let (octets, lines) = joined(&waiting);
        if parse(&octets).is_ok_and(|found| found == lines) {
            tally.passed += waiting.len() as u64;
            return;
        }
        for one in waiting {
            let found = parse(&one.elements);
            let same = found.as_ref().is_ok_and(|lines| *lines == one.lines);
            tally.expect(same, || {
                let found = found.map(|lines| first_difference(&lines, &one.lines)).unwrap_or_else(|error| error);
                format!("{}: openssl asn1parse: {found}\n  {}", one.origin, hex(&one.elements))
            });
        }
    }
}

/// openssl refuses an empty value whose length has further octets, where the limit follows at once. X.209 doesn't, so
/// an element with such an item is left out.
fn openssl_stumbles(items: &[Item]) -> bool {
    let mut limits: Vec<Option<usize>> = Vec::new();
    items.iter().any(|item| {
        limits.truncate(usize::from(item.level()) - 1);
        let limit = limits.last().copied().flatten();
        let end = item.value().end;
        let definite = item.length() != Length::Indefinite;
        limits.push(if definite { Some(end) } else { limit });
        definite && item.value().is_empty() && item.header_length() > item.type_length() + 1 && limit == Some(end)
    })
}

/// What openssl should print of an item whose element has been moved.
fn expected(item: &Item, to: usize, from: usize) -> Line {
    let length = match item.length() {
        Length::Definite(length) => Some(length as usize),
        Length::Indefinite => None,
    };
    let offset = to + item.first() - from;
    Line { offset, depth: usize::from(item.level()) - 1, header: item.header_length(), length }
}

fn joined(waiting: &[Waiting]) -> (Vec<u8>, Vec<Line>) {
    let mut octets = Vec::new();
    let mut lines = Vec::new();
    for one in waiting {
        let start = octets.len();
        lines.extend(one.lines.iter().map(|line| Line { offset: start + line.offset, ..*line }));
        octets.extend_from_slice(&one.elements);
    }
    (octets, lines)
}

fn first_difference(found: &[Line], wanted: &[Line]) -> String {
    let place = found.iter().zip(wanted).position(|(one, other)| one != other).unwrap_or(found.len().min(wanted.len()));
    format!("item {place}: {:?}, not {:?}", found.get(place), wanted.get(place))
}

/// The items that openssl finds, without the closing marks.
fn parse(stream: &[u8]) -> Result<Vec<Line>, String> {
    if stream.is_empty() {
        return Ok(Vec::new());
    }
    let mut child = Command::new("openssl")
        .args(["asn1parse", "-inform", "DER"])
        .stdin(Stdio::piped())
        .stdout(Stdio::piped())
        .stderr(Stdio::piped())
        .spawn()
        .map_err(|error| format!("it does not run: {error}"))?;
    // It reads all before it writes anything, so this can't wait for itself. A null behind the stream keeps the
    // stream's end from being a limit.
    let mut stdin = child.stdin.take().ok_or("it has no input")?;
    stdin.write_all(&[stream, &[0x05, 0x00]].concat()).map_err(|error| format!("it does not read: {error}"))?;
    drop(stdin);
    let output = child.wait_with_output().map_err(|error| error.to_string())?;
    if !output.status.success() {
        return Err(String::from_utf8_lossy(&output.stderr).into_owned());
    }
    let mut lines: Vec<Line> = output.stdout.split(|&byte| byte == b'\n').filter_map(line).collect();
    lines.pop_if(|last| last.offset == stream.len());
    Ok(lines)
}

/// A line as `   20:d=2  hl=2 l=   1 prim: appl [ 1 ]`; `None` for closing marks and for the rest of a value that holds
/// line ends.
fn line(bytes: &[u8]) -> Option<Line> {
    let text = String::from_utf8_lossy(bytes);
    let (offset, rest) = text.split_once(":d=")?;
    let (depth, rest) = rest.split_once(" hl=")?;
    let (header, rest) = rest.split_once(" l=")?;
    let (length, rest) = rest.split_once(':')?;
    if rest.trim_start().starts_with("EOC") {
        return None;
    }
    let number = |digits: &str| digits.trim().parse().ok();
    let length = match length.split_whitespace().next()? {
        "inf" => None,
        digits => Some(number(digits)?),
    };
    Some(Line { offset: number(offset)?, depth: number(depth)?, header: number(header)?, length })
}

#[cfg(test)]
mod tests {
    use super::*;

    #[test]
    fn lines() {
        let definite = Line { offset: 20, depth: 2, header: 2, length: Some(1) };
        assert_eq!(line(b"   20:d=2  hl=2 l=   1 prim: appl [ 1 ]"), Some(definite));
        let indefinite = Line { offset: 0, depth: 0, header: 2, length: None };
        assert_eq!(line(b"    0:d=0  hl=2 l=inf  cons: cont [ 0 ]"), Some(indefinite));
        assert_eq!(line(b"    8:d=2  hl=2 l=   0 prim: EOC"), None);
        assert_eq!(line(b"Dear Sir"), None);
    }
}
