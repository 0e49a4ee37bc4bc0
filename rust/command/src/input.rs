//! Reading a stream from a file or standard input, as octets or as hexadecimal digits.

use std::ffi::OsStr;
use std::fs::File;
use std::io::{self, BufRead, BufReader, BufWriter, Read, Write};
use std::path::Path;

use odif::{Edition, Letter, Refusal};
use serde::Serialize;

use crate::asked::{Asked, Files};
use crate::files::Entry;
use crate::names::Name;
use crate::status::{Failure, Outcome, Status, tell};
use crate::{explain, show};

/// A stream longer than this is refused whatever it holds, so no more than one octet past it is read.
const ENOUGH: usize = odif::STREAM_LIMIT + 1;

/// What was read of a file.
pub struct Stream {
    /// The octets; of a longer file, one more than a stream may have.
    pub octets: Vec<u8>,
    /// How many there are, also where they were not all read; not known of a pipe that is too long.
    pub size: Option<u64>,
}

/// A stream with its file's name.
pub struct Source<'a> {
    pub file: &'a OsStr,
    /// The name for people.
    pub shown: String,
    pub stream: Vec<u8>,
    pub size: Option<u64>,
    /// The edition by which it is read.
    pub edition: Edition,
    /// Is it one of several files?
    pub several: bool,
}

/// Reads the files one after another and hands on each. One that can't be read is told, as JSON on standard output if
/// the answers are that too, and the next one follows. The worst status counts.
pub fn each(files: &Files, json: bool, answer: impl FnMut(&Source<'_>) -> Outcome) -> Outcome {
    each_of(&files.list()?, files, json, answer)
}

/// Does so with files that are listed already.
pub fn each_of(
    entries: &[Entry],
    files: &Files,
    json: bool,
    mut answer: impl FnMut(&Source<'_>) -> Outcome,
) -> Outcome {
    each_front_of(entries, files, json, |_| Ok(None), &mut answer)
}

/// Asks of each file, where its front may be enough: `front` tells what it has read, if that is so.
pub fn each_front(
    files: &Files,
    json: bool,
    front: impl Fn(&OsStr) -> io::Result<Option<Vec<u8>>>,
    mut answer: impl FnMut(&Source<'_>) -> Outcome,
) -> Outcome {
    each_front_of(&files.list()?, files, json, front, &mut answer)
}

fn each_front_of(
    entries: &[Entry],
    files: &Files,
    json: bool,
    front: impl Fn(&OsStr) -> io::Result<Option<Vec<u8>>>,
    answer: &mut dyn FnMut(&Source<'_>) -> Outcome,
) -> Outcome {
    let (several, edition) = (entries.len() > 1, files.by.edition());
    let mut worst = Status::Accepted;
    for entry in entries {
        let file = entry.path.as_os_str();
        let shown = show::name(file);
        // What can't be read is told as it is of any file.
        let front = if file == "-" || entry.trouble.is_some() { None } else { front(file).unwrap_or(None) };
        let read = match (front, &entry.trouble) {
            (_, Some(trouble)) => Err(io::Error::other(trouble.clone())),
            (Some(octets), _) => Ok(Stream { octets, size: None }),
            (None, _) => read(file, files.hex),
        };
        let status = match read {
            Ok(Stream { octets, size }) => answer(&Source { file, shown, stream: octets, size, edition, several })?,
            Err(error) if json => {
                writeln!(io::stdout(), "{}", explain::unreadable(&Name::of(file), &error))?;
                Status::Failed
            }
            Err(error) => {
                tell(&format!("odif: {shown}: {error}\n"));
                Status::Failed
            }
        };
        worst = worst.max(status);
    }
    Ok(worst)
}

/// What a subcommand has to say of an accepted letter. That of a refused one is empty.
pub trait Answer: Serialize + Default {
    /// Writes it for people.
    fn write(&self, out: &mut dyn Write) -> io::Result<()>;

    /// Tells the rest on standard error, once it is written for people.
    fn note(&self, _source: &Source<'_>, _letter: &Letter<'_>) {}

    /// How it lets the run end.
    fn status(&self) -> Status {
        Status::Accepted
    }
}

/// Answers for each file.
pub fn answer_each<A: Answer>(asked: &Asked, ask: impl Fn(&Source<'_>, &Letter<'_>) -> Result<A, Failure>) -> Outcome {
    each(&asked.files, asked.json, |source| {
        let read = Letter::read_in(source.edition, &source.stream);
        let answer = read.as_ref().map_or_else(|_| Ok(A::default()), |letter| ask(source, letter))?;
        write_answer(asked, source, &read, &answer, |out| {
            if read.is_err() {
                return Ok(());
            }
            heading(out, source)?;
            answer.write(out)
        })?;
        if let Ok(letter) = &read
            && !asked.json
        {
            answer.note(source, letter);
        }
        Ok(Status::of(&read).max(answer.status()))
    })
}

/// Writes an answer behind its verdict as JSON, or shows it to people, and what refuses the stream on standard error.
pub fn write_answer<T>(
    asked: &Asked,
    source: &Source<'_>,
    verdict: &Result<T, Refusal>,
    answer: &impl Serialize,
    show: impl FnOnce(&mut dyn Write) -> io::Result<()>,
) -> io::Result<()> {
    let mut out = BufWriter::new(io::stdout().lock());
    match asked.json {
        true => out.write_all(explain::answer(source, verdict, answer).as_bytes())?,
        false => show(&mut out)?,
    }
    out.flush()?;
    if let Err(refusal) = verdict
        && !asked.json
    {
        tell(&explain::refusal(source, refusal));
    }
    Ok(())
}

/// A line with the file's name, where there are several.
pub fn heading(out: &mut (impl Write + ?Sized), source: &Source<'_>) -> io::Result<()> {
    if source.several { writeln!(out, "==> {} <==", source.shown) } else { Ok(()) }
}

/// Reads a file, or standard input for `-`.
fn read(name: &OsStr, hex: bool) -> io::Result<Stream> {
    if name == "-" {
        return take(io::stdin().lock(), None, hex);
    }
    read_file(Path::new(name), hex)
}

/// Reads a file of any name.
pub fn read_file(path: &Path, hex: bool) -> io::Result<Stream> {
    let file = File::open(path)?;
    let about = file.metadata()?;
    take(file, about.is_file().then_some(about.len()), hex)
}

/// Reads a source that has so many octets, if that is known.
pub fn take(source: impl Read, size: Option<u64>, hex: bool) -> io::Result<Stream> {
    if hex {
        let octets = take_hex(BufReader::new(source))?;
        return Ok(Stream { size: whole(&octets), octets });
    }
    let mut octets = Vec::with_capacity(size.map_or(0, |size| (size as usize).min(ENOUGH) + 1));
    source.take(ENOUGH as u64).read_to_end(&mut octets)?;
    // A file that is being written may have grown or shrunk since its size was asked for.
    Ok(Stream { size: whole(&octets).or(size), octets })
}

/// The number of octets, if they are all.
fn whole(octets: &[u8]) -> Option<u64> {
    (octets.len() < ENOUGH).then_some(octets.len() as u64)
}

/// Reads pairs of hexadecimal digits. White space may stand between pairs, and nothing else.
fn take_hex(mut source: impl BufRead) -> io::Result<Vec<u8>> {
    let mut stream = Vec::new();
    let mut line = 1;
    let mut half = None;
    let unfit = |line: usize, what: &str| io::Error::new(io::ErrorKind::InvalidData, format!("line {line}: {what}"));
    loop {
        let chunk = source.fill_buf()?;
        if chunk.is_empty() {
            break;
        }
        for &byte in chunk {
            match ((byte as char).to_digit(16), half) {
                (Some(low), Some(high)) => {
                    stream.push((high << 4 | low) as u8);
                    half = None;
                    if stream.len() == ENOUGH {
                        return Ok(stream);
                    }
                }
                (Some(high), None) => half = Some(high),
                (None, Some(_)) if byte.is_ascii_whitespace() => {
                    return Err(unfit(line, "half a pair of hexadecimal digits"));
                }
                (None, None) if byte == b'\n' => line += 1,
                (None, None) if byte.is_ascii_whitespace() => {}
                (None, _) => return Err(unfit(line, "neither a hexadecimal digit nor white space")),
            }
        }
        let used = chunk.len();
        source.consume(used);
    }
    if half.is_some() { Err(unfit(line, "half a pair of hexadecimal digits")) } else { Ok(stream) }
}

#[cfg(test)]
mod tests {
    use super::*;

    fn hex(text: &[u8]) -> io::Result<Vec<u8>> {
        take(text, None, true).map(|stream| stream.octets)
    }

    #[test]
    fn pairs_and_white_space() {
        assert_eq!(hex(b"A0 00\r\n\n\ta2ff").unwrap(), [0xA0, 0x00, 0xA2, 0xFF]);
        assert!(hex(b"").unwrap().is_empty());
    }

    #[test]
    fn what_is_no_pair_is_told_with_its_line() {
        for (text, message) in [
            ("A0\nA", "line 2: half a pair of hexadecimal digits"),
            ("A0\nA 0", "line 2: half a pair of hexadecimal digits"),
            ("A0\n0X", "line 2: neither a hexadecimal digit nor white space"),
            ("A0\n\nxx", "line 3: neither a hexadecimal digit nor white space"),
        ] {
            assert_eq!(hex(text.as_bytes()).unwrap_err().to_string(), message);
        }
    }

    #[test]
    fn an_endless_file_ends_past_the_limit() {
        for (digit, hex) in [(0, false), (b'0', true)] {
            let stream = take(io::repeat(digit), None, hex).unwrap();
            assert_eq!((stream.octets.len(), stream.size), (odif::STREAM_LIMIT + 1, None));
        }
        let long = take(io::repeat(0), Some(2_000_000), false).unwrap();
        assert_eq!(long.size, Some(2_000_000));
        assert_eq!(take(&b"abc"[..], Some(7), false).unwrap().size, Some(3), "it shrank");
    }
}
