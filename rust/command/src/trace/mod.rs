//! `odif trace`
//!
//! What is told is the library's: the verdict, the date and its place, the lines, where their octets stand, and the fields of the
//! table. Which characters the octets are is the command's own.

mod again;
mod at;
mod lines;

use std::io::{self, Write};

use clap::Args;
use odif::{Date, Edition, Letter, Refusal, Side, Text};
use serde::Serialize;

use crate::asked::Asked;
use crate::files::at_least_one;
use crate::input::{self, Source};
use crate::sources::Sources;
use crate::status::{Failure, Outcome, Status, tell};
use crate::text::How;
use crate::units::{Unit, Units};
use crate::{hash, identity, protected, show};
use again::Held;
use at::At;
use lines::{Line, rows};

const EXAMPLES: &str = "\
Examples:
  odif trace samples/letters/dated.odif
  odif trace --line 2 letter.odif
  odif trace --at 33 samples/letters/dated.odif
  odif trace --check inbox/*.odif
  odif trace --json letter.odif | jq -c '.lines[].sources[] | [.first, .past]'

Exit status: 0 traced; 1 a letter was refused, or lacks a line or an octet that was asked; 2 a file could
not be read; 3 with --check, the file does not have at some place what is shown of it.";

/// Shows where in the file each octet of a text and of a date stands
///
/// Shows, of each letter, the file's octets and SHA-256, the library's, the date with its octets, and line by line what `odif
/// text` writes: page, block, portion and unit, and for each piece of the line where it stands, its octets in hexadecimal and
/// the characters that they are; then the text units that are not shown. A line is the content of one text unit, and is counted
/// from 1. Places are written as 142..167: from octet 142, counted from 0, up to the one before 167. Every place is the
/// answer of the proved library. The characters are the command's own, by the set that the letter declares, with \n for a
/// line end and ⟦1B⟧ for an octet that is no character.
#[derive(Args)]
#[command(after_help = EXAMPLES)]
pub struct Words {
    #[command(flatten)]
    asked: Asked,
    #[command(flatten)]
    how: How,
    /// Only this line, or these, as 2,3
    #[arg(long, value_name = "N", value_delimiter = ',', value_parser = at_least_one)]
    line: Vec<usize>,
    /// Only what stands at this octet, or at these, as 33,142: which element, which field of it, and which line or none
    #[arg(long, value_name = "OFFSET", value_delimiter = ',', conflicts_with = "line")]
    at: Vec<usize>,
    /// Read the file once more, and hold what the text and the date have against its octets at these places
    #[arg(long)]
    check: bool,
}

/// What JSON has besides the verdict.
#[derive(Serialize)]
struct Answer {
    /// How many octets there are, if that is known, and their SHA-256, if they were all read.
    octets: Option<u64>,
    sha256: Option<String>,
    /// The SHA-256 of the proved archive.
    library: &'static str,
    #[serde(flatten)]
    traced: Option<Traced>,
}

/// What is told of an accepted letter.
#[derive(Serialize)]
struct Traced {
    date: Option<Dated>,
    /// Why there is none.
    #[serde(skip_serializing_if = "Option::is_none")]
    undated: Option<Undated>,
    side: String,
    lines: Vec<Line>,
    not_shown: Vec<Unit>,
    #[serde(skip_serializing_if = "Vec::is_empty")]
    at: Vec<At>,
    #[serde(skip_serializing_if = "Option::is_none")]
    check: Option<Held>,
}

#[derive(Serialize)]
struct Dated {
    date: String,
    first: usize,
    past: usize,
    value: Option<String>,
    value_hex: String,
}

#[derive(Serialize)]
struct Undated {
    number: u32,
    sentence: &'static str,
}

/// A letter with all that the library tells of a side.
struct Known<'a> {
    letter: Letter<'a>,
    date: Result<Date, Refusal>,
    side: Side,
    text: Text,
    sources: Sources,
}

pub fn run(words: &Words) -> Outcome {
    if words.check && words.asked.files.names.iter().any(|name| name == "-") {
        return Err(Failure::Usage("standard input can't be read once more: `--check` needs a file".into()));
    }
    input::each(&words.asked.files, words.asked.json, |source| trace(words, source))
}

fn trace(words: &Words, source: &Source<'_>) -> Outcome {
    let known = Known::of(&words.how, source);
    let traced = known.as_ref().ok().map(|known| Traced::of(words, source, known)).transpose()?;
    let answer = Answer::of(source, traced);
    input::write_answer(&words.asked, source, &known, &answer, |out| {
        write_head(out, source, &answer, known.is_ok())?;
        answer.traced.as_ref().map_or(Ok(()), |traced| traced.write(out, words, source))
    })?;
    let Ok(known) = &known else { return Ok(Status::Refused) };
    if !words.asked.json {
        protected::note(source, known.letter.elements());
    }
    let differs = answer.traced.as_ref().and_then(|traced| traced.check.as_ref()).is_some_and(Held::differs);
    let is_there = has_asked(words, source, known);
    Ok(match (differs, is_there) {
        (true, _) => Status::Differing,
        (false, true) => Status::Accepted,
        (false, false) => Status::Refused,
    })
}

impl<'a> Known<'a> {
    fn of(how: &How, source: &'a Source<'_>) -> Result<Known<'a>, Refusal> {
        let letter = Letter::read_in(source.edition, &source.stream)?;
        let (side, text) = how.side_and_text(source.edition, &source.stream)?;
        let sources = Sources::of(source.edition, &source.stream, side, &text);
        Ok(Known { date: letter.date(), letter, side, text, sources })
    }

    fn edition(&self) -> Edition {
        self.letter.edition()
    }

    /// The octets at a place.
    fn octets(&self, place: &std::ops::Range<usize>) -> &'a [u8] {
        &self.letter.stream()[place.clone()]
    }
}

impl Answer {
    fn of(source: &Source<'_>, traced: Option<Traced>) -> Answer {
        let is_whole = source.size == Some(source.stream.len() as u64);
        Answer {
            octets: source.size,
            sha256: is_whole.then(|| hash::of(&source.stream)),
            library: identity::LIBRARY,
            traced,
        }
    }
}

impl Traced {
    fn of(words: &Words, source: &Source<'_>, known: &Known<'_>) -> Result<Traced, Failure> {
        let mut lines = lines::of(&words.how, source, known);
        if !words.line.is_empty() {
            lines.retain(|line| words.line.contains(&line.line));
        }
        let inside = words.at.iter().filter(|at| **at < source.stream.len());
        Ok(Traced {
            date: known.date.as_ref().ok().map(|date| Dated::of(date, known)),
            undated: known.date.as_ref().err().map(Undated::of),
            side: known.side.to_string(),
            lines: if words.at.is_empty() { lines } else { Vec::new() },
            not_shown: Units::of(known.side, &known.text).not_shown().to_vec(),
            at: inside.map(|at| At::of(known, *at)).collect(),
            check: words.check.then(|| Held::of(&words.asked.files, source, known)).transpose()?,
        })
    }

    fn write(&self, out: &mut dyn Write, words: &Words, source: &Source<'_>) -> io::Result<()> {
        let all = words.line.is_empty() && words.at.is_empty();
        if all {
            self.write_date(out, source)?;
        }
        self.lines.iter().try_for_each(|line| line.write(out))?;
        self.at.iter().try_for_each(|at| at.write(out))?;
        if all {
            for unit in &self.not_shown {
                writeln!(out, "\nnot shown by the {} side: {}", self.side, unit.in_words())?;
            }
        }
        self.check.as_ref().map_or(Ok(()), |held| held.write(out))
    }

    fn write_date(&self, out: &mut dyn Write, source: &Source<'_>) -> io::Result<()> {
        if let Some(Undated { number, sentence }) = &self.undated {
            writeln!(out, "\nno date of the document, number {number}: {sentence}")?;
        }
        let Some(date) = &self.date else { return Ok(()) };
        writeln!(out, "\nthe date of the document: {}", date.date)?;
        for row in rows(&(date.first..date.past)) {
            let octets = &source.stream[row.clone()];
            lines::write_row(out, &row, octets, &show::escaped(octets))?;
        }
        Ok(())
    }
}

impl Dated {
    fn of(date: &Date, known: &Known<'_>) -> Dated {
        let octets = known.octets(&date.place);
        Dated {
            date: date.to_string(),
            first: date.place.start,
            past: date.place.end,
            value: show::ascii(octets),
            value_hex: show::hex(octets),
        }
    }
}

impl Undated {
    fn of(refusal: &Refusal) -> Undated {
        Undated { number: refusal.number(), sentence: refusal.rule.sentence() }
    }
}

/// Which file this is, and which library tells of it.
fn write_head(out: &mut dyn Write, source: &Source<'_>, answer: &Answer, accepted: bool) -> io::Result<()> {
    let verdict = if accepted { "accepted" } else { "refused" };
    writeln!(out, "{}: {verdict} by the edition of {}", source.shown, source.edition)?;
    let octets = answer.octets.map_or("more than were read".into(), |octets| show::grouped(octets as usize));
    writeln!(out, "octets   {octets}")?;
    writeln!(out, "sha256   {}", answer.sha256.as_deref().unwrap_or("not known: not all octets were read"))?;
    writeln!(out, "library  libodif.a, sha256 {}", answer.library)
}

/// Has the letter all lines and octets that were asked? What it lacks is told.
fn has_asked(words: &Words, source: &Source<'_>, known: &Known<'_>) -> bool {
    let lacking = |asked: &[usize], most: usize| {
        let missing: Vec<String> = asked.iter().filter(|asked| **asked > most).map(usize::to_string).collect();
        (!missing.is_empty()).then(|| missing.join(", "))
    };
    let (count, side) = (known.text.lines().len(), known.side);
    let lines = lacking(&words.line, count)
        .map(|missing| format!("the {side} side has {}, and no line {missing}", show::counted(count, "line")));
    let size = source.stream.len();
    let octets = lacking(&words.at, size.saturating_sub(1))
        .map(|missing| format!("it has {}, counted from 0, and none at {missing}", show::counted(size, "octet")));
    for lack in [&lines, &octets].into_iter().flatten() {
        tell(&format!("odif: {}: {lack}\n", source.shown));
    }
    lines.is_none() && octets.is_none()
}
