//! `odif date`

use std::ffi::OsStr;
use std::fs::{self, File};
use std::io::{self, Read, Write};

use clap::Args;
use odif::{Date, Edition, Letter, Refusal};
use serde::Serialize;

use crate::asked::Asked;
use crate::input::{self, Source};
use crate::names::Name;
use crate::status::{Outcome, Status};
use crate::undated::{Found, Undated};
use crate::{explain, show};

/// What is said behind an answer that `--first` gives.
const UNREAD: &str = " (by the first element alone; the rest is unread)";

const EXAMPLES: &str = "\
Examples:
  odif date letter.odif
  odif date --first --json inbox/*.odif
  echo A010A30EA00C800A313938382D30362D3035 | odif date --hex -

Exit status: 0 all have a date; 1 one has none or was refused; 2 one could not be read.";

/// Shows the date of documents
///
/// Shows the date that stands in the profile of each letter: document-date-and-time, if there is exactly one. Where there is
/// none, it says what stands in its place, and where. A letter that is not accepted has none to show, but with --first the
/// profile alone is judged, and the answer says so.
#[derive(Args)]
#[command(after_help = EXAMPLES)]
pub struct Words {
    #[command(flatten)]
    asked: Asked,
    /// Judge the first element alone; the rest of each file is not read
    #[arg(long)]
    first: bool,
}

#[derive(Default, Serialize)]
struct Answer {
    date: Option<String>,
    /// Where the octets of the date stand, and what they are.
    #[serde(skip_serializing_if = "Option::is_none")]
    first: Option<usize>,
    #[serde(skip_serializing_if = "Option::is_none")]
    past: Option<usize>,
    #[serde(skip_serializing_if = "Option::is_none")]
    value: Option<Option<String>>,
    #[serde(skip_serializing_if = "Option::is_none")]
    value_hex: Option<String>,
    /// What stands where the date should be, of a letter that has none.
    #[serde(skip_serializing_if = "Option::is_none")]
    dates: Option<Vec<Found>>,
    unread: bool,
}

/// The beginning of the answer on a letter without a date.
#[derive(Serialize)]
struct NoDate {
    #[serde(flatten)]
    name: Name,
    outcome: &'static str,
    number: u32,
    place: usize,
    sentence: &'static str,
    detail: String,
    #[serde(flatten)]
    answer: Answer,
}

pub fn run(words: &Words) -> Outcome {
    let Asked { files, json } = &words.asked;
    if words.first && !files.hex {
        let edition = files.by.edition();
        return input::each_front(files, *json, |name| front(edition, name), |source| tell(words, source));
    }
    input::each(files, *json, |source| tell(words, source))
}

/// Reads as much of a file as the first element needs: what follows that does not change its date. Where the front that was
/// read does not tell, the rest is read too.
fn front(edition: Edition, name: &OsStr) -> io::Result<Option<Vec<u8>>> {
    const FRONT: u64 = 4_096;
    let about = fs::metadata(name)?;
    if !about.is_file() || about.len() > odif::STREAM_LIMIT as u64 {
        return Ok(None);
    }
    let mut octets = Vec::new();
    File::open(name)?.take(FRONT).read_to_end(&mut octets)?;
    let is_whole = match odif::first_date_in(edition, &octets).date {
        Ok(_) => true,
        Err(refusal) => refusal.number() > 8,
    };
    Ok(is_whole.then_some(octets))
}

fn tell(words: &Words, source: &Source<'_>) -> Outcome {
    let date = if words.first {
        odif::first_date_in(source.edition, &source.stream).date
    } else {
        Letter::read_in(source.edition, &source.stream).and_then(|letter| letter.date())
    };
    let report = if words.asked.json { json(source, &date, words.first) } else { text(source, &date, words.first) };
    let mut out = io::stdout().lock();
    out.write_all(report.as_bytes())?;
    out.flush()?;
    Ok(if date.is_ok() { Status::Accepted } else { Status::Refused })
}

/// The answer for people.
fn text(source: &Source<'_>, date: &Result<Date, Refusal>, unread: bool) -> String {
    let rest = if unread { UNREAD } else { "" };
    match date {
        Ok(date) => format!("{}: {date}{rest}\n", source.shown),
        Err(refusal) if refusal.number() > 15 => {
            let Undated { detail, dates } = Undated::of(source.edition, &source.stream, refusal);
            let number = refusal.number();
            let around = dates.first().map_or(String::new(), |date| show::around(&source.stream, date.first));
            format!("{}: no date, number {number}: {detail}{rest}\n{around}", source.shown)
        }
        Err(refusal) => {
            let rest = if unread { format!(" {rest}\n") } else { String::new() };
            explain::refusal(source, refusal) + &rest
        }
    }
}

/// The answer as a line of JSON.
fn json(source: &Source<'_>, date: &Result<Date, Refusal>, unread: bool) -> String {
    let answer = Answer { unread, ..Answer::default() };
    match date {
        Ok(found) => {
            let octets = &source.stream[found.place.clone()];
            explain::answer_as(
                "dated",
                source,
                date,
                Answer {
                    date: Some(found.to_string()),
                    first: Some(found.place.start),
                    past: Some(found.place.end),
                    value: Some(show::ascii(octets)),
                    value_hex: Some(show::hex(octets)),
                    ..answer
                },
            )
        }
        Err(refusal) if refusal.number() > 15 => {
            let Undated { detail, dates } = Undated::of(source.edition, &source.stream, refusal);
            let (number, place, sentence) = (refusal.number(), refusal.place, refusal.rule.sentence());
            let answer = Answer { dates: Some(dates), ..answer };
            let name = Name::of(source.file);
            explain::json(&NoDate { name, outcome: "undated", number, place, sentence, detail, answer }) + "\n"
        }
        Err(_) => explain::answer(source, date, answer),
    }
}

/// The date of a stream by its first element, as a column has it: empty where there is none.
pub fn column(edition: Edition, stream: &[u8]) -> String {
    odif::first_date_in(edition, stream).date.map_or(String::new(), |date| date.to_string())
}

/// What is said of an accepted letter behind its counts.
pub fn behind(letter: &Letter<'_>) -> String {
    letter.date().map_or(String::new(), |date| format!(", dated {date}"))
}
