//! Verdicts for people and for programs.

use std::io;

use odif::Refusal;
use serde::Serialize;

use crate::faults::Fault;
use crate::input::Source;
use crate::names::Name;
use crate::show;

/// A refusal for people: a line with number, place and cause, the rule where it says something else, what the file
/// seems to be, and the octets around the place.
pub fn refusal(source: &Source<'_>, refusal: &Refusal) -> String {
    let stream = &source.stream;
    let fault = Fault::of(source.edition, &source.stream, refusal);
    let element = match (fault.element, fault.kind) {
        (Some(number), Some(kind)) if (9..=15).contains(&fault.number) => {
            format!("element {number} (counted from 0), {}: ", show::one(kind.name()))
        }
        (Some(number), None) if (9..=15).contains(&fault.number) => format!("element {number} (counted from 0): "),
        _ => String::new(),
    };
    let (number, place, detail) = (fault.number, fault.place, &fault.detail);
    let mut text = format!("{}: refused, number {number} at octet {place}: {element}{detail}\n", source.shown);
    if let Some(foreign) = fault.foreign {
        text += &format!("  this is {foreign}, and no letter\n");
    }
    if let Some(hint) = &fault.hint {
        text += &format!("  {hint}\n");
    }
    if fault.sentence != fault.detail {
        text += &format!("  rule {number}: {}\n", fault.sentence);
    }
    if fault.has_place(stream) {
        text += &show::around(stream, place);
    }
    text
}

/// The beginning of every answer in JSON: the file, the outcome, number and place, and of a refusal what is known of it.
#[derive(Serialize)]
struct Verdict {
    #[serde(flatten)]
    name: Name,
    outcome: &'static str,
    number: u32,
    place: usize,
    #[serde(flatten)]
    cause: Option<Cause>,
}

#[derive(Serialize)]
struct Cause {
    sentence: &'static str,
    detail: String,
    #[serde(skip_serializing_if = "Option::is_none")]
    element: Option<usize>,
    #[serde(skip_serializing_if = "Option::is_none")]
    kind: Option<&'static str>,
    #[serde(skip_serializing_if = "String::is_empty")]
    item: String,
    #[serde(skip_serializing_if = "Option::is_none")]
    foreign: Option<&'static str>,
    #[serde(skip_serializing_if = "Option::is_none")]
    hint: Option<String>,
    #[serde(skip_serializing_if = "Option::is_none")]
    around: Option<Octets>,
}

/// Some octets of the stream, and where they begin.
#[derive(Serialize)]
struct Octets {
    first: usize,
    hex: String,
}

/// The answer on a stream as a line of JSON: the verdict, and then what the subcommand has to say.
pub fn answer<T>(source: &Source<'_>, verdict: &Result<T, Refusal>, more: impl Serialize) -> String {
    answer_as("accepted", source, verdict, more)
}

/// A file's answer as JSON, with another word for what is not refused.
pub fn answer_as<T>(
    word: &'static str,
    source: &Source<'_>,
    verdict: &Result<T, Refusal>,
    more: impl Serialize,
) -> String {
    #[derive(Serialize)]
    struct Answer<M> {
        #[serde(flatten)]
        verdict: Verdict,
        #[serde(flatten)]
        more: M,
    }
    json(&Answer { verdict: Verdict::of(word, source, verdict), more }) + "\n"
}

impl Verdict {
    fn of<T>(word: &'static str, source: &Source<'_>, verdict: &Result<T, Refusal>) -> Verdict {
        let name = Name::of(source.file);
        match verdict {
            Ok(_) => Verdict { name, outcome: word, number: 0, place: 0, cause: None },
            Err(refusal) => {
                let (number, place) = (refusal.number(), refusal.place);
                Verdict { name, outcome: "refused", number, place, cause: Some(cause(source, refusal)) }
            }
        }
    }
}

fn cause(source: &Source<'_>, refusal: &Refusal) -> Cause {
    let stream = &source.stream;
    let fault = Fault::of(source.edition, &source.stream, refusal);
    let around = fault.has_place(stream).then(|| {
        let first = fault.place.saturating_sub(16);
        Octets { first, hex: show::hex(&stream[first..(fault.place + 16).min(stream.len())]) }
    });
    Cause {
        sentence: fault.sentence,
        detail: fault.detail,
        element: fault.element,
        kind: fault.kind.map(|kind| kind.name()),
        item: fault.item,
        foreign: fault.foreign,
        hint: fault.hint,
        around,
    }
}

/// The answer in JSON about a file that can't be read.
pub fn unreadable(name: &Name, error: &io::Error) -> String {
    #[derive(Serialize)]
    struct Unreadable<'a> {
        #[serde(flatten)]
        name: &'a Name,
        outcome: &'static str,
        reason: String,
    }
    json(&Unreadable { name, outcome: "unreadable", reason: error.to_string() })
}

/// A value as one line of JSON.
pub fn json(value: &impl Serialize) -> String {
    serde_json::to_string(value).expect("numbers and strings")
}
