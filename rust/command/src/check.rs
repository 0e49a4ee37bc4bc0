//! `odif check`

use std::io::{self, Write};
use std::num::NonZeroUsize;

use clap::Args;
use odif::{Letter, Refusal};
use second::Opinion;
use serde::Serialize;

use crate::asked::{Asked, auto_text};
use crate::blocks;
use crate::input::{self, Source};
use crate::status::{Outcome, Status};
use crate::units::{Unit, Units};
use crate::{date, explain, protected, show};

const EXAMPLES: &str = "\
Examples:
  odif check letter.odif
  odif check --json inbox/*.odif | grep -v accepted
  odif check -q letter.odif && echo fine
  find archive -name '*.odif' -print0 | odif check -0 --files-from -
  echo A00205 | odif check --hex -
  odif check --blocks 512 letter.odif
  odif check --second letter.odif

Exit status: 0 all were accepted; 1 one was refused; 2 one could not be read; 3 with --second, the
independent reader differs on one.";

/// Says whether files are accepted, and why not
///
/// Says of each file whether it is accepted, with the number of elements, items and octets, of protected parts where there
/// are some, and of text units that `odif text` does not show, with the places of the first of them; or what refuses it: the
/// number of the rule, the place, the cause, and the octets around the place with the octet there in brackets.
#[derive(Args)]
#[command(after_help = EXAMPLES)]
pub struct Words {
    #[command(flatten)]
    asked: Asked,
    /// Nothing of accepted and refused files: the exit status says it
    #[arg(short, long, conflicts_with = "json")]
    quiet: bool,
    /// Hands each file to the block engine in blocks of N octets: rules 1 to 8 alone
    #[arg(long, value_name = "N")]
    blocks: Option<NonZeroUsize>,
    /// Puts every question about each file, by both editions, to the independent reader too, and says that it agrees or
    /// where it differs
    #[arg(long, conflicts_with = "blocks")]
    second: bool,
}

/// What is known of a file besides the verdict.
#[derive(Default, Serialize)]
struct Counts {
    octets: Option<u64>,
    headers: usize,
    elements: usize,
    /// How many of the elements are protected parts, which 1988 does not have.
    #[serde(skip_serializing_if = "is_none")]
    protected_parts: usize,
    /// The date of the document, if it has one.
    date: Option<String>,
    /// The side that `odif text` shows, and the text units that it does not.
    side: Option<String>,
    not_shown: Vec<Unit>,
}

fn is_none(count: &usize) -> bool {
    *count == 0
}

pub fn run(words: &Words) -> Outcome {
    if let Some(size) = words.blocks {
        return blocks::run(&words.asked, words.quiet, size);
    }
    input::each(&words.asked.files, words.asked.json, |source| {
        let read = Letter::read_in(source.edition, &source.stream);
        let second = words.second.then(|| Second::of(&source.stream));
        let report = match &read {
            _ if words.quiet => String::new(),
            _ if words.asked.json => {
                explain::answer(source, &read, Judged { counts: counts(source, &read), second: &second })
            }
            Ok(letter) => accepted(source, letter),
            Err(refusal) => explain::refusal(source, refusal),
        };
        let behind = second.as_ref().filter(|_| !words.asked.json && !words.quiet).map_or(String::new(), Second::text);
        let mut out = io::stdout().lock();
        out.write_all((report + &behind).as_bytes())?;
        out.flush()?;
        Ok(Status::of(&read).max(second.map_or(Status::Accepted, |second| second.status())))
    })
}

/// What JSON has besides the verdict.
#[derive(Serialize)]
struct Judged<'a> {
    #[serde(flatten)]
    counts: Counts,
    #[serde(skip_serializing_if = "Option::is_none")]
    second: &'a Option<Second>,
}

/// The independent reader's opinion of a stream.
#[derive(Serialize)]
struct Second {
    agrees: bool,
    comparisons: u64,
    differing: u64,
    /// The first differences in words.
    differences: Vec<String>,
}

impl Second {
    fn of(stream: &[u8]) -> Second {
        let Opinion { comparisons, differing, differences } = second::opinion(stream);
        Second { agrees: differing == 0, comparisons, differing, differences }
    }

    fn text(&self) -> String {
        let comparisons = show::counted(self.comparisons as usize, "comparison");
        if self.agrees {
            return format!("  the independent reader agrees, in {comparisons}\n");
        }
        let first = self.differences.iter().map(|told| format!("    {told}\n")).collect::<String>();
        let differing = show::grouped(self.differing as usize);
        format!("  the independent reader differs, in {differing} of {comparisons}; please report this file\n{first}")
    }

    fn status(&self) -> Status {
        if self.agrees { Status::Accepted } else { Status::Differing }
    }
}

fn counts(source: &Source<'_>, read: &Result<Letter<'_>, Refusal>) -> Counts {
    let octets = source.size;
    match read {
        Ok(letter) => {
            let units = units(letter);
            Counts {
                octets,
                headers: letter.headers(),
                elements: letter.elements().len(),
                protected_parts: protected::count(letter.elements()),
                date: letter.date().ok().map(|date| date.to_string()),
                side: Some(units.side().to_string()),
                not_shown: units.not_shown().to_vec(),
            }
        }
        Err(_) => {
            let headers = odif::check_in(source.edition, &source.stream).headers;
            Counts { octets, headers, ..Counts::default() }
        }
    }
}

/// The text units by the side that is read where none is asked for.
fn units(letter: &Letter<'_>) -> Units {
    let (side, text) = auto_text(letter.edition(), letter.stream()).expect("the text of an accepted letter");
    Units::of(side, &text)
}

fn accepted(source: &Source<'_>, letter: &Letter<'_>) -> String {
    let counts = [(letter.elements().len(), "element"), (letter.headers(), "item"), (source.stream.len(), "octet")];
    let counts = counts.map(|(count, noun)| show::counted(count, noun)).join(", ");
    let parts = protected::words(letter.elements());
    let parts = if parts.is_empty() { parts } else { format!("; {parts}") };
    let (dated, units) = (date::behind(letter), units(letter).behind());
    format!("{}: accepted, {counts}{dated}{parts}{units}\n", source.shown)
}
