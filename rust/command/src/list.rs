//! `odif list`

use std::io::{self, Write};

use clap::Args;
use odif::{Letter, Side};
use serde::Serialize;

use crate::asked::{Asked, Sides};
use crate::input::{self, Answer, Source};
use crate::status::Outcome;
use crate::units::{Unit, Units};
use crate::{protected, show};

/// The octets of a content that a line shows.
const SHOWN: usize = 40;

const EXAMPLES: &str = "\
Examples:
  odif list letter.odif
  odif list --json letter.odif | jq '.matches | length'

Exit status: 0 listed; 1 a letter was refused; 2 a file could not be read.";

/// Lists which text unit stands where
///
/// Lists the matches of a side in reading order: the element, the place of the portion in it, the text unit (all
/// counted from 0), the unit's identifier, the length of its content and how it begins. Text units that no object of
/// the side names are not listed; a note on standard error tells how many and where the first of them stand. JSON has the
/// whole contents and their places, and all text units that are not listed as `not_shown`; of a content in pieces or tiles
/// the place is that of the value that holds them.
#[derive(Args)]
#[command(after_help = EXAMPLES)]
pub struct Words {
    #[command(flatten)]
    asked: Asked,
    #[command(flatten)]
    sides: Sides,
}

/// What JSON has besides the verdict.
#[derive(Default, Serialize)]
struct Listed {
    side: Option<String>,
    elements: usize,
    matches: Vec<Line>,
    /// The text units that are not listed.
    not_shown: Vec<Unit>,
    #[serde(skip)]
    units: Option<Units>,
}

#[derive(Serialize)]
struct Line {
    element: usize,
    portion: usize,
    unit: usize,
    identifier: String,
    octets: usize,
    in_pieces: bool,
    first: usize,
    past: usize,
    content: Option<String>,
    content_hex: String,
    /// Its beginning, for people.
    #[serde(skip)]
    beginning: String,
}

pub fn run(words: &Words) -> Outcome {
    input::answer_each(&words.asked, |_, letter| Ok(listed(letter, &words.sides)))
}

impl Answer for Listed {
    fn write(&self, out: &mut dyn Write) -> io::Result<()> {
        write_lines(out, &self.matches)
    }

    fn note(&self, source: &Source<'_>, letter: &Letter<'_>) {
        if let Some(units) = &self.units {
            units.note(source);
        }
        protected::note(source, letter.elements());
    }
}

fn listed(letter: &Letter<'_>, sides: &Sides) -> Listed {
    let (side, text) = sides.text(letter.edition(), letter.stream()).expect("the text of an accepted letter");
    let matches = text.lines().iter().map(|found| line(letter, side, found, text.content(found))).collect();
    let units = Units::of(side, &text);
    Listed {
        side: Some(side.to_string()),
        elements: letter.elements().len(),
        matches,
        not_shown: units.not_shown().to_vec(),
        units: Some(units),
    }
}

fn line(letter: &Letter<'_>, side: Side, found: &odif::Line, content: &[u8]) -> Line {
    let identifier = match side {
        Side::Layout => letter.identifier(found.unit),
        Side::Logical => letter.logical_identifier(found.unit),
    };
    let place = letter.elements()[found.unit].content.clone().unwrap_or_default();
    Line {
        element: found.element,
        portion: found.portion,
        unit: found.unit,
        identifier: show::escaped(identifier.unwrap_or_default()),
        octets: content.len(),
        // A piece has a header, so the value that holds pieces is longer than they are.
        in_pieces: content.len() < place.len(),
        first: place.start,
        past: place.end,
        content: show::ascii(content),
        content_hex: show::hex(content),
        beginning: show::beginning(content, SHOWN),
    }
}

fn write_lines(out: &mut dyn Write, lines: &[Line]) -> io::Result<()> {
    let width = lines.iter().map(|line| line.identifier.len()).max().unwrap_or(0).max("identifier".len());
    writeln!(out, "element portion  unit  octets  {:width$}  content", "identifier")?;
    for line in lines {
        let Line { element, portion, unit, identifier, octets, beginning, .. } = line;
        let text = format!("{element:7} {portion:7} {unit:5} {octets:7}  {identifier:width$}  {beginning}");
        writeln!(out, "{}", text.trim_end())?;
    }
    Ok(())
}
