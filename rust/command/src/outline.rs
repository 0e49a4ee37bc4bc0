//! `odif outline`

use std::io::{self, Write};

use clap::Args;
use odif::{Element, Kind, Letter, Side, Text};
use serde::Serialize;

use crate::asked::{Asked, Sides};
use crate::input::{self, Answer};
use crate::show;
use crate::status::Outcome;

/// The octets of a text that a line shows.
const SHOWN: usize = 40;
/// The names of object types, as T.415 has them.
const LAYOUT_TYPES: [&str; 5] = ["document-layout-root", "page-set", "page", "frame", "block"];
const LOGICAL_TYPES: [&str; 3] = ["document-logical-root", "composite", "basic"];

const EXAMPLES: &str = "\
Examples:
  odif outline letter.odif
  odif outline --logical --json samples/letters/claim.odif | jq -r '.outline[].text'

Exit status: 0 shown; 1 a letter was refused; 2 a file could not be read.";

/// Shows the tree of pages, frames and blocks
///
/// Shows the classes and objects of a side as a tree, each below the one whose identifier is its own without the last
/// group, children in stream order: its number (counted from 0), kind, type, identifier and the start of its text. What
/// has no such parent stands at the left.
#[derive(Args)]
#[command(after_help = EXAMPLES)]
pub struct Words {
    #[command(flatten)]
    asked: Asked,
    #[command(flatten)]
    sides: Sides,
}

/// What JSON has besides the verdict: the same elements in the same order, with depth and parent.
#[derive(Default, Serialize)]
struct Shown {
    side: Option<String>,
    outline: Vec<Line>,
}

#[derive(Serialize)]
struct Line {
    depth: usize,
    element: usize,
    parent: Option<usize>,
    kind: &'static str,
    #[serde(rename = "type")]
    object_type: Option<&'static str>,
    identifier: String,
    /// The contents that the element's portions name, joined.
    text: Option<String>,
    text_hex: String,
    /// Its beginning, for people.
    #[serde(skip)]
    beginning: String,
}

pub fn run(words: &Words) -> Outcome {
    input::answer_each(&words.asked, |_, letter| {
        let (side, outline) = outline(letter, &words.sides);
        Ok(Shown { side: Some(side.to_string()), outline })
    })
}

impl Answer for Shown {
    fn write(&self, out: &mut dyn Write) -> io::Result<()> {
        self.outline.iter().try_for_each(|line| write_line(out, line))
    }
}

fn write_line(out: &mut dyn Write, line: &Line) -> io::Result<()> {
    let Line { depth, element, kind, identifier, beginning, .. } = line;
    let kind = line.object_type.map_or(String::from(*kind), |name| format!("{kind}, {name}"));
    let front = format!("{element:5}  {:1$}{identifier}  {kind}  ", "", 2 * depth);
    writeln!(out, "{}", (front + beginning).trim_end())
}

/// The side that is asked for, and its classes and objects, each before its children.
fn outline(letter: &Letter<'_>, sides: &Sides) -> (Side, Vec<Line>) {
    let elements = letter.elements();
    let (side, text) = sides.text(letter.edition(), letter.stream()).expect("the text of an accepted letter");
    let texts = texts(elements.len(), &text);
    let mut children = vec![Vec::new(); elements.len()];
    let mut left = Vec::new();
    for (number, element) in elements.iter().enumerate().filter(|(_, element)| side_of(element) == Some(side)) {
        match element.parent {
            Some(parent) => children[parent].push(number),
            None => left.push((0, number)),
        }
    }
    // What is left, the next one last. No row is its own ancestor, so this ends.
    left.reverse();
    let mut lines = Vec::new();
    while let Some((depth, number)) = left.pop() {
        lines.push(line(letter, side, depth, number, &texts[number]));
        left.extend(children[number].iter().rev().map(|&child| (depth + 1, child)));
    }
    (side, lines)
}

fn line(letter: &Letter<'_>, side: Side, depth: usize, number: usize, text: &[u8]) -> Line {
    let element = &letter.elements()[number];
    let names: &[&str] = match side {
        Side::Layout => &LAYOUT_TYPES,
        Side::Logical => &LOGICAL_TYPES,
    };
    Line {
        depth,
        element: number,
        parent: element.parent,
        kind: element.kind.name(),
        object_type: element.object_type.and_then(|number| names.get(usize::from(number)).copied()),
        identifier: show::escaped(letter.identifier(number).unwrap_or_default()),
        text: show::ascii(text),
        text_hex: show::hex(text),
        beginning: show::beginning(text, SHOWN),
    }
}

/// The text of each element: the contents of its matches, in the order of its portions.
fn texts(elements: usize, text: &Text) -> Vec<Vec<u8>> {
    let mut texts = vec![Vec::new(); elements];
    for line in text.lines() {
        texts[line.element].extend_from_slice(text.content(line));
    }
    texts
}

fn side_of(element: &Element) -> Option<Side> {
    match element.kind {
        Kind::LayoutClass | Kind::LayoutObject => Some(Side::Layout),
        Kind::LogicalClass | Kind::LogicalObject => Some(Side::Logical),
        _ => None,
    }
}
