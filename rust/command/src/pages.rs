//! `odif pages`

use std::io::{self, Write};

use clap::Args;
use odif::pm1::{Page, Verdict};
use odif::{Edition, Letter};
use reader::{Item, Reading};
use serde::Serialize;

use crate::asked::{Asked, of_reader};
use crate::dimensions::Dimensions;
use crate::input::{self, Answer};
use crate::show;
use crate::status::{Failure, Outcome, Status};

const EXAMPLES: &str = "\
Examples:
  odif pages letter.odif
  odif pages --json inbox/*.odif | jq -r '.pages[].verdict'

Exit status: 0 no page is outside PM1; 1 one is outside or not fixed, or a letter was refused; 2 a
file could not be read.";

/// Says whether pages are within the dimensions of PM1
///
/// Lists the layout pages and page classes of each letter with a verdict on their dimensions by T.502, table 10: essential,
/// non-essential, outside, not fixed if they are anything but two fixed numbers, or none if there are none. Behind it stand
/// the width and the height, in units of 1/1200 inch, the octet at which the dimensions begin (the item A4), and why they
/// are not fixed. The verdict is the proved library's; what stands behind it is read by a reader that is not proved, and
/// that is asked only where it has the same verdicts.
#[derive(Args)]
#[command(after_help = EXAMPLES)]
pub struct Words {
    #[command(flatten)]
    asked: Asked,
}

/// One page.
#[derive(Serialize)]
struct Line {
    element: usize,
    kind: &'static str,
    identifier: Option<String>,
    first: usize,
    past: usize,
    verdict: &'static str,
    width: Option<i32>,
    height: Option<i32>,
    /// Where the dimensions stand.
    dimensions: Option<usize>,
    /// Why they are not fixed.
    #[serde(skip_serializing_if = "Option::is_none")]
    why: Option<String>,
    #[serde(skip)]
    is_within: bool,
}

#[derive(Default, Serialize)]
struct Listed {
    pages: Vec<Line>,
}

pub fn run(words: &Words) -> Outcome {
    input::answer_each(&words.asked, |source, letter| match lines(letter) {
        Some(pages) => Ok(Listed { pages }),
        None => {
            let message = format!("{}: the two readers differ on its pages; please report this file", source.shown);
            Err(Failure::File(message))
        }
    })
}

impl Answer for Listed {
    fn write(&self, out: &mut dyn Write) -> io::Result<()> {
        write_lines(out, &self.pages)
    }

    fn status(&self) -> Status {
        if self.pages.iter().all(|page| page.is_within) { Status::Accepted } else { Status::Refused }
    }
}

/// The pages with the library's verdicts, and with their dimensions by the reader; `None` if that has other verdicts.
fn lines(letter: &Letter<'_>) -> Option<Vec<Line>> {
    let pages = letter.pages();
    let reading = Reading::by(of_reader(letter.edition()), letter.stream());
    let theirs = reading.page_list();
    let is_same = |(ours, theirs): (&Page, &reader::Page)| {
        let verdict = Verdict::ALL.get(theirs.verdict as usize);
        (ours.element, Some(&ours.verdict)) == (theirs.element as usize, verdict)
    };
    if pages.len() != theirs.len() || !pages.iter().zip(&theirs).all(is_same) {
        return None;
    }
    let elements: Vec<&[Item]> = reading.tree().items().chunk_by(|_, next| next.level() > 1).collect();
    let dimensions = |page: &Page| Dimensions::of(letter.stream(), elements[page.element]);
    Some(pages.iter().map(|page| line(letter, page, dimensions(page))).collect())
}

fn line(letter: &Letter<'_>, page: &Page, dimensions: Dimensions) -> Line {
    let element = &letter.elements()[page.element];
    Line {
        element: page.element,
        kind: element.kind.name(),
        identifier: letter.identifier(page.element).map(show::escaped),
        first: element.place.start,
        past: element.place.end,
        verdict: page.verdict.name(),
        width: dimensions.fixed.map(|(width, _)| width),
        height: dimensions.fixed.map(|(_, height)| height),
        dimensions: dimensions.place,
        why: dimensions.why,
        is_within: !matches!(page.verdict, Verdict::Outside | Verdict::NotFixed),
    }
}

fn write_lines(out: &mut dyn Write, lines: &[Line]) -> io::Result<()> {
    let names = lines.iter().map(|line| line.identifier.as_deref().unwrap_or_default().len());
    let wide = names.max().unwrap_or(0).max("identifier".len());
    writeln!(out, "element  kind           {:wide$}  verdict          width   height  at octet", "identifier")?;
    for Line { element, kind, identifier, verdict, width, height, dimensions, why, .. } in lines {
        let identifier = identifier.as_deref().unwrap_or_default();
        let [width, height] = [width, height].map(|number| number.map_or("-".into(), |number| number.to_string()));
        let place = dimensions.map_or("-".into(), |place| place.to_string());
        let front =
            format!("{element:7}  {kind:13}  {identifier:wide$}  {verdict:13}  {width:>7}  {height:>7}  {place:>8}");
        writeln!(out, "{front}{}", why.as_ref().map_or(String::new(), |why| format!("  {why}")))?;
    }
    Ok(())
}

/// The column of a survey: how many pages there are with each verdict, as `2 essential, 1 outside`.
pub fn column(edition: Edition, stream: &[u8]) -> String {
    let pages = odif::pm1::pages_in(edition, stream).unwrap_or_default();
    let count = |verdict: Verdict| pages.iter().filter(|page| page.verdict == verdict).count();
    let counts = Verdict::ALL.map(|verdict| (count(verdict), verdict)).into_iter().filter(|(count, _)| *count > 0);
    counts.map(|(count, verdict)| format!("{count} {verdict}")).collect::<Vec<_>>().join(", ")
}
