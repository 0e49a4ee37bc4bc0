//! `odif text`

use std::io::{self, BufWriter, IsTerminal, Write};
use std::ops::Range;

use clap::Args;
use odif::{Edition, Refusal, Side};
use reader::{Item, Reading};

use crate::asked::{Files, Sides};
use crate::charset::{self, Charset, Declared};
use crate::files::at_least_one;
use crate::input::{self, Source};
use crate::offsets::Offsets;
use crate::on_pages::OnPages;
use crate::status::{Outcome, Status, tell};
use crate::units::Units;
use crate::{explain, items, protected, show};

const EXAMPLES: &str = "\
Examples:
  odif text samples/letters/claim.odif
  odif text --raw letter.odif | sha256sum
  odif text --utf8=t61 letter.odif
  odif text --page 2 samples/letters/annex-d-1.odif
  odif text --form-feeds samples/letters/annex-d-1.odif | pr | head
  odif text --offsets samples/letters/dated.odif
  odif text --offsets --json letter.odif | jq -c '.lines[] | [.sources, .text]'
  odif text --strict inbox/*.odif > inbox.txt

Exit status: 0 written; 1 a letter was refused, lacks a page that was asked, or with --strict has text
that was left out; 2 a file could not be read or written.";

/// Writes the text of letters in reading order
///
/// Writes the content of the text units in the order of the objects and their portions: exactly the octets of the file,
/// with a line break after a block that ends without one. Content that was saved in pieces is joined. To a terminal,
/// control characters are written as with --escape. Protected parts are not opened. Notes on standard error name them, say
/// which text units the side does not show and where they stand, and which character set was taken for want of a declared
/// one. Before each of several files stands a line with its name.
#[derive(Args)]
#[command(after_help = EXAMPLES)]
pub struct Words {
    #[command(flatten)]
    files: Files,
    #[command(flatten)]
    how: How,
    /// Exactly the octets of the file and nothing else, whatever they do to a terminal
    #[arg(long, conflicts_with = "utf8")]
    raw: bool,
    /// What is no printable ASCII or line end as \xHH, \r or \t, and \ as \\
    #[arg(long, conflicts_with_all = ["raw", "utf8"])]
    escape: bool,
    /// Text units that are left out, since no object of the side names them, are a refusal
    #[arg(long)]
    strict: bool,
    /// Only the text on this page, or on these, as 2,3. Pages are counted from 1, in stream order; the logical side has none
    #[arg(long, value_name = "N", value_delimiter = ',', value_parser = at_least_one)]
    page: Vec<usize>,
    /// A form feed where the text of another page begins
    #[arg(long, conflicts_with = "raw")]
    form_feeds: bool,
    /// Before each line where its octets stand in the file, as 142..167 (from octet 142 up to the one before 167), and a
    /// tabulator; of a line in pieces or of several units each place, as 38..39,41..42. A line end of the file is one of
    /// the octets; one that a block ends without is not
    #[arg(long, conflicts_with_all = ["raw", "form_feeds"])]
    offsets: bool,
    /// One JSON object a file, with each line, its page, block and unit, its octets and where they stand
    #[arg(long, requires = "offsets")]
    json: bool,
}

const FORM_FEED: &[u8] = b"\x0C";

/// How a letter is read as text.
#[derive(Args)]
pub struct How {
    #[command(flatten)]
    sides: Sides,
    /// The text in UTF-8, from this set of characters. An octet that can't be turned, as of a control function, is
    /// written in hexadecimal, as ⟦1B⟧
    #[arg(long, value_name = "SET", num_args = 0..=1, require_equals = true, default_missing_value = "auto")]
    utf8: Option<Charset>,
}

/// A letter's text, each block ending a line.
pub struct Text {
    pub octets: Vec<u8>,
    pub side: Side,
    /// How many text units the letter has, and how many of them the text has.
    pub units: usize,
    pub shown: usize,
    /// Where the octets of each of the library's lines stand, without the line end behind a block.
    pub places: Vec<Range<usize>>,
    /// The text as the library gave it.
    pub whole: odif::Text,
    /// Are the octets UTF-8, and not those of the file?
    pub is_utf8: bool,
    /// Why a set of characters was taken that the letter does not declare.
    assumed: Option<Assumed>,
}

/// Why a set of characters was taken that no one named.
#[derive(Clone, Copy)]
enum Assumed {
    NoneDeclared,
    SeveralDeclared,
}

impl How {
    /// The text of a letter.
    pub fn text(&self, edition: Edition, stream: &[u8]) -> Result<Text, Refusal> {
        self.text_by(self.utf8, edition, stream)
    }

    /// The text of a letter in UTF-8, whether that was asked or not.
    pub fn text_in_utf8(&self, edition: Edition, stream: &[u8]) -> Result<Text, Refusal> {
        self.text_by(Some(self.utf8.unwrap_or(Charset::Auto)), edition, stream)
    }

    fn text_by(&self, utf8: Option<Charset>, edition: Edition, stream: &[u8]) -> Result<Text, Refusal> {
        let (side, whole) = self.side_and_text(edition, stream)?;
        let (octets, places) = in_blocks(&whole);
        let (octets, places, assumed) = match utf8 {
            None => (octets, places, None),
            Some(set) => in_utf8(stream, octets, places, set),
        };
        let units = Units::of(side, &whole).count();
        Ok(Text { octets, side, units, shown: whole.lines().len(), places, whole, is_utf8: utf8.is_some(), assumed })
    }

    /// The side that is asked for, and its text as the library gives it.
    pub fn side_and_text(&self, edition: Edition, stream: &[u8]) -> Result<(Side, odif::Text), Refusal> {
        self.sides.text(edition, stream)
    }

    /// Octets of a letter's text as UTF-8, and where some places of them, which are in order, are in it. A set that is taken for want of a
    /// declared one is told.
    pub fn characters(
        &self,
        source: &Source<'_>,
        octets: Vec<u8>,
        places: Vec<Range<usize>>,
    ) -> (Vec<u8>, Vec<Range<usize>>) {
        let set = self.utf8.unwrap_or(Charset::Auto);
        let (text, places, assumed) = in_utf8(&source.stream, octets.clone(), places, set);
        note_assumed(source, &octets, &text, assumed);
        (text, places)
    }

    /// The way in words, to tell one way from another: every field that changes a text.
    pub fn words(&self, edition: Edition) -> String {
        self.words_by(self.utf8, edition)
    }

    /// The words for [`How::text_in_utf8`].
    pub fn words_in_utf8(&self, edition: Edition) -> String {
        self.words_by(Some(self.utf8.unwrap_or(Charset::Auto)), edition)
    }

    fn words_by(&self, utf8: Option<Charset>, edition: Edition) -> String {
        let How { sides, utf8: _ } = self;
        let side = sides.word();
        let utf8 = utf8.map_or(String::new(), |set| format!(" utf8={set:?}").to_lowercase());
        let edition = if edition == Edition::Of1988 { String::new() } else { format!(" edition={edition}") };
        format!("{side}{utf8}{edition}")
    }
}

/// Octets of a letter as UTF-8, where some places of them are in it, and what was assumed for that.
fn in_utf8(
    stream: &[u8],
    octets: Vec<u8>,
    places: Vec<Range<usize>>,
    set: Charset,
) -> (Vec<u8>, Vec<Range<usize>>, Option<Assumed>) {
    if charset::is_plain(&octets) {
        return (octets, places, None);
    }
    let (set, assumed) = match set {
        Charset::Auto => match declared(stream) {
            Declared::One(set) => (set, None),
            Declared::None => (charset::ASSUMED, Some(Assumed::NoneDeclared)),
            Declared::Several => (charset::ASSUMED, Some(Assumed::SeveralDeclared)),
        },
        set => (set, None),
    };
    let ends: Vec<usize> = places.iter().flat_map(|place| [place.start, place.end]).collect();
    let (text, ends) = charset::to_utf8_at(&octets, set, &ends);
    let places = ends.chunks(2).map(|ends| ends[0]..ends[1]).collect();
    (text.into_bytes(), places, assumed)
}

/// The set of characters that the presentation attributes of a letter declare.
pub fn declared(stream: &[u8]) -> Declared {
    if !stream.contains(&charset::ESCAPE) {
        return Declared::None;
    }
    let reading = Reading::of(stream);
    let items = reading.tree().items();
    let attributes = items::named(items).filter(|named| named.name() == Some("presentation-attributes"));
    let attributes: Vec<_> = attributes.map(|named| named.item.value()).collect();
    let is_in = |item: &&Item| attributes.iter().any(|around| around.contains(&item.first()));
    let values = items.iter().filter(is_in).filter(|item| !item.is_constructed());
    charset::declared(values.map(|item| &stream[item.value()]))
}

/// Tells on standard error that escape sequences in a text that was turned into UTF-8 designate other sets: they are
/// heeded, and not shown.
fn note_designated(source: &Source<'_>, text: &Text) {
    let (octets, _) = in_blocks(&text.whole);
    let escapes = charset::designations(&octets);
    if escapes > 0 {
        let sequences = show::counted(escapes, "escape sequence");
        tell(&format!(
            "odif: {}: {sequences} in the text designated a character set, and the text is split there\n",
            source.shown
        ));
    }
}

/// Tells on standard error which set of characters was taken, if none was named and another would give other text.
fn note_assumed(source: &Source<'_>, octets: &[u8], text: &[u8], assumed: Option<Assumed>) {
    let depends = || charset::others(charset::ASSUMED).any(|set| charset::to_utf8(octets, set).as_bytes() != text);
    let why = match assumed.filter(|_| depends()) {
        None => return,
        Some(Assumed::NoneDeclared) => "the letter declares no character set",
        Some(Assumed::SeveralDeclared) => "the letter declares several character sets",
    };
    tell(&format!("odif: {}: {why}, so ISO 6937 is taken; with --utf8=SET another is\n", source.shown));
}

pub fn run(words: &Words) -> Outcome {
    let escape = words.escape || !words.raw && words.how.utf8.is_none() && io::stdout().is_terminal();
    input::each(&words.files, words.json, |source| {
        let text = match words.how.text(source.edition, &source.stream) {
            Ok(text) => text,
            refused @ Err(refusal) => {
                match words.json {
                    true => io::stdout().write_all(explain::answer(source, &refused, Offsets::default()).as_bytes())?,
                    false => tell(&explain::refusal(source, &refusal)),
                }
                return Ok(Status::Refused);
            }
        };
        let pages = OnPages::of(text.whole.elements());
        let mut out = BufWriter::new(io::stdout().lock());
        if !words.raw && !words.json {
            input::heading(&mut out, source)?;
        }
        match words.offsets {
            true => write_offsets(&mut out, words, source, &text, &pages, escape)?,
            false => write(&mut out, words, &text, &pages, escape)?,
        }
        out.flush()?;
        note_assumed(source, &in_blocks(&text.whole).0, &text.octets, text.assumed);
        if words.how.utf8.is_some() {
            note_designated(source, &text);
        }
        let all = Units::of(text.side, &text.whole).note(source);
        protected::note(source, text.whole.elements());
        let is_there = has_pages(source, &words.page, text.side, &pages);
        Ok(if is_there && (all || !words.strict) { Status::Accepted } else { Status::Refused })
    })
}

/// Writes what is asked of a text: all of it or some pages, as its octets or escaped, with form feeds or without.
fn write(out: &mut impl Write, words: &Words, text: &Text, pages: &OnPages, escape: bool) -> io::Result<()> {
    let mut before = None;
    for (number, line) in text.whole.lines().iter().enumerate() {
        let page = pages.page(line.element);
        if !words.page.is_empty() && !page.is_some_and(|page| words.page.contains(&page)) {
            continue;
        }
        if words.form_feeds && before.is_some_and(|before| before != page) {
            out.write_all(FORM_FEED)?;
        }
        before = Some(page);
        let octets = if words.raw { text.whole.content(line) } else { text.with_line_end(number) };
        if escape { out.write_all(show::escaped_lines(octets).as_bytes())? } else { out.write_all(octets)? }
    }
    Ok(())
}

/// Writes the lines that are asked of a text with where they stand, for people or as JSON.
fn write_offsets(
    out: &mut impl Write,
    words: &Words,
    source: &Source<'_>,
    text: &Text,
    pages: &OnPages,
    escape: bool,
) -> io::Result<()> {
    let offsets = Offsets::of(source, text, pages).on_pages(&words.page);
    match words.json {
        true => out.write_all(explain::answer(source, &Ok::<_, Refusal>(()), offsets).as_bytes()),
        false => offsets.write(out, escape),
    }
}

/// Has the text all of these pages? What it lacks is told.
fn has_pages(source: &Source<'_>, asked: &[usize], side: Side, pages: &OnPages) -> bool {
    let count = if side == Side::Layout { pages.count() } else { 0 };
    let missing: Vec<String> = asked.iter().filter(|page| **page > count).map(usize::to_string).collect();
    if !missing.is_empty() {
        let has = show::counted(count, "page");
        tell(&format!("odif: {}: the {side} side has {has}, and no page {}\n", source.shown, missing.join(", ")));
    }
    missing.is_empty()
}

impl Text {
    /// The octets of a line, with the line end behind its block.
    fn with_line_end(&self, number: usize) -> &[u8] {
        let past = self.places.get(number + 1).map_or(self.octets.len(), |next| next.start);
        &self.octets[self.places[number].start..past]
    }
}

/// A text with each block ending a line, and where each line's octets are in it.
pub fn in_blocks(whole: &odif::Text) -> (Vec<u8>, Vec<Range<usize>>) {
    let mut text = Vec::with_capacity(whole.octets().len() + whole.lines().len());
    let mut places = Vec::with_capacity(whole.lines().len());
    for block in whole.lines().chunk_by(|one, other| one.element == other.element) {
        for line in block {
            let first = text.len();
            text.extend_from_slice(whole.content(line));
            places.push(first..text.len());
        }
        if text.last().is_some_and(|&last| last != b'\n') {
            text.push(b'\n');
        }
    }
    (text, places)
}
