//! What a catalog has of one file.

use std::path::{Path, PathBuf};

use odif::Edition;
use sha2::{Digest, Sha256};

use crate::export::line::{Became, Line};
use crate::export::source;
use crate::faults::Fault;
use crate::files::Entry;
use crate::names::Name;
use crate::on_pages::OnPages;
use crate::text::{How, Text};
use crate::{date, hash, show};

/// A row of `letters`, with its rows of `lines`.
#[derive(Clone)]
pub struct Row {
    /// What an export has of the file too. Its text is not there: in the place of the text's hash stands that of all else that
    /// this row has.
    pub line: Line,
    /// The hash of the normal form: two letters with the same items have one. Empty of what is no letter.
    pub normal_sha256: String,
    pub pages: Option<usize>,
    pub texts: Vec<TextLine>,
}

/// The text of one unit, where it stands in reading order.
#[derive(Clone)]
pub struct TextLine {
    /// From 1.
    pub page: Option<usize>,
    /// The class or object, by its number among the elements and by its identifier.
    pub element: usize,
    pub block: String,
    pub portion: usize,
    pub unit: usize,
    /// Where the value stands in the file that is the unit's content, or that holds the pieces of it.
    pub first: usize,
    pub past: usize,
    pub in_pieces: bool,
    pub text: String,
}

/// How files are read.
pub struct Asked<'a> {
    pub how: &'a How,
    pub hex: bool,
    pub edition: Edition,
    /// The words for it.
    pub words: String,
}

impl Asked<'_> {
    /// What is known of a file before it is looked at.
    pub fn blank(&self, path: &Path) -> Line {
        let Name { file, file_octets } = Name::of(path.as_os_str());
        Line { file, file_octets, ..Line::new(Path::new(""), &self.words) }
    }

    /// Reads a file.
    pub fn read(&self, entry: &Entry) -> Row {
        let blank = self.blank(&entry.path);
        let unreadable = |reason| Row::new(Line { outcome: Became::Unreadable, reason, ..blank.clone() });
        if let Some(trouble) = &entry.trouble {
            return unreadable(trouble.clone());
        }
        match source::read(&entry.path, self.hex, &blank) {
            Ok((line, stream)) => self.judge(line, &stream),
            Err(error) => unreadable(error.to_string()),
        }
    }

    fn judge(&self, line: Line, stream: &[u8]) -> Row {
        match self.how.text_in_utf8(self.edition, stream) {
            Ok(text) => Row::accepted(line, self.edition, stream, &text),
            Err(refusal) => {
                let Fault { number, place, detail: reason, .. } = Fault::of(self.edition, stream, &refusal);
                let (number, place) = (Some(number), Some(place));
                Row::new(Line { outcome: Became::Refused, number, place, reason, ..line })
            }
        }
    }
}

impl Row {
    fn new(line: Line) -> Row {
        Row { line, normal_sha256: String::new(), pages: None, texts: Vec::new() }.sealed()
    }

    fn accepted(line: Line, edition: Edition, stream: &[u8], text: &Text) -> Row {
        let pages = OnPages::of(text.whole.elements());
        let line = Line {
            outcome: Became::Accepted,
            number: Some(0),
            place: Some(0),
            side: text.side.to_string(),
            units: Some(text.units),
            left_out: Some(text.units - text.shown),
            date: date::column(edition, stream),
            ..line
        };
        let normal_sha256 = odif::normal_form_in(edition, stream).map_or(String::new(), |normal| hash::of(&normal));
        Row { line, normal_sha256, pages: Some(pages.count()), texts: texts(stream, text, &pages) }.sealed()
    }

    /// The row with its seal.
    fn sealed(self) -> Row {
        let line = Line { text_sha256: self.rest_sha256(), ..self.line };
        Row { line: line.sealed(), ..self }
    }

    /// Is the row as it was written?
    pub fn is_whole(&self) -> bool {
        self.line.is_whole() && self.line.text_sha256 == self.rest_sha256()
    }

    /// This row with another outcome.
    pub fn with_outcome(self, outcome: Became) -> Row {
        let line = Line { outcome, ..self.line };
        Row { line: line.sealed(), ..self }
    }

    /// The name of the file as the system has it.
    pub fn path(&self) -> Option<PathBuf> {
        self.line.name().system().map(PathBuf::from)
    }

    /// The hash of all that is not in the line.
    fn rest_sha256(&self) -> String {
        let mut hasher = Sha256::new();
        hasher.update(format!("{} {:?} {}\n", self.normal_sha256, self.pages, self.texts.len()));
        for TextLine { page, element, block, portion, unit, first, past, in_pieces, text } in &self.texts {
            let numbers = format!("{page:?} {element} {portion} {unit} {first} {past} {in_pieces}");
            hasher.update(format!("{numbers} {} {}\n{block}\n", block.len(), text.len()));
            hasher.update(text);
        }
        hash::lower_hex(&hasher.finalize())
    }
}

/// The lines of a text.
fn texts(stream: &[u8], text: &Text, pages: &OnPages) -> Vec<TextLine> {
    let (whole, elements) = (&text.whole, text.whole.elements());
    let lines = whole.lines().iter().zip(&text.places).map(|(line, place)| {
        let content = elements[line.unit].content.clone().unwrap_or_default();
        let identifier = elements[line.element].identifier.clone().unwrap_or_default();
        TextLine {
            page: pages.page(line.element),
            element: line.element,
            block: show::escaped(&stream[identifier]),
            portion: line.portion,
            unit: line.unit,
            first: content.start,
            past: content.end,
            // A piece has a header, so the value that holds pieces is longer than they are.
            in_pieces: line.place.len() < content.len(),
            text: String::from_utf8_lossy(&text.octets[place.clone()]).into(),
        }
    });
    lines.collect()
}
