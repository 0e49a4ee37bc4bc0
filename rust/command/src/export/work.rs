//! The work on one file of the archive.

use std::fs;
use std::path::Path;

use super::clashes::Clashes;
use super::earlier::Earlier;
use super::folder::Folder;
use super::journal::Journal;
use super::line::{Became, Line};
use super::text::{self, There};
use super::{Words, source};
use crate::faults::Fault;
use crate::files::Entry;
use crate::status::Failure;
use crate::text::Text;
use crate::{beside, date, identity};

/// What the work on each file needs.
pub struct Work<'a> {
    pub words: &'a Words,
    pub archive: &'a Path,
    pub folder: &'a Folder,
    pub earlier: &'a Earlier,
    pub journal: &'a Journal,
    pub clashes: Clashes,
    /// Every word that changes a text.
    pub how: String,
}

/// The line of a file, and whether an earlier run had done it.
pub struct Done {
    pub line: Line,
    pub before: bool,
}

impl Work<'_> {
    /// Gives the line of a file. When it is given, the text that it tells of is in its place, and no other.
    pub fn on(&self, entry: &Entry) -> Result<Done, Failure> {
        let file = below(self.archive, &entry.path);
        let place = self.folder.text(file);
        let blank = Line::new(file, &self.how);
        if let Some(line) = self.done_before(entry, &blank, &place) {
            return Ok(Done { line, before: true });
        }
        let (line, octets) = self.read(entry, blank);
        let line = match octets {
            Some(octets) => match self.obstacle(file, &place) {
                None => self.write(line, &octets, &place),
                Some(reason) => self.leave_none(line.unwritable(reason.into()), &place),
            },
            None => self.leave_none(line, &place),
        }?;
        Ok(Done { line, before: false })
    }

    /// Why the text can't have its place, by the names alone.
    fn obstacle(&self, file: &Path, place: &Path) -> Option<&'static str> {
        if text::is_own(file) {
            Some("its folder would have the name of one of the export's own files")
        } else if self.clashes.has(place) {
            Some("a folder of the archive has the name of its text")
        } else {
            None
        }
    }

    /// The line that an earlier run wrote, if all that it tells is so still: the source is in the state in which it was
    /// read, the words, the library and the command are those of then, and the text has these octets.
    fn done_before(&self, entry: &Entry, blank: &Line, place: &Path) -> Option<Line> {
        let lines = self.earlier.of(&blank.name());
        if lines.is_empty() || entry.trouble.is_some() || !identity::is_known() {
            return None;
        }
        let fresh = blank.clone().stamped(&fs::metadata(&entry.path).ok()?);
        let mut lines = lines.iter().rev().filter(|line| line.is_of(&fresh)).peekable();
        lines.peek()?;
        let there = There::at(place);
        let line = lines.find(|line| line.tells_of(&there))?;
        let outcome = line.when_there();
        if outcome == line.outcome { Some(line.clone()) } else { Some(Line { outcome, ..line.clone() }.sealed()) }
    }

    /// Reads a file: the line that it is to have, and its text if it is a letter.
    fn read(&self, entry: &Entry, blank: Line) -> (Line, Option<Vec<u8>>) {
        let unreadable = |reason| (Line { outcome: Became::Unreadable, reason, ..blank.clone() }.sealed(), None);
        if let Some(trouble) = &entry.trouble {
            return unreadable(trouble.clone());
        }
        let (line, stream) = match source::read(&entry.path, self.words.hex, &blank) {
            Ok(read) => read,
            Err(error) => return unreadable(error.to_string()),
        };
        let edition = self.words.by.edition();
        match self.words.how.text(edition, &stream) {
            Ok(text) => (accepted(line, &text, date::column(edition, &stream)).sealed(), Some(text.octets)),
            Err(refusal) => {
                let Fault { number, place, detail: reason, .. } = Fault::of(edition, &stream, &refusal);
                let (number, place) = (Some(number), Some(place));
                (Line { outcome: Became::Refused, number, place, reason, ..line }.sealed(), None)
            }
        }
    }

    /// Writes a text apart, tells the line, and then gives the text its place.
    fn write(&self, line: Line, octets: &[u8], place: &Path) -> Result<Line, Failure> {
        let staged = self.folder.write(octets)?;
        self.journal.announce(&line)?;
        match self.folder.put(staged, place) {
            Ok(()) => Ok(line),
            Err(error) if text::is_of_disk(&error) => Err(beside::failure(place, &error)),
            Err(error) => self.leave_none(line.unwritable(error.to_string()), place),
        }
    }

    /// Tells the line, and then takes away what stands in the place of the text.
    fn leave_none(&self, line: Line, place: &Path) -> Result<Line, Failure> {
        let line = line.sealed();
        self.journal.announce(&line)?;
        match text::withdraw(&self.folder.out, place) {
            Ok(()) => Ok(line),
            Err(error) if text::is_of_disk(&error) => Err(beside::failure(place, &error)),
            Err(error) => Ok(line.unwritable(format!("what stands in its text's place stays: {error}")).sealed()),
        }
    }
}

fn accepted(line: Line, text: &Text, date: String) -> Line {
    Line {
        outcome: Became::Accepted,
        number: Some(0),
        place: Some(0),
        side: text.side.to_string(),
        units: Some(text.units),
        left_out: Some(text.units - text.shown),
        text_octets: Some(text.octets.len() as u64),
        text_sha256: crate::hash::of(&text.octets),
        date,
        ..line
    }
}

/// The file's name below the archive's folder.
pub fn below<'a>(archive: &Path, file: &'a Path) -> &'a Path {
    match file.strip_prefix(archive) {
        Ok(below) if !below.as_os_str().is_empty() => below,
        _ => file.file_name().map_or(file, Path::new),
    }
}
