//! A line of the manifest, and of the journal: what became of one file of the archive.

use std::fs::Metadata;
use std::os::unix::fs::MetadataExt;
use std::path::Path;

use serde::{Deserialize, Serialize};

use super::text::There;
use crate::names::Name;
use crate::{hash, identity};

/// The names of the columns.
#[rustfmt::skip]
pub const COLUMNS: [&str; 21] = [
    "file", "outcome", "number", "place", "octets", "modified", "how", "side", "units", "left_out", "text_octets",
    "text_sha256", "reason", "sha256", "changed", "inode", "library", "command", "seal", "date", "file_octets",
];

/// What became of a file.
#[derive(Clone, Copy, Debug, Default, PartialEq, Eq, Serialize, Deserialize)]
#[serde(rename_all = "lowercase")]
pub enum Became {
    /// A letter, whose text is there.
    Accepted,
    Refused,
    #[default]
    Unreadable,
    /// A letter whose text can't be put in its place.
    Unwritable,
    /// It is not in the archive any more. The rest of the line is as it was when it was.
    Gone,
    /// The folder that it was in can't be read, so no one knows. The rest of the line is as it was before.
    Unseen,
}

/// A file of the archive. The fields are the columns, in their order.
#[derive(Clone, Default, PartialEq, Eq, Serialize, Deserialize)]
pub struct Line {
    /// The name below the archive's folder. Its text, if it is a letter, has the same name with `.txt` behind it.
    pub file: String,
    pub outcome: Became,
    pub number: Option<u32>,
    pub place: Option<usize>,
    pub octets: Option<u64>,
    /// When the file's octets were last written, in seconds and nanoseconds since 1970.
    pub modified: String,
    /// Every word of the command that changes a text.
    pub how: String,
    pub side: String,
    pub units: Option<usize>,
    pub left_out: Option<usize>,
    pub text_octets: Option<u64>,
    pub text_sha256: String,
    pub reason: String,
    /// The hash of the file's octets; empty where it is longer than any stream, and so was not read to its end.
    pub sha256: String,
    /// When anything of the file was last changed: no program can set this time.
    pub changed: String,
    pub inode: Option<u64>,
    /// The SHA-256 of the library that read it, and the command that asked.
    pub library: String,
    pub command: String,
    /// The beginning of the hash of this line with nothing in this place. A line that lacks it was cut or altered.
    pub seal: String,
    /// The date of the document, of a letter that was accepted.
    pub date: String,
    pub file_octets: String,
}

/// So many digits of the hash are a seal: enough to tell what was cut or damaged.
const SEAL: usize = 16;

impl Line {
    /// What is known of a file before it is looked at.
    pub fn new(file: &Path, how: &str) -> Line {
        let Name { file, file_octets } = Name::in_cell(file.as_os_str());
        let (library, command) = (identity::LIBRARY.into(), identity::COMMAND.into());
        Line { file, how: how.into(), library, command, file_octets, ..Line::default() }
    }

    /// The line with the state of the file: whatever is written to it later, or put in its place, has another.
    pub fn stamped(self, about: &Metadata) -> Line {
        let time = |seconds: i64, nanoseconds: i64| format!("{seconds}.{nanoseconds:09}");
        Line {
            octets: Some(about.len()),
            modified: time(about.mtime(), about.mtime_nsec()),
            changed: time(about.ctime(), about.ctime_nsec()),
            inode: Some(about.ino()),
            ..self
        }
    }

    /// Is this the file in the same state?
    pub fn has_stamp_of(&self, other: &Line) -> bool {
        let (times, others) = ((&self.modified, &self.changed), (&other.modified, &other.changed));
        (self.octets, self.inode, times) == (other.octets, other.inode, others)
    }

    /// Was the file in this state read with the same words by the same library and command?
    pub fn is_of(&self, fresh: &Line) -> bool {
        let (by, fresh_by) = ((&self.library, &self.command), (&fresh.library, &fresh.command));
        self.has_stamp_of(fresh) && (&self.how, by) == (&fresh.how, fresh_by)
    }

    /// The file's name.
    pub fn name(&self) -> Name {
        Name { file: self.file.clone(), file_octets: self.file_octets.clone() }
    }

    /// What became of the file when it was last there.
    pub fn when_there(&self) -> Became {
        match (self.outcome, self.number) {
            (Became::Gone | Became::Unseen, Some(0)) => Became::Accepted,
            (Became::Gone | Became::Unseen, Some(_)) => Became::Refused,
            (Became::Gone | Became::Unseen, None) => Became::Unreadable,
            (outcome, _) => outcome,
        }
    }

    /// Is there a text with this line?
    pub fn has_text(&self) -> bool {
        !self.text_sha256.is_empty()
    }

    /// Is this what the line says of the text? A letter that was refused has none.
    pub fn tells_of(&self, there: &There) -> bool {
        match there {
            There::Text { octets, sha256 } => self.text_octets == Some(*octets) && self.text_sha256 == *sha256,
            There::Nothing => self.when_there() == Became::Refused,
            There::Other => false,
        }
    }

    /// The line without a text.
    pub fn without_text(self) -> Line {
        Line { text_octets: None, text_sha256: String::new(), ..self }
    }

    /// A letter whose text can't be put in its place, or taken from it.
    pub fn unwritable(self, reason: String) -> Line {
        Line { outcome: Became::Unwritable, reason, ..self.without_text() }
    }

    /// The line with its seal.
    pub fn sealed(self) -> Line {
        let open = Line { seal: String::new(), ..self };
        let seal = hash::of(&open.record())[..SEAL].into();
        Line { seal, ..open }
    }

    /// Has the line its seal?
    pub fn is_whole(&self) -> bool {
        !self.seal.is_empty() && self.clone().sealed().seal == self.seal
    }

    /// The line as it stands in a file, with its line end.
    pub fn record(&self) -> Vec<u8> {
        let mut record = csv::WriterBuilder::new().has_headers(false).buffer_capacity(1_024).from_writer(Vec::new());
        record.serialize(self).expect("each field is a cell");
        record.into_inner().expect("memory takes it")
    }
}

#[cfg(test)]
mod tests {
    use super::*;

    fn line() -> Line {
        let line = Line::new(Path::new("a\n\"b\",=1.odif"), "auto");
        Line { number: Some(7), place: Some(21), reason: "cut, \"x\"".into(), ..line }.sealed()
    }

    fn read(octets: &[u8]) -> Vec<Line> {
        let lines = csv::ReaderBuilder::new().has_headers(false).from_reader(octets).into_deserialize();
        lines.filter_map(Result::ok).filter(Line::is_whole).collect()
    }

    #[test]
    fn a_line_is_read_as_it_was_written() {
        assert!(read(&line().record()) == [line()]);
        let names = csv::ReaderBuilder::new().from_reader(&b""[..]).into_deserialize::<Line>().count();
        assert_eq!((names, line().record().split(|&octet| octet == b',').count() >= COLUMNS.len()), (0, true));
    }

    #[test]
    fn a_line_is_of_the_words_the_library_and_the_state_that_it_tells() {
        let (line, other) = (line(), || String::from("other"));
        assert!(line.is_of(&Line { outcome: Became::Accepted, reason: other(), seal: other(), ..line.clone() }));
        for fresh in [
            Line { how: other(), ..line.clone() },
            Line { library: other(), ..line.clone() },
            Line { command: other(), ..line.clone() },
            Line { octets: Some(7), ..line.clone() },
            Line { modified: other(), ..line.clone() },
            Line { changed: other(), ..line.clone() },
            Line { inode: Some(7), ..line.clone() },
        ] {
            assert!(!line.is_of(&fresh), "{}", String::from_utf8_lossy(&fresh.record()));
        }
    }

    #[test]
    fn a_line_that_is_cut_or_altered_is_none() {
        let record = line().record();
        for cut in 0..record.len() - 1 {
            assert!(read(&record[..cut]).is_empty(), "{cut}");
        }
        for place in 0..record.len() - 1 {
            let mut altered = record.clone();
            altered[place] ^= 1;
            assert!(read(&altered).iter().all(|read| *read == line()), "{place}");
        }
    }
}
