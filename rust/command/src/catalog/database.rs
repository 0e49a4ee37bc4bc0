//! The SQLite file of a catalog: how it is written, and how one is read again.

use std::collections::HashMap;
use std::fs;
use std::path::{Path, PathBuf};

use rusqlite::{Connection, OpenFlags, Row as Found, params};

use super::row::{Row, TextLine};
use crate::beside::{self, Beside};
use crate::export::line::{Became, Line};
use crate::show;
use crate::status::Failure;

/// What SQLite's own header says of a catalog: `ODIF`, and the number of these tables.
const APPLICATION: i64 = 0x4F44_4946;
const TABLES: i64 = 1;

/// Nothing here tells of the run or of the machine, and rows are added in the order of the names, so one set of rows is one
/// file, octet by octet.
const BEGIN: &str = "
    PRAGMA page_size = 4096;
    PRAGMA journal_mode = OFF;
    PRAGMA synchronous = OFF;
    PRAGMA locking_mode = EXCLUSIVE;
    PRAGMA cache_size = -65536;
    BEGIN;
    CREATE TABLE letters (
        id INTEGER PRIMARY KEY, -- in the order of the names
        file TEXT NOT NULL, -- the name, as it was found
        outcome TEXT NOT NULL, -- accepted, refused, unreadable, gone, unseen
        number INTEGER, -- the refusal, or 0
        place INTEGER,
        reason TEXT NOT NULL,
        edition INTEGER NOT NULL,
        date TEXT, -- of the document
        octets INTEGER,
        sha256 TEXT NOT NULL,
        normal_sha256 TEXT NOT NULL, -- of the normal form
        first INTEGER REFERENCES letters, -- the first letter that is the same: itself, if none is before it
        side TEXT NOT NULL,
        pages INTEGER,
        units INTEGER,
        left_out INTEGER,
        how TEXT NOT NULL, -- every word that changes a text
        library TEXT NOT NULL,
        command TEXT NOT NULL,
        modified TEXT NOT NULL,
        changed TEXT NOT NULL,
        inode INTEGER,
        file_octets TEXT NOT NULL, -- the name in hexadecimal, where it is no UTF-8
        rest_sha256 TEXT NOT NULL, -- of the normal form's hash, the pages and the lines
        seal TEXT NOT NULL
    );
    CREATE TABLE lines (
        id INTEGER PRIMARY KEY, -- in reading order
        letter INTEGER NOT NULL REFERENCES letters,
        page INTEGER, -- from 1
        element INTEGER NOT NULL, -- the block, by its number among the elements, and by its identifier
        block TEXT NOT NULL,
        portion INTEGER NOT NULL,
        unit INTEGER NOT NULL,
        first INTEGER NOT NULL, -- the content in the file, or what holds the pieces of it
        past INTEGER NOT NULL,
        in_pieces INTEGER NOT NULL,
        text TEXT NOT NULL
    );
    CREATE VIRTUAL TABLE search USING fts5(
        text, content = 'lines', content_rowid = 'id', tokenize = 'unicode61 remove_diacritics 2'
    );";

const END: &str = "
    CREATE UNIQUE INDEX letters_by_name ON letters (file, file_octets);
    CREATE INDEX letters_by_first ON letters (first);
    CREATE INDEX letters_by_date ON letters (date);
    CREATE INDEX lines_by_letter ON lines (letter);
    INSERT INTO search (search) VALUES ('rebuild');
    COMMIT;";

const ADD_LETTER: &str = "INSERT INTO letters VALUES
    (?, ?, ?, ?, ?, ?, ?, ?, ?, ?, ?, ?, ?, ?, ?, ?, ?, ?, ?, ?, ?, ?, ?, ?, ?)";
const ADD_LINE: &str = "INSERT INTO lines VALUES (?, ?, ?, ?, ?, ?, ?, ?, ?, ?, ?)";

const LETTERS: &str =
    "SELECT id, file, outcome, number, place, reason, date, octets, sha256, normal_sha256, side, pages,
    units, left_out, how, library, command, modified, changed, inode, file_octets, rest_sha256, seal FROM letters";
const LINES: &str = "SELECT page, element, block, portion, unit, first, past, in_pieces, text FROM lines
    WHERE letter = ? ORDER BY id";

const OUTCOMES: [(Became, &str); 6] = [
    (Became::Accepted, "accepted"),
    (Became::Refused, "refused"),
    (Became::Unreadable, "unreadable"),
    (Became::Unwritable, "unwritable"),
    (Became::Gone, "gone"),
    (Became::Unseen, "unseen"),
];

/// A catalog that is being written beside its place. It takes the place when it is whole.
pub struct Writer {
    out: PathBuf,
    connection: Connection,
    beside: Beside,
    letters: i64,
    lines: i64,
    /// The first letter with each normal form.
    firsts: HashMap<String, i64>,
}

impl Writer {
    /// Begins a catalog.
    pub fn create(out: &Path) -> Result<Writer, Failure> {
        beside::remove_leftovers(out);
        let beside = Beside::create(out)?;
        let Some(part) = beside.part() else {
            let out = show::name(out.as_os_str());
            return Err(Failure::File(format!("{out}: a catalog can be written to a plain file alone")));
        };
        let connection = Connection::open(part).map_err(|error| failure(out, &error))?;
        let begun = connection.pragma_update(None, "application_id", APPLICATION);
        let begun = begun.and_then(|()| connection.pragma_update(None, "user_version", TABLES));
        begun.and_then(|()| connection.execute_batch(BEGIN)).map_err(|error| failure(out, &error))?;
        Ok(Writer { out: out.into(), connection, beside, letters: 0, lines: 0, firsts: HashMap::new() })
    }

    /// Adds a letter, whose name comes after those that were added.
    pub fn add(&mut self, row: &Row) -> Result<(), Failure> {
        self.letters += 1;
        let first = match row.line.number {
            Some(0) if row.normal_sha256.is_empty() => Some(self.letters),
            Some(0) => Some(*self.firsts.entry(row.normal_sha256.clone()).or_insert(self.letters)),
            _ => None,
        };
        let added =
            self.add_letter(row, first).and_then(|()| row.texts.iter().try_for_each(|line| self.add_line(line)));
        added.map_err(|error| failure(&self.out, &error))
    }

    fn add_letter(&self, row: &Row, first: Option<i64>) -> rusqlite::Result<()> {
        let Row { line, normal_sha256, pages, .. } = row;
        let edition = if line.how.contains("edition=1993") { 1993 } else { 1988 };
        let date = Some(&line.date).filter(|date| !date.is_empty());
        let outcome = OUTCOMES.iter().find(|(became, _)| *became == line.outcome).map(|(_, word)| word);
        self.connection.prepare_cached(ADD_LETTER)?.execute(params![
            self.letters,
            line.file,
            outcome,
            line.number,
            line.place,
            line.reason,
            edition,
            date,
            line.octets,
            line.sha256,
            normal_sha256,
            first,
            line.side,
            pages,
            line.units,
            line.left_out,
            line.how,
            line.library,
            line.command,
            line.modified,
            line.changed,
            line.inode,
            line.file_octets,
            line.text_sha256,
            line.seal,
        ])?;
        Ok(())
    }

    fn add_line(&mut self, line: &TextLine) -> rusqlite::Result<()> {
        self.lines += 1;
        let TextLine { page, element, block, portion, unit, first, past, in_pieces, text } = line;
        let numbers =
            params![self.lines, self.letters, page, element, block, portion, unit, first, past, in_pieces, text];
        self.connection.prepare_cached(ADD_LINE)?.execute(numbers)?;
        Ok(())
    }

    /// Makes the indexes, and puts the catalog in its place, on the disk.
    pub fn finish(self) -> Result<(), Failure> {
        let Writer { out, connection, beside, .. } = self;
        connection.execute_batch(END).map_err(|error| failure(&out, &error))?;
        connection.close().map_err(|(_, error)| failure(&out, &error))?;
        no_one_writes_to(&out)?;
        beside.finish()
    }
}

/// What SQLite would put beside the file for someone who writes to it: it would take that for what is new in its place.
fn no_one_writes_to(out: &Path) -> Result<(), Failure> {
    for end in ["-journal", "-wal"] {
        let mut name = out.as_os_str().to_os_string();
        name.push(end);
        if fs::metadata(&name).is_ok_and(|about| about.len() > 0) {
            let name = show::name(&name);
            return Err(Failure::File(format!("{name}: some other program writes to the catalog; let it end first")));
        }
    }
    Ok(())
}

/// A catalog that is read.
pub struct Reader {
    path: PathBuf,
    connection: Connection,
}

impl Reader {
    /// Opens the catalog that stands there. What is there and is no catalog is never written over.
    pub fn open(path: &Path) -> Result<Reader, Failure> {
        no_one_writes_to(path)?;
        let flags = OpenFlags::SQLITE_OPEN_READ_ONLY | OpenFlags::SQLITE_OPEN_NO_MUTEX;
        let connection = Connection::open_with_flags(path, flags).map_err(|error| failure(path, &error))?;
        let number = |name| connection.pragma_query_value(None, name, |row| row.get::<_, i64>(0));
        if !number("application_id").is_ok_and(|number| number == APPLICATION) {
            return Err(Failure::File(format!("{}: this is no catalog; move it away", show::name(path.as_os_str()))));
        }
        if !number("user_version").is_ok_and(|number| number == TABLES) {
            let path = show::name(path.as_os_str());
            return Err(Failure::File(format!("{path}: this is a catalog of another version of odif; move it away")));
        }
        Ok(Reader { path: path.into(), connection })
    }

    /// The rows of all letters with their numbers, without their lines.
    pub fn letters(&self) -> Result<Vec<(i64, Row)>, Failure> {
        let rows = || {
            let mut query = self.connection.prepare(&format!("{LETTERS} ORDER BY id"))?;
            query.query_map([], letter)?.collect::<rusqlite::Result<Vec<_>>>()
        };
        rows().map_err(|error| failure(&self.path, &error))
    }

    /// A letter with its lines, if it is as it was written.
    pub fn whole(&self, id: i64) -> Option<Row> {
        let row = || {
            let mut query = self.connection.prepare_cached(&format!("{LETTERS} WHERE id = ?"))?;
            let (_, row) = query.query_row([id], letter)?;
            let mut query = self.connection.prepare_cached(LINES)?;
            let texts = query.query_map([id], line)?.collect::<rusqlite::Result<Vec<_>>>()?;
            Ok::<_, rusqlite::Error>(Row { texts, ..row })
        };
        row().ok().filter(Row::is_whole)
    }
}

fn letter(row: &Found<'_>) -> rusqlite::Result<(i64, Row)> {
    let outcome: String = row.get("outcome")?;
    let outcome = OUTCOMES.iter().find(|(_, word)| *word == outcome).map(|(became, _)| *became);
    let line = Line {
        file: row.get("file")?,
        outcome: outcome.unwrap_or_default(),
        number: row.get("number")?,
        place: row.get("place")?,
        octets: row.get("octets")?,
        modified: row.get("modified")?,
        how: row.get("how")?,
        side: row.get("side")?,
        units: row.get("units")?,
        left_out: row.get("left_out")?,
        text_octets: None,
        text_sha256: row.get("rest_sha256")?,
        reason: row.get("reason")?,
        sha256: row.get("sha256")?,
        changed: row.get("changed")?,
        inode: row.get("inode")?,
        library: row.get("library")?,
        command: row.get("command")?,
        seal: row.get("seal")?,
        date: row.get::<_, Option<String>>("date")?.unwrap_or_default(),
        file_octets: row.get("file_octets")?,
    };
    let (normal_sha256, pages) = (row.get("normal_sha256")?, row.get("pages")?);
    Ok((row.get("id")?, Row { line, normal_sha256, pages, texts: Vec::new() }))
}

fn line(row: &Found<'_>) -> rusqlite::Result<TextLine> {
    Ok(TextLine {
        page: row.get("page")?,
        element: row.get("element")?,
        block: row.get("block")?,
        portion: row.get("portion")?,
        unit: row.get("unit")?,
        first: row.get("first")?,
        past: row.get("past")?,
        in_pieces: row.get("in_pieces")?,
        text: row.get("text")?,
    })
}

fn failure(path: &Path, error: &rusqlite::Error) -> Failure {
    Failure::File(format!("{}: {error}", show::name(path.as_os_str())))
}
