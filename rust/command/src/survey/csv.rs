//! CSV files: one line a record.

use std::io::{self, IsTerminal, Write};
use std::path::Path;

use serde::Serialize;

use crate::beside::{self, Beside};
use crate::show;
use crate::status::Failure;

/// A CSV file that is being written. It takes its place when it is whole.
pub struct Csv {
    name: String,
    lines: csv::Writer<Out>,
}

enum Out {
    File(Beside),
    Stdout(io::Stdout),
    /// No octet of a name may reach a terminal as a control character.
    Terminal(io::Stdout),
}

impl Write for Out {
    fn write(&mut self, octets: &[u8]) -> io::Result<usize> {
        match self {
            Out::File(file) => file.write(octets),
            Out::Stdout(out) => out.write(octets),
            Out::Terminal(out) => {
                out.write_all(show::shielded(octets).as_bytes())?;
                Ok(octets.len())
            }
        }
    }

    fn flush(&mut self) -> io::Result<()> {
        match self {
            Out::File(file) => file.flush(),
            Out::Stdout(out) | Out::Terminal(out) => out.flush(),
        }
    }
}

/// Does `-` stand for the file?
pub fn is_standard_output(file: &Path) -> bool {
    file.as_os_str() == "-"
}

impl Csv {
    /// Begins the file, or standard output for `-`, with a line of column names.
    pub fn create(file: &Path, columns: &[&str]) -> Result<Csv, Failure> {
        let (name, out) = match is_standard_output(file) {
            true if io::stdout().is_terminal() => ("standard output".into(), Out::Terminal(io::stdout())),
            true => ("standard output".into(), Out::Stdout(io::stdout())),
            false => {
                beside::remove_leftovers(file);
                (show::name(file.as_os_str()), Out::File(Beside::create(file)?))
            }
        };
        let mut lines = csv::WriterBuilder::new().has_headers(false).from_writer(out);
        match lines.write_record(columns) {
            Ok(()) => Ok(Csv { name, lines }),
            Err(error) => Err(failure(&name, written(error))),
        }
    }

    /// Adds a line.
    pub fn add(&mut self, record: &impl Serialize) -> Result<(), Failure> {
        self.lines.serialize(record).map_err(|error| failure(&self.name, written(error)))
    }

    /// Puts the finished file in its place.
    pub fn finish(self) -> Result<(), Failure> {
        let Csv { name, lines } = self;
        match lines.into_inner() {
            Ok(Out::File(file)) => file.finish(),
            Ok(Out::Stdout(mut out) | Out::Terminal(mut out)) => out.flush().map_err(|error| failure(&name, error)),
            Err(error) => Err(failure(&name, io::Error::new(error.error().kind(), error.error().to_string()))),
        }
    }
}

/// What went wrong as the writer below has it, with its kind.
fn written(error: csv::Error) -> io::Error {
    match error.into_kind() {
        csv::ErrorKind::Io(error) => error,
        other => io::Error::other(format!("{other:?}")),
    }
}

fn failure(name: &str, error: io::Error) -> Failure {
    match error.kind() {
        io::ErrorKind::BrokenPipe => Failure::Output(error),
        _ => Failure::File(format!("{name}: {error}")),
    }
}
