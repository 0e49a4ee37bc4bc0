//! How a run ends.

use std::io::{self, Write};
use std::process::ExitCode;

/// How a run ended, from best to worst; the worst of several counts.
#[derive(Clone, Copy, Debug, PartialEq, Eq, PartialOrd, Ord)]
pub enum Status {
    /// Everything was accepted and answered.
    Accepted,
    /// Something was refused.
    Refused,
    /// Something could not be read or written, or the command was misused.
    Failed,
    /// The independent reader answers something else than the library, or a file that is read once more has other octets.
    Differing,
}

impl Status {
    /// That of a verdict.
    pub fn of<T, E>(verdict: &Result<T, E>) -> Status {
        if verdict.is_ok() { Status::Accepted } else { Status::Refused }
    }

    /// The exit status of the process.
    pub fn exit_code(self) -> ExitCode {
        ExitCode::from(self as u8)
    }
}

/// What ends a run at once.
pub enum Failure {
    /// The words of the command make no sense.
    Usage(String),
    /// A file can't be read or written.
    File(String),
    /// Standard output can't be written.
    Output(io::Error),
    /// The user ended it: what was left as it was.
    Cut(String),
}

impl From<io::Error> for Failure {
    fn from(error: io::Error) -> Self {
        Failure::Output(error)
    }
}

/// What a subcommand gives back.
pub type Outcome = Result<Status, Failure>;

/// Tells something on standard error. Where even that fails, no one is left to tell.
pub fn tell(text: &str) {
    let _ = io::stderr().write_all(text.as_bytes());
}
