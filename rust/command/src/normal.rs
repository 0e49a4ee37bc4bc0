//! `odif normal`

use std::collections::BTreeSet;
use std::ffi::{OsStr, OsString};
use std::fs;
use std::io::{self, IsTerminal, Write};
use std::path::{Path, PathBuf};

use clap::Args;

use crate::asked::Files;
use crate::status::{Failure, Outcome, Status, tell};
use crate::{beside, explain, input};

const EXAMPLES: &str = "\
Examples:
  odif normal letter.odif -o normal.odif
  odif normal a.odif | cmp - b-normal.odif
  odif normal inbox/*.odif --into normal

Exit status: 0 written; 1 a letter was refused; 2 a file could not be read or written.";

/// Writes the normal form of letters
///
/// Writes the same items in the same order, each length definite and with the fewest octets. Two letters with the same
/// items have the same normal form. Without -o or --into it is written to standard output, unless that is a terminal;
/// with `-o -` even then.
#[derive(Args)]
#[command(after_help = EXAMPLES)]
pub struct Words {
    #[command(flatten)]
    files: Files,
    /// The file to write, which may be the letter itself; it is left as it was until all is written
    #[arg(short, value_name = "OUT", conflicts_with = "into")]
    out: Option<OsString>,
    /// The folder to write to, each letter under its own name; it is made if it is not there
    #[arg(long, value_name = "FOLDER")]
    into: Option<PathBuf>,
}

pub fn run(words: &Words) -> Outcome {
    let entries = words.files.list()?;
    let files: Vec<&Path> = entries.iter().map(|entry| entry.path.as_path()).collect();
    if words.into.is_none() && files.len() > 1 {
        return Err(Failure::Usage("several letters need `--into FOLDER`".into()));
    }
    if words.out.is_none() && words.into.is_none() && io::stdout().is_terminal() {
        return Err(Failure::Usage("octets are not for a terminal: give `-o OUT`".into()));
    }
    let names: BTreeSet<_> = files.iter().map(|file| file.file_name()).collect();
    if words.into.is_some() && (names.len() < files.len() || names.contains(&None) || files.contains(&Path::new("-"))) {
        return Err(Failure::Usage("with `--into` each letter needs a file name of its own".into()));
    }
    input::each_of(&entries, &words.files, false, |source| {
        let normal = match odif::normal_form_in(source.edition, &source.stream) {
            Ok(normal) => normal,
            Err(refusal) => {
                tell(&explain::refusal(source, &refusal));
                return Ok(Status::Refused);
            }
        };
        match place(words, source.file) {
            Some(place) => {
                make_folder(words)?;
                beside::write(&place, &normal)?
            }
            None => {
                let mut stdout = io::stdout().lock();
                stdout.write_all(&normal)?;
                stdout.flush()?;
            }
        }
        Ok(Status::Accepted)
    })
}

/// Makes the folder to write to, if one is named and not there.
fn make_folder(words: &Words) -> Result<(), Failure> {
    let folder = words.into.as_deref().unwrap_or(Path::new(""));
    if folder.as_os_str().is_empty() {
        return Ok(());
    }
    fs::create_dir_all(folder).map_err(|error| beside::failure(folder, &error))
}

/// Where the normal form of a file goes, if not to standard output.
fn place(words: &Words, file: &OsStr) -> Option<PathBuf> {
    match &words.into {
        Some(folder) => Path::new(file).file_name().map(|name| folder.join(name)),
        None => words.out.as_deref().filter(|out| *out != "-").map(PathBuf::from),
    }
}
