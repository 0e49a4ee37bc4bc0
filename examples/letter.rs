//! Shows the text of a letter in reading order: `letter FILE`. It ends with status 1 if the letter is refused, and with 2
//! if it cannot be read.

use std::env;
use std::fs::File;
use std::io::{self, Read, Write};
use std::path::{Path, PathBuf};
use std::process::ExitCode;

use odif::Side;

fn main() -> ExitCode {
    let file = PathBuf::from(env::args_os().nth(1).unwrap_or("/dev/stdin".into()));
    let stream = match read(&file) {
        Ok(stream) => stream,
        Err(error) => return fail(2, &format!("{}: {error}", file.display())),
    };
    match text(&stream) {
        Err(refusal) => fail(1, &format!("refused, {refusal}")),
        Ok(text) => match io::stdout().write_all(&text) {
            Ok(()) => ExitCode::SUCCESS,
            Err(error) => fail(2, &error.to_string()),
        },
    }
}

/// All of a file that matters: an octet more than a stream may have is one too many, and so is any number of them.
fn read(file: &Path) -> io::Result<Vec<u8>> {
    let mut stream = Vec::new();
    File::open(file)?
        .take(odif::STREAM_LIMIT as u64 + 1)
        .read_to_end(&mut stream)?;
    Ok(stream)
}

/// The text of the layout side, or, where there is none, of the logical side. Each unit ends its line.
fn text(stream: &[u8]) -> Result<Vec<u8>, odif::Refusal> {
    let mut whole = odif::text(stream, Side::Layout)?;
    if whole.lines().is_empty() {
        whole = odif::text(stream, Side::Logical)?;
    }
    let mut text = Vec::new();
    for unit in whole.units() {
        text.extend_from_slice(unit);
        if !unit.ends_with(b"\n") {
            text.push(b'\n');
        }
    }
    Ok(text)
}

fn fail(status: u8, words: &str) -> ExitCode {
    eprintln!("{words}");
    ExitCode::from(status)
}
