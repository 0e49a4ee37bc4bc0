//! `odif make`

use std::ffi::OsString;
use std::fs;
use std::io::{self, IsTerminal, Read, Write};
use std::path::{Path, PathBuf};

use clap::Args;
use odif::{Builder, Refusal};
use serde::Deserialize;

use crate::status::{Failure, Outcome, Status, tell};
use crate::{beside, show};

const EXAMPLES: &str = "\
Examples:
  odif make answer.txt -o answer.odif
  odif make page1.txt page2.txt --under '1 3' -o answer.odif
  echo '{\"identifier\":\"1 0 2\",\"portion\":\"0\",\"text\":\"Hi\"}' | odif make --lines - -o hi.odif
  odif text --raw answer.odif | cmp - answer.txt

Exit status: 0 written; 1 the letter was refused; 2 a file could not be read or written.";

/// Makes a letter of texts
///
/// Writes a letter with an empty profile and, for each text, a block and a text unit. It is accepted by every reader of the
/// rules, its layout side reads the texts in their order, and it is its own normal form. At most 2,047 texts fit.
///
/// Each FILE is a text, octet for octet; its block is numbered from 0 under --under, with the portion 0. Or with --lines
/// each line of a file is a text in JSON, with its own names: {"identifier":"1 0 2","portion":"0","text":"Hi\r\n"}. There
/// a text is ASCII, or stands in hexadecimal as `text_hex`, as octets do in all JSON of this command.
///
/// Without -o it is written to standard output, unless that is a terminal; with `-o -` even then.
#[derive(Args)]
#[command(after_help = EXAMPLES)]
pub struct Words {
    /// The texts; `-` is standard input
    #[arg(value_name = "FILE", required_unless_present = "lines", conflicts_with = "lines")]
    files: Vec<OsString>,
    /// The file with a text in JSON on each line; `-` is standard input
    #[arg(long, value_name = "FILE")]
    lines: Option<OsString>,
    /// The identifier of what the blocks of files stand in
    #[arg(long, value_name = "IDENTIFIER", default_value = "1 0", conflicts_with = "lines")]
    under: String,
    /// The file to write; it is left as it was until all is written
    #[arg(short, value_name = "OUT")]
    out: Option<OsString>,
}

/// A line of --lines.
#[derive(Deserialize)]
#[serde(deny_unknown_fields)]
struct Line {
    identifier: String,
    portion: String,
    text: Option<String>,
    text_hex: Option<String>,
}

impl Line {
    /// The octets of the text.
    fn octets(&self) -> Result<Vec<u8>, String> {
        match (&self.text, &self.text_hex) {
            (Some(text), None) if text.is_ascii() => Ok(text.clone().into_bytes()),
            (Some(_), None) => Err("its text is not ASCII: write its octets as text_hex".into()),
            (None, Some(digits)) => {
                show::from_hex(digits).ok_or_else(|| "its text_hex is no pairs of hexadecimal digits".into())
            }
            (None, None) => Err("it has neither text nor text_hex".into()),
            (Some(_), Some(_)) => Err("it has both text and text_hex".into()),
        }
    }
}

pub fn run(words: &Words) -> Outcome {
    if words.out.is_none() && io::stdout().is_terminal() {
        return Err(Failure::Usage("octets are not for a terminal: give `-o OUT`".into()));
    }
    let mut builder = Builder::new();
    let sources = match &words.lines {
        Some(file) => add_lines(&mut builder, file)?,
        None => add_files(&mut builder, words)?,
    };
    let stream = match builder.make() {
        Ok(stream) => stream,
        Err(refusal) => {
            tell(&refused(&refusal, &sources));
            return Ok(Status::Refused);
        }
    };
    match words.out.as_deref().filter(|out| *out != "-") {
        Some(out) => beside::write(&PathBuf::from(out), &stream)?,
        None => {
            let mut stdout = io::stdout().lock();
            stdout.write_all(&stream)?;
            stdout.flush()?;
        }
    }
    Ok(Status::Accepted)
}

/// A refusal for people: which entry, where it came from, and why.
fn refused(refusal: &Refusal, sources: &[String]) -> String {
    let (number, place, rule) = (refusal.number(), refusal.place, refusal.rule);
    match sources.get(place).filter(|_| ![17, 18].contains(&number)) {
        Some(source) => format!("odif: {source}: refused, number {number} at entry {place}: {rule}\n"),
        None => format!("odif: refused, number {number}: {rule}\n"),
    }
}

/// Adds a text for each file, and gives their names.
fn add_files(builder: &mut Builder, words: &Words) -> Result<Vec<String>, Failure> {
    let mut names = Vec::new();
    for (number, file) in words.files.iter().enumerate() {
        builder.entry(format!("{} {number}", words.under), "0", read(file)?);
        names.push(show::name(file));
    }
    Ok(names)
}

/// Adds a text for each line, and gives where each came from. Empty lines are no entries.
fn add_lines(builder: &mut Builder, file: &OsString) -> Result<Vec<String>, Failure> {
    let name = show::name(file);
    let mut places = Vec::new();
    for (number, line) in (1..).zip(read(file)?.split(|&octet| octet == b'\n')) {
        if line.trim_ascii().is_empty() {
            continue;
        }
        let wrong = |why: String| Failure::File(format!("{name}: line {number}: {why}"));
        let line: Line = serde_json::from_slice(line).map_err(|error| wrong(error.to_string()))?;
        let text = line.octets().map_err(wrong)?;
        builder.entry(&line.identifier, &line.portion, text);
        places.push(format!("{name}: line {number}"));
    }
    Ok(places)
}

fn read(file: &OsString) -> Result<Vec<u8>, Failure> {
    if file != "-" {
        return fs::read(file).map_err(|error| beside::failure(Path::new(file), &error));
    }
    let mut octets = Vec::new();
    let read = io::stdin().lock().read_to_end(&mut octets);
    read.map(|_| octets).map_err(|error| Failure::File(format!("standard input: {error}")))
}

#[cfg(test)]
mod tests {
    use super::*;

    #[test]
    fn texts_of_lines() {
        let octets = |rest: &str| {
            let line = format!("{{\"identifier\":\"1\",\"portion\":\"0\"{rest}}}");
            serde_json::from_str::<Line>(&line).unwrap().octets()
        };
        assert_eq!(octets(r#","text":"a\\b\u0000\r\n""#).unwrap(), b"a\\b\0\r\n");
        assert_eq!(octets(r#","text_hex":"00fFc8""#).unwrap(), b"\x00\xFF\xC8");
        for bad in ["", r#","text":"é""#, r#","text_hex":"0""#, r#","text_hex":"+1""#, r#","text":"","text_hex":"""#] {
            assert!(octets(bad).is_err(), "{bad}");
        }
    }
}
