//! The words of the command line, and what each subcommand does with them.

use std::ffi::OsString;
use std::io::{self, Write};
use std::process::ExitCode;

use clap::{CommandFactory, Parser, Subcommand};

use crate::status::{Failure, Outcome, Status, tell};
use crate::{catalog, check, date, export, grep, identity, list, make, man, normal};
use crate::{order, outline, pages, profile, same, survey, text, trace, tree, view};

const EXAMPLES: &str = "\
Examples:
  odif text samples/letters/claim.odif
  odif check --json letter.odif | jq .number
  odif survey archive --csv archive.csv --jobs 8
  echo A0800000 | odif normal --hex - -o - | xxd

`odif help 7` says what the refusal number 7 means, `odif help json` how octets stand in JSON.

Exit status: 0 all was accepted; 1 something was refused; 2 something could not be
read or written, or the command was misused; 3 the independent reader differs, with
`odif check --second`, or the file, read once more, with `odif trace --check`; 130 it was
interrupted; 141 no one reads its output any more, as in `odif tree letter.odif | head`.";

/// The signal of a pipe that no one reads.
const SIGPIPE: u8 = 13;

/// Reads letters in the Open Document Interchange Format (ODIF, 1988 and 1993)
#[derive(Parser)]
#[command(name = "odif", version, long_version = identity::version(), after_help = EXAMPLES, max_term_width = 100)]
pub struct Cli {
    #[command(subcommand)]
    command: Command,
}

#[derive(Subcommand)]
enum Command {
    Check(check::Words),
    Date(date::Words),
    Profile(profile::Words),
    Text(text::Words),
    Trace(trace::Words),
    View(view::Words),
    Tree(tree::Words),
    List(list::Words),
    Outline(outline::Words),
    Order(order::Words),
    Pages(pages::Words),
    Normal(normal::Words),
    Make(make::Words),
    Survey(survey::Words),
    Grep(grep::Words),
    Same(same::Words),
    Export(export::Words),
    Catalog(catalog::Words),
    Completions(man::Words),
    /// Writes the manual page, for `man -l -`
    Man,
}

/// Runs the command on its words and says how it ended.
pub fn run(words: impl Iterator<Item = OsString>) -> ExitCode {
    let words: Vec<OsString> = words.collect();
    if let Some(text) = help_on_other_than_commands(&words) {
        let _ = io::stdout().write_all(text.as_bytes());
        return Status::Accepted.exit_code();
    }
    let cli = match Cli::try_parse_from(words) {
        Ok(cli) => cli,
        Err(error) => {
            // Help that can't be printed, as into a closed pipe, is no one's loss.
            let _ = error.print();
            return if error.use_stderr() { Status::Failed.exit_code() } else { Status::Accepted.exit_code() };
        }
    };
    match dispatch(cli.command) {
        Ok(status) => status.exit_code(),
        Err(failure) => failed(failure),
    }
}

/// What `odif help` says of a refusal number, or of JSON.
fn help_on_other_than_commands(words: &[OsString]) -> Option<String> {
    match words {
        [_, help, topic] if help == "help" && topic == "json" => Some(format!("{}\n", man::JSON)),
        [_, help, topic] if help == "help" => man::number(topic.to_str()?),
        _ => None,
    }
}

fn dispatch(command: Command) -> Outcome {
    match command {
        Command::Check(words) => check::run(&words),
        Command::Date(words) => date::run(&words),
        Command::Profile(words) => profile::run(&words),
        Command::Text(words) => text::run(&words),
        Command::Trace(words) => trace::run(&words),
        Command::View(words) => view::run(&words),
        Command::Tree(words) => tree::run(&words),
        Command::List(words) => list::run(&words),
        Command::Outline(words) => outline::run(&words),
        Command::Order(words) => order::run(&words),
        Command::Pages(words) => pages::run(&words),
        Command::Normal(words) => normal::run(&words),
        Command::Make(words) => make::run(&words),
        Command::Survey(words) => survey::run(&words),
        Command::Grep(words) => grep::run(&words),
        Command::Same(words) => same::run(&words),
        Command::Export(words) => export::run(&words),
        Command::Catalog(words) => catalog::run(&words),
        Command::Completions(words) => man::completions(&words, Cli::command()),
        Command::Man => man::run(Cli::command()),
    }
}

fn failed(failure: Failure) -> ExitCode {
    match failure {
        Failure::Usage(message) => tell(&format!("odif: {message}\nTry `odif --help`.\n")),
        Failure::File(message) => tell(&format!("odif: {message}\n")),
        // As of other commands, a shell then says that a signal ended it. What was begun has been put away by now.
        Failure::Output(error) if error.kind() == io::ErrorKind::BrokenPipe => return ExitCode::from(128 + SIGPIPE),
        Failure::Output(error) => tell(&format!("odif: standard output: {error}\n")),
        Failure::Cut(message) => {
            tell(&format!("odif: interrupted: {message}\n"));
            return ExitCode::from(130);
        }
    }
    Status::Failed.exit_code()
}
