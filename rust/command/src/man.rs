//! The manual page and the completions, made from what the command knows of its own words.

use std::collections::BTreeMap;
use std::io::{self, Write};

use clap::builder::PossibleValue;
use clap::{Arg, ArgAction, Args, Command};
use clap_complete::Shell;
use odif::Rule;

use crate::status::{Outcome, Status};

const DESCRIPTION: &str = "\
Every verdict, reading list, content and normal form is the answer of a proved library. What `odif tree` lists, the words
that say what exactly is wrong at a place, the dimensions behind a verdict of `odif pages` and what stands in the place of
a missing date, and all but the date in `odif profile`, come from an independent reader that is tested and not proved.";

/// The form of octets in JSON, which `odif help json` prints.
pub const JSON: &str = "\
With --json each file is one object on a line. Octets of a letter have one form in all of them: a field NAME and a field
NAME_hex. NAME_hex always has all octets, in hexadecimal. NAME has them as a string if each is 00 to 7E, with the escapes of
JSON and no others, and is null or missing if not. What is no string of octets but made for people, as `detail`, may have \\xHH, \\n and
the like in it. What `grep`, `profile`, `trace` and, with --utf8, `text` tell of a letter's text is in UTF-8, by its set of
characters. A file's name is `file`; where that is no UTF-8, `file_octets` has it in hexadecimal, and `file` is for people.
Places and numbers of elements are counted from 0, pages and the lines of `trace` from 1. A place is `first` and `past`: from
the one octet up to that before the other.";

/// Writes the completions for a shell
#[derive(Args)]
pub struct Words {
    /// The shell
    shell: Shell,
}

/// Writes the completions of the command.
pub fn completions(words: &Words, mut command: Command) -> Outcome {
    let mut text = Vec::new();
    for name in ["text", "trace", "grep", "export", "catalog"] {
        command = command.mut_subcommand(name, plain_utf8);
    }
    clap_complete::generate(words.shell, &mut command, "odif", &mut text);
    io::stdout().write_all(&text)?;
    Ok(Status::Accepted)
}

/// The option `--utf8` takes a value only behind an equals sign. The completions know no such thing, and would offer the
/// value as a word of its own, which is taken for a file; so they have the option without a value.
fn plain_utf8(command: Command) -> Command {
    command.mut_arg("utf8", |_| Arg::new("utf8").long("utf8").action(ArgAction::SetTrue).help("The text in UTF-8"))
}

/// Writes the manual page of the command.
pub fn run(mut command: Command) -> Outcome {
    command.build();
    let (version, date) = (env!("CARGO_PKG_VERSION"), roff(env!("ODIF_DATE")));
    let mut page = format!(".TH ODIF 1 \"{date}\" \"odif {version}\" \"User Commands\"\n.SH NAME\nodif \\- ");
    page += &format!("{}\n.SH SYNOPSIS\n.B odif\nCOMMAND [OPTIONS] ..\n", about(&command));
    page += &format!(".SH DESCRIPTION\n{}\n", roff(DESCRIPTION));
    for sub in command.get_subcommands().filter(|sub| sub.get_name() != "help") {
        page += &format!(".SH odif {}\n{}\n", sub.get_name(), long_about(sub));
        for arg in sub.get_arguments().filter(|arg| arg.get_id() != "help") {
            page += &format!(".TP\n.B {}\n{}\n", roff(&words(arg)), roff(&help(arg)));
        }
        page += &verbatim(sub);
    }
    page += &format!(".SH EXAMPLES AND EXIT STATUS\n{}", verbatim(&command));
    page += &format!(".SH JSON\n{}\n", roff(JSON));
    page += &format!(".SH REFUSAL NUMBERS\n{}", numbers());
    io::stdout().write_all(page.as_bytes())?;
    Ok(Status::Accepted)
}

/// The numbers of the block engine, which refuse no stream: no rule has them.
const OF_BLOCKS: [(u32, &str); 2] =
    [(28, "a block is past the total that was told"), (29, "the letter was closed before all its octets had come")];

/// Each refusal number with its sentence, in order.
fn sentences() -> BTreeMap<u32, &'static str> {
    Rule::ALL.into_iter().map(|rule| (rule.number(), rule.sentence())).chain(OF_BLOCKS).collect()
}

fn numbers() -> String {
    sentences().into_iter().map(|(number, words)| format!(".TP\n.B {number}\n{}\n", roff(words))).collect()
}

/// Says what a refusal number means: `odif help 7`.
pub fn number(digits: &str) -> Option<String> {
    let number = digits.parse().ok()?;
    Some(format!("{number}: {}\n", sentences().get(&number)?))
}

fn about(command: &Command) -> String {
    roff(&command.get_about().map(ToString::to_string).unwrap_or_default())
}

fn long_about(command: &Command) -> String {
    command.get_long_about().map_or_else(|| about(command), |text| roff(&text.to_string()))
}

/// The examples and the exit status, line for line.
fn verbatim(command: &Command) -> String {
    let text = command.get_after_help().map(ToString::to_string).unwrap_or_default();
    if text.is_empty() { text } else { format!(".PP\n.nf\n{}\n.fi\n", roff(&text)) }
}

/// An option with its value, or the name of a file; in brackets where the value may be left out.
fn words(arg: &Arg) -> String {
    let names = [arg.get_short().map(|short| format!("-{short}")), arg.get_long().map(|long| format!("--{long}"))];
    let value = arg.get_value_names().map(|names| names.join(" ")).filter(|_| arg.get_action().takes_values());
    let names = names.into_iter().flatten().collect::<Vec<_>>().join(", ");
    let value = value.unwrap_or_default();
    match arg.is_require_equals_set() {
        true => format!("{names}[={value}]"),
        false => format!("{names} {value}").trim().into(),
    }
}

/// What is said of an option, and its values if it has only some.
fn help(arg: &Arg) -> String {
    let help = arg.get_long_help().or_else(|| arg.get_help()).map(ToString::to_string).unwrap_or_default();
    let values = arg.get_possible_values();
    let value = |value: &PossibleValue| match value.get_help() {
        Some(help) => format!("{} ({help})", value.get_name()),
        None => value.get_name().into(),
    };
    let values: Vec<String> = values.iter().filter(|_| arg.get_action().takes_values()).map(value).collect();
    if values.is_empty() { help } else { format!("{help}. One of: {}", values.join("; ")) }
}

/// Text that roff takes as it stands: no line begins with a point, and minus signs stay minus signs.
fn roff(text: &str) -> String {
    let lines = text.lines().map(|line| {
        let line = line.replace('\\', "\\e").replace('-', "\\-");
        if line.starts_with(['.', '\'']) { format!("\\&{line}") } else { line }
    });
    lines.collect::<Vec<_>>().join("\n")
}

#[cfg(test)]
mod tests {
    use super::*;

    #[test]
    fn roff_takes_it_as_it_stands() {
        assert_eq!(roff(".x --y\n\\z"), "\\&.x \\-\\-y\n\\ez");
    }
}
