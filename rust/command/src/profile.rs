//! `odif profile`
//!
//! The verdict and the date are the proved library's. The rest is read by the independent reader, from the items of the
//! document profile, by the names that the standard gives them.

use std::io::{self, Write};

use clap::Args;
use odif::Letter;
use reader::{Item, Reading};
use serde::Serialize;

use crate::asked::{Asked, of_reader};
use crate::charset::{self, Charset, Declared};
use crate::input::{self, Source};
use crate::items::{self, Known, Named};
use crate::status::{Outcome, Status};
use crate::{explain, show, text};

const EXAMPLES: &str = "\
Examples:
  odif profile letter.odif
  odif profile --json archive | jq -r 'select(.date != null) | .date'

Exit status: 0 all were accepted; 1 one was refused; 2 one could not be read.";

/// Shows the title, the authors, the date, the class, the character sets and the languages of letters
///
/// Shows on one line for each file what stands in its document profile: title, authors, date, document architecture class and
/// interchange format class, the character sets that the profile, the comments and the text declare, and the languages.
/// What is not there is left out. Texts are in UTF-8, by the set that the profile declares, or else that of the letter, or
/// else ISO 6937. The date is the proved library's; the rest is read by a reader that is not proved.
#[derive(Args)]
#[command(after_help = EXAMPLES)]
pub struct Words {
    #[command(flatten)]
    asked: Asked,
}

/// What a profile tells. Texts are in UTF-8; the octets of the title are there besides.
#[derive(Default, Serialize)]
struct Profile {
    title: Option<String>,
    title_hex: Option<String>,
    authors: Vec<String>,
    date: Option<String>,
    /// The document architecture class: formatted, processable or both.
    class: Option<String>,
    /// The interchange format class that the profile names: if-a or if-b.
    interchange_class: Option<String>,
    profile_set: Option<&'static str>,
    comments_set: Option<&'static str>,
    text_set: Option<&'static str>,
    languages: Vec<String>,
}

pub fn run(words: &Words) -> Outcome {
    let Asked { files, json } = &words.asked;
    input::each(files, *json, |source| {
        let read = Letter::read_in(source.edition, &source.stream);
        let report = match &read {
            Ok(letter) if !*json => line(source, &Profile::of(letter)),
            Err(refusal) if !*json => explain::refusal(source, refusal),
            _ => explain::answer(source, &read, read.as_ref().map(Profile::of).unwrap_or_default()),
        };
        let mut out = io::stdout().lock();
        out.write_all(report.as_bytes())?;
        out.flush()?;
        Ok(Status::of(&read))
    })
}

impl Profile {
    /// That of an accepted letter.
    fn of(letter: &Letter<'_>) -> Profile {
        let stream = letter.stream();
        let reading = Reading::by(of_reader(letter.edition()), stream);
        let items = reading.tree().items();
        // The profile is the first element.
        let past = items.iter().skip(1).position(|item| item.level() == 1).map_or(items.len(), |at| at + 1);
        let named: Vec<Named<'_>> = items::named(&items[..past]).collect();
        let octets = |named: &Named<'_>| &stream[named.item.value()];
        let called =
            |name: &'static str| named.iter().filter(move |named| named.name() == Some(name) && is_value(named.item));
        let set_of = |name| called(name).next().and_then(|named| set(charset::declared([octets(named)].into_iter())));
        let (profile_set, text_set) = (set_of("profile-character-sets"), set(text::declared(stream)));
        let turned =
            |named: &Named<'_>| charset::to_utf8(octets(named), profile_set.or(text_set).unwrap_or(charset::ASSUMED));
        let word = |name| called(name).next().and_then(|named| meaning(letter, named, octets(named)));
        let title = called("title").next();
        Profile {
            title: title.map(turned),
            title_hex: title.map(|title| show::hex(octets(title))),
            authors: authors(&named, turned),
            date: letter.date().ok().map(|date| date.to_string()),
            class: word("document-architecture-class"),
            interchange_class: word("interchange-format-class"),
            profile_set: profile_set.map(name),
            comments_set: set_of("comments-character-sets").map(name),
            text_set: text_set.map(name),
            languages: called("language").map(turned).collect(),
        }
    }

    /// What is there, with a word before what does not tell by itself what it is.
    fn parts(&self) -> Vec<String> {
        let sets = [("profile", self.profile_set), ("comments", self.comments_set), ("text", self.text_set)];
        let sets = sets.into_iter().filter_map(|(of, set)| Some(format!("{of} in {}", set?)));
        let authors = self.authors.iter().map(|author| format!("by {author}"));
        let classes = [&self.class, &self.interchange_class].into_iter().flatten().cloned();
        let title = self.title.iter().map(|title| format!("\"{title}\""));
        title.chain(authors).chain(self.date.clone()).chain(classes).chain(sets).chain(self.languages.clone()).collect()
    }
}

fn line(source: &Source<'_>, profile: &Profile) -> String {
    let parts = profile.parts();
    let parts = if parts.is_empty() { "nothing of these in its profile".into() } else { parts.join("; ") };
    format!("{}: {}\n", source.shown, show::shielded(parts.as_bytes()).replace('\n', "\\n"))
}

fn is_value(item: &Item) -> bool {
    !item.is_constructed()
}

/// The one set that is declared.
fn set(declared: Declared) -> Option<Charset> {
    if let Declared::One(set) = declared { Some(set) } else { None }
}

fn name(set: Charset) -> &'static str {
    match set {
        Charset::T61 => "t61",
        Charset::Latin1 => "latin1",
        Charset::Iso6937 | Charset::Auto => "iso6937",
    }
}

fn meaning(letter: &Letter<'_>, named: &Named<'_>, octets: &[u8]) -> Option<String> {
    match named.value(letter.edition(), octets)? {
        Known::Named(_, name) => Some(name.into()),
        Known::Number(number) => Some(number.to_string()),
        _ => None,
    }
}

/// Each author: given name, initials, surname and what follows it, and behind a comma the organization.
fn authors(named: &[Named<'_>], turned: impl Fn(&Named<'_>) -> String) -> Vec<String> {
    let begins = named.iter().enumerate().filter(|(_, named)| named.name() == Some("author"));
    let author = |(at, author): (usize, &Named<'_>)| {
        let inside: Vec<&Named<'_>> =
            named[at + 1..].iter().take_while(|named| named.item.level() > author.item.level()).collect();
        let parts = |names: &[&str]| {
            let part = |name: &&str| inside.iter().find(|named| named.name() == Some(*name) && is_value(named.item));
            names.iter().filter_map(part).map(|named| turned(named)).collect::<Vec<_>>().join(" ")
        };
        let person = parts(&["givenname", "initials", "surname", "generation-qualifier"]);
        let parts = [person, parts(&["organization"])].into_iter().filter(|part| !part.is_empty());
        parts.collect::<Vec<_>>().join(", ")
    };
    begins.map(author).filter(|author| !author.is_empty()).collect()
}
