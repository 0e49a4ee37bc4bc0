//! `odif grep`

use std::io::{self, BufWriter, IsTerminal, Write};

use clap::Args;
use regex::{Regex, RegexBuilder};
use serde::Serialize;

use crate::files::{Entry, Places};
use crate::names::Name;
use crate::on_pages::OnPages;
use crate::pool::Pool;
use crate::progress::Progress;
use crate::status::{Failure, Outcome, Status, tell};
use crate::text::{How, Text};
use crate::{explain, input, show};

const EXAMPLES: &str = "\
Examples:
  odif grep Insurance archive
  odif grep -i -l 'quay [0-9]+|harbour' archive inbox
  odif grep --json Insurance archive | jq -r .block

Exit status: 0 some line matches; 1 none does; 2 a file could not be read, or the pattern is none; 130
it was interrupted.";

/// Finds lines in the texts of an archive
///
/// Looks for a regular expression in the text of each letter as people read it: in reading order, the pieces of a text
/// joined, the units of a block joined, in UTF-8. A line that matches is written behind the file, the page (counted from 1, or
/// `-` where there is none) and the identifier of the block. Files that are no letters are not searched, and counted on standard
/// error. The expressions are those of Rust's crate regex: no backreferences, and time as the text is long.
#[derive(Args)]
#[command(after_help = EXAMPLES)]
pub struct Words {
    /// The regular expression
    pattern: String,
    #[command(flatten)]
    places: Places,
    #[command(flatten)]
    how: How,
    /// Capital and small letters are the same
    #[arg(short, long)]
    ignore_case: bool,
    /// The pattern is a text and no regular expression
    #[arg(short = 'F', long)]
    fixed: bool,
    /// Only the names of the files, one a line
    #[arg(short = 'l', long, conflicts_with = "json")]
    list: bool,
    /// One JSON object for each line that matches
    #[arg(long)]
    json: bool,
}

/// A line that matches.
#[derive(Serialize)]
struct Found {
    /// From 1.
    page: Option<usize>,
    /// The class or object, by its number among the elements and by its identifier.
    element: usize,
    block: Option<String>,
    /// The text unit in which the line begins.
    unit: usize,
    /// The line in UTF-8.
    line: String,
    /// What matches, as octets of the line.
    matches: Vec<(usize, usize)>,
}

/// What became of a file.
enum Searched {
    Letter(Vec<Found>),
    NoLetter,
    Unreadable(String),
}

#[derive(Default)]
struct Counts {
    found: usize,
    no_letters: usize,
    unreadable: usize,
}

pub fn run(words: &Words) -> Outcome {
    let pattern = if words.fixed { regex::escape(&words.pattern) } else { words.pattern.clone() };
    let pattern = Pattern::of(&pattern, words.ignore_case)?;
    let pool = Pool::new(words.places.jobs)?;
    let entries = words.places.list(&[])?;
    let mut counts = Counts::default();
    let mut out = BufWriter::new(io::stdout());
    let progress = Progress::over(entries.len());
    let take_up = |entry: &Entry, searched: Searched| {
        progress.add(1);
        counts.add(entry, &searched);
        if let Searched::Letter(found) = &searched {
            write(&mut out, words, entry, found)?;
        }
        Ok(())
    };
    let cut = |done| format!("after {} of {} files", show::grouped(done), show::grouped(entries.len()));
    pool.in_order(&entries, |entry| search(words, &pattern, entry), take_up, cut)?;
    drop(progress);
    out.flush()?;
    counts.tell(entries.len());
    Ok(counts.status())
}

impl Counts {
    fn add(&mut self, entry: &Entry, searched: &Searched) {
        match searched {
            Searched::Letter(found) => self.found += found.len(),
            Searched::NoLetter => self.no_letters += 1,
            Searched::Unreadable(reason) => {
                self.unreadable += 1;
                tell(&format!("odif: {}: {reason}\n", show::name(entry.path.as_os_str())));
            }
        }
    }

    fn tell(&self, files: usize) {
        if self.no_letters > 0 {
            let files = show::counted(files, "file");
            tell(&format!("odif: {} of {files} refused, and not searched\n", show::grouped(self.no_letters)));
        }
    }

    fn status(&self) -> Status {
        match self {
            Counts { unreadable: 1.., .. } => Status::Failed,
            Counts { found: 0, .. } => Status::Refused,
            _ => Status::Accepted,
        }
    }
}

/// What is looked for in each line.
struct Pattern {
    of_line: Regex,
    /// Does it match in a text wherever it matches in one of its lines? It does unless it asks where a line begins or ends.
    is_free: bool,
}

impl Pattern {
    fn of(pattern: &str, ignore_case: bool) -> Result<Pattern, Failure> {
        let of_line = RegexBuilder::new(pattern).case_insensitive(ignore_case).build();
        let of_line = of_line.map_err(|error| Failure::Usage(error.to_string()))?;
        let is_free = !["^", "$", r"\A", r"\z"].iter().any(|anchor| pattern.contains(anchor));
        Ok(Pattern { of_line, is_free })
    }

    /// Can no line of a text match? That is asked of the whole first, since most texts have none that does.
    fn is_out_of(&self, text: &str) -> bool {
        self.is_free && !self.of_line.is_match(text)
    }
}

fn search(words: &Words, pattern: &Pattern, entry: &Entry) -> Searched {
    if let Some(trouble) = &entry.trouble {
        return Searched::Unreadable(trouble.clone());
    }
    let stream = match input::read_file(&entry.path, words.places.hex) {
        Ok(stream) => stream.octets,
        Err(error) => return Searched::Unreadable(error.to_string()),
    };
    match words.how.text_in_utf8(words.places.by.edition(), &stream) {
        Ok(text) => Searched::Letter(found(pattern, &stream, &text)),
        Err(_) => Searched::NoLetter,
    }
}

/// The lines of a text that match.
fn found(pattern: &Pattern, stream: &[u8], text: &Text) -> Vec<Found> {
    let whole = str::from_utf8(&text.octets).expect("it was turned into UTF-8");
    if pattern.is_out_of(whole) {
        return Vec::new();
    }
    let pattern = &pattern.of_line;
    let pages = OnPages::of(text.whole.elements());
    let units = text.whole.lines();
    let mut lines = Vec::new();
    let mut first = 0;
    for line in whole.split_inclusive('\n') {
        let shown = line.trim_end_matches(['\n', '\r']);
        if pattern.is_match(shown) {
            // The unit in which the line begins: the last one that begins there or before, and is not empty there.
            let unit = &units[text.places.partition_point(|place| place.end <= first).min(units.len() - 1)];
            let identifier = text.whole.elements()[unit.element].identifier.clone();
            lines.push(Found {
                page: pages.page(unit.element),
                element: unit.element,
                block: identifier.map(|place| show::escaped(&stream[place])),
                unit: unit.unit,
                line: shown.into(),
                matches: pattern.find_iter(shown).map(|found| (found.start(), found.end())).collect(),
            });
        }
        first += line.len();
    }
    lines
}

fn write(out: &mut impl Write, words: &Words, entry: &Entry, found: &[Found]) -> io::Result<()> {
    let file = entry.path.as_os_str();
    if words.list {
        return if found.is_empty() { Ok(()) } else { show::write_name(out, file, words.places.null) };
    }
    let (shown, name, on_terminal) = (show::name(file), Name::of(file), io::stdout().is_terminal());
    for found in found {
        if words.json {
            writeln!(out, "{}", json(&name, found))?;
            continue;
        }
        let page = found.page.map_or("-".into(), |page| page.to_string());
        let block = found.block.as_deref().unwrap_or("-");
        let line = if on_terminal { show::shielded(found.line.as_bytes()) } else { found.line.clone() };
        writeln!(out, "{shown}:{page}:{block}:{line}")?;
    }
    Ok(())
}

fn json(name: &Name, found: &Found) -> String {
    #[derive(Serialize)]
    struct Line<'a> {
        #[serde(flatten)]
        name: &'a Name,
        #[serde(flatten)]
        found: &'a Found,
    }
    explain::json(&Line { name, found })
}
