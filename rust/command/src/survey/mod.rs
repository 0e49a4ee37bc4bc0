//! `odif survey`

pub mod csv;
mod record;
mod report;
mod tally;

use std::fs::File;
use std::io::{self, Write};
use std::path::{Path, PathBuf};
use std::time::Instant;

use clap::Args;

use self::csv::Csv;
use self::record::{Columns, Record, Verdict};
use self::tally::Tally;
use crate::files::{Places, at_least_one};
use crate::pool::Pool;
use crate::progress::Progress;
use crate::show;
use crate::status::{Failure, Outcome, tell};

const EXAMPLES: &str = "\
Examples:
  odif survey archive
  odif survey archive --csv archive.csv --jobs 8
  odif survey archive --only 7,12 --list | head
  odif survey archive --order --pages --csv -
  find archive -newer last.csv -type f | odif survey --files-from - --csv new.csv
  odif survey --merge host1.csv host2.csv

Exit status: 0 all were accepted; 1 some were refused; 2 some could not be read; 130 it was
interrupted, and the CSV file is as it was before. With --only it is that of all files all the same.";

/// Checks every file in folders and their subfolders
///
/// Tells how many files were accepted and how many each rule refused, by what exactly is wrong, with the first few files
/// of each. A file that can't be read is counted and never stops the survey, nor does a folder that is not there. Links
/// to folders are not followed. On a terminal it shows how far it is.
///
/// The CSV has the columns file, outcome, number, place, octets, headers, elements, reason, detail, kind, item, foreign,
/// first_date and file_octets, and before the last those that are asked for. first_date is the date of an accepted letter. A
/// name that is no UTF-8 stands in hexadecimal as file_octets, and `file` is for people then. Before a name that a
/// spreadsheet would take for a formula stands `./`, so that it is none, and a name of that file still.
#[derive(Args)]
#[command(after_help = EXAMPLES)]
pub struct Words {
    #[command(flatten)]
    places: Places,
    /// A line for each file, in order, with a column for each thing known of it; `-` is standard output
    #[arg(long, value_name = "FILE")]
    csv: Option<PathBuf>,
    /// Name so many files of each fault
    #[arg(long, value_name = "N", default_value = "3", value_parser = at_least_one)]
    first: usize,
    /// Only files with these numbers, as 7,12, are listed, in the CSV and in the report; 0 is an accepted file. The exit
    /// status is that of all files all the same
    #[arg(long, value_name = "N", value_delimiter = ',')]
    only: Vec<u32>,
    /// Write the names of the files and nothing else: of those that --only names, or else of those not accepted
    #[arg(long, conflicts_with = "json")]
    list: bool,
    /// The CSV files of earlier surveys, to be taken together
    #[arg(long, value_name = "CSV", num_args = 1.., conflicts_with_all = ["folders", "files_from"])]
    merge: Vec<PathBuf>,
    /// The result as one JSON object
    #[arg(long)]
    json: bool,
    #[command(flatten)]
    more: More,
}

/// What is asked of letters besides.
#[derive(Args, Clone, Copy)]
struct More {
    /// Say in the order of which class the letters are, in the report and in a column of the CSV
    #[arg(long)]
    order: bool,
    /// Say what the PM1 desk says of their pages, in the same places
    #[arg(long)]
    pages: bool,
    /// Say how many of their text units the text shows and does not show, in the same places; `odif check` says where
    #[arg(long)]
    units: bool,
    /// Fill the column first_date of refused files too: the date by the first element alone, the rest unread
    #[arg(long)]
    first_dates: bool,
}

pub fn run(words: &Words) -> Outcome {
    let begun = Instant::now();
    if words.list && words.csv.as_deref().is_some_and(csv::is_standard_output) {
        return Err(Failure::Usage("`--list` and `--csv -` both want standard output".into()));
    }
    let More { order, pages, units, first_dates } = words.more;
    let columns = Columns { order, pages, units, first_dates };
    let mut report = Report { words, tally: Tally::new(words.first), csv: None, columns };
    if words.merge.is_empty() {
        survey(words, &mut report)?;
    } else {
        merge(words, &mut report)?;
    }
    report.csv.map_or(Ok(()), Csv::finish)?;
    let elapsed = begun.elapsed();
    let text = if words.json { report.tally.json(elapsed) } else { report.tally.text(elapsed) };
    if words.csv.as_deref().is_some_and(csv::is_standard_output) {
        tell(&text);
    } else if !words.list {
        io::stdout().write_all(text.as_bytes())?;
    }
    Ok(report.tally.status())
}

/// What becomes of each file's record.
struct Report<'a> {
    words: &'a Words,
    tally: Tally,
    csv: Option<Csv>,
    columns: Columns,
}

impl Report<'_> {
    /// Begins the CSV file, if there is to be one.
    fn begin(&mut self) -> Result<(), Failure> {
        self.csv = self.words.csv.as_deref().map(|file| Csv::create(file, &self.columns.names())).transpose()?;
        Ok(())
    }

    fn add(&mut self, record: Record) -> Result<(), Failure> {
        let record = &record.with(self.columns);
        self.tally.see(record);
        let only = &self.words.only;
        let is_named = record.number.is_some_and(|number| only.contains(&number));
        if !only.is_empty() && !is_named {
            return Ok(());
        }
        self.tally.add(record);
        if self.words.list && (is_named || record.outcome != Verdict::Accepted) {
            let name = record.name().system().unwrap_or_default();
            show::write_name(&mut io::stdout().lock(), &name, self.words.places.null)?;
        }
        self.csv.as_mut().map_or(Ok(()), |csv| csv.add(record))
    }
}

fn survey(words: &Words, report: &mut Report<'_>) -> Result<(), Failure> {
    let pool = Pool::new(words.places.jobs)?;
    let entries = words.places.list(words.csv.as_slice())?;
    report.begin()?;
    let progress = Progress::over(entries.len());
    let cut = |done: usize| {
        let of = format!("after {} of {} files", show::grouped(done), show::grouped(entries.len()));
        words.csv.as_deref().map_or(of.clone(), |csv| of + &fate(csv))
    };
    let columns = report.columns;
    let work = |entry: &_| Record::of(entry, words.places.hex, words.places.by.edition(), columns);
    let take_up = |_: &_, record: Record| {
        progress.add(1);
        progress.say(|| format!(", {} refused, {} unreadable", report.tally.refused(), report.tally.unreadable()));
        report.add(record)
    };
    pool.in_order(&entries, work, take_up, cut)
}

/// What an interrupt leaves of a CSV file.
fn fate(csv: &Path) -> String {
    match csv.as_os_str() {
        name if csv::is_standard_output(csv) => format!("; `{}` has the lines of those", show::name(name)),
        name if csv.exists() => format!("; {} is as it was before", show::name(name)),
        name => format!("; {} is not written", show::name(name)),
    }
}

/// Takes up the records of earlier surveys, with the columns that any of them has.
fn merge(words: &Words, report: &mut Report<'_>) -> Result<(), Failure> {
    let mut surveys = Vec::new();
    for file in &words.merge {
        let unfit = |error: &dyn std::fmt::Display| Failure::File(format!("{}: {error}", show::name(file.as_os_str())));
        let mut lines = ::csv::Reader::from_reader(File::open(file).map_err(|error| unfit(&error))?);
        let columns = Columns::of(lines.headers().map_err(|error| unfit(&error))?.iter());
        report.columns = report.columns.or(columns);
        surveys.push((file, lines));
    }
    report.begin()?;
    for (file, lines) in &mut surveys {
        let unfit = |error: &dyn std::fmt::Display| Failure::File(format!("{}: {error}", show::name(file.as_os_str())));
        for record in lines.deserialize() {
            report.add(record.map_err(|error: ::csv::Error| unfit(&error))?)?;
        }
    }
    Ok(())
}
