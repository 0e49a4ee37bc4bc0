//! `odif same`
//!
//! Two accepted streams hold the same tree of items exactly when their normal forms are equal; that is proved. So files
//! are put together by a hash of their normal forms, and those with one hash are compared octet by octet.

use std::io::{self, BufWriter, Write};
use std::path::PathBuf;

use clap::Args;
use odif::Rule;
use serde::Serialize;
use sha2::{Digest, Sha256};

use crate::files::{Entry, Places};
use crate::names::Name;
use crate::pool::Pool;
use crate::progress::Progress;
use crate::status::{Failure, Outcome, Status, tell};
use crate::survey::csv::{self, Csv};
use crate::{input, show};

const EXAMPLES: &str = "\
Examples:
  odif same archive
  odif same inbox archive --csv same.csv
  odif same archive --list -0 | xargs -0 ls -l

Exit status: 0 no two files are the same letter; 1 some are; 2 some could not be read; 130 it was
interrupted, and the CSV file is as it was before.";

/// Finds the files that are the same letter
///
/// Groups the accepted files in folders and their subfolders by their normal form: whatever their lengths look like, the
/// files of a group have the same items in the same order. The first file of each group, in the order of names, is
/// marked `first`, the others `same`. Files that are refused are no letters, and counted only. Names are shown without
/// control characters; with --list, -0 or --csv they are as the system has them.
#[derive(Args)]
#[command(after_help = EXAMPLES)]
pub struct Words {
    #[command(flatten)]
    places: Places,
    /// A line for each file of a group; `-` is standard output
    #[arg(long, value_name = "FILE")]
    csv: Option<PathBuf>,
    /// Write the names of the files that are marked `same` and nothing else, one a line
    #[arg(long, conflicts_with = "csv")]
    list: bool,
}

impl Words {
    /// Is standard output for programs, so that the counts go to standard error?
    fn is_for_programs(&self) -> bool {
        self.list || self.places.null || self.csv.as_deref().is_some_and(csv::is_standard_output)
    }
}

/// A line of the CSV.
#[derive(Serialize)]
struct Line {
    group: usize,
    rank: &'static str,
    file: String,
    octets: Option<u64>,
    normal_octets: usize,
    normal_sha256: String,
    file_octets: String,
}

const COLUMNS: [&str; 7] = ["group", "rank", "file", "octets", "normal_octets", "normal_sha256", "file_octets"];

/// What is kept of an accepted file, for there may be many: the hash of its normal form, and its place in the list.
#[derive(Clone, Copy, PartialEq, Eq, PartialOrd, Ord)]
struct Kept {
    hash: [u8; 32],
    place: usize,
}

/// Why a file is in no group.
enum Apart {
    Refused,
    /// Its normal form is over the limit.
    TooLong,
    Unreadable(String),
}

/// How many files there were of each kind.
#[derive(Default)]
struct Counts {
    letters: usize,
    groups: usize,
    again: usize,
    refused: usize,
    too_long: usize,
    unreadable: usize,
}

impl Counts {
    fn add(&mut self, entry: &Entry, apart: &Apart) {
        let shown = show::name(entry.path.as_os_str());
        match apart {
            Apart::Refused => self.refused += 1,
            Apart::TooLong => {
                self.too_long += 1;
                tell(&format!("odif: {shown}: its normal form is over the limit, so it is compared with none\n"));
            }
            Apart::Unreadable(reason) => {
                self.unreadable += 1;
                tell(&format!("odif: {shown}: {reason}\n"));
            }
        }
    }

    fn text(&self, files: usize) -> String {
        let mut text = format!(
            "{}, {} of them letters, {} the same as an earlier one, in {}\n{} refused\n",
            show::counted(files, "file"),
            show::grouped(self.letters),
            show::grouped(self.again),
            show::counted(self.groups, "group"),
            show::grouped(self.refused),
        );
        if self.too_long > 0 {
            text += &format!("{} with a normal form over the limit\n", show::grouped(self.too_long));
        }
        text + &format!("{} unreadable\n", show::grouped(self.unreadable))
    }

    fn status(&self) -> Status {
        match self {
            Counts { unreadable: 1.., .. } => Status::Failed,
            Counts { groups: 1.., .. } => Status::Refused,
            _ => Status::Accepted,
        }
    }
}

pub fn run(words: &Words) -> Outcome {
    let pool = Pool::new(words.places.jobs)?;
    let entries = words.places.list(words.csv.as_slice())?;
    let mut counts = Counts::default();
    let alike = alike(words, &pool, &entries, &mut counts)?;
    let mut csv = words.csv.as_deref().map(|file| Csv::create(file, &COLUMNS)).transpose()?;
    let mut out = BufWriter::new(io::stdout());
    let compare = |group: &Vec<Kept>| groups(&entries, group, &words.places);
    let progress = Progress::over(alike.len());
    let take_up = |_: &Vec<Kept>, (groups, apart): Compared| {
        progress.add(1);
        apart.iter().for_each(|(place, apart)| counts.add(&entries[*place], apart));
        for group in groups {
            counts.groups += 1;
            counts.again += group.places.len() - 1;
            match &mut csv {
                Some(csv) => group.lines(&entries, counts.groups).try_for_each(|line| csv.add(&line))?,
                None => group.write(&entries, words, &mut out)?,
            }
        }
        Ok(())
    };
    pool.in_order(&alike, compare, take_up, |done| cut(words, done, alike.len(), "groups compared"))?;
    drop(progress);
    csv.map_or(Ok(()), Csv::finish)?;
    let text = counts.text(entries.len());
    if !words.is_for_programs() {
        out.write_all(text.as_bytes())?;
    }
    out.flush()?;
    if words.is_for_programs() && !words.list {
        tell(&text);
    }
    Ok(counts.status())
}

fn cut(words: &Words, done: usize, of: usize, what: &str) -> String {
    let left = words.csv.as_deref().filter(|csv| !csv::is_standard_output(csv) && csv.exists());
    let left = left.map_or(String::new(), |csv| format!("; {} is as it was before", show::name(csv.as_os_str())));
    format!("{} of {} {what}{left}", show::grouped(done), show::grouped(of))
}

/// The files whose normal forms have one hash, where there are several, in the order of their first ones.
fn alike(words: &Words, pool: &Pool, entries: &[Entry], counts: &mut Counts) -> Result<Vec<Vec<Kept>>, Failure> {
    let mut kept = Vec::new();
    let mut place = 0;
    let progress = Progress::over(entries.len());
    let hash = |entry: &Entry| normal_form(entry, &words.places).map(|read| Sha256::digest(read.normal).into());
    let take_up = |entry: &Entry, hash: Result<[u8; 32], Apart>| {
        match hash {
            Ok(hash) => kept.push(Kept { hash, place }),
            Err(apart) => counts.add(entry, &apart),
        }
        place += 1;
        progress.add(1);
        Ok(())
    };
    pool.in_order(entries, hash, take_up, |done| cut(words, done, entries.len(), "files read"))?;
    counts.letters = kept.len();
    kept.sort_unstable();
    let several = kept.chunk_by(|one, other| one.hash == other.hash).filter(|group| group.len() > 1);
    let mut alike: Vec<_> = several.map(<[Kept]>::to_vec).collect();
    alike.sort_unstable_by_key(|group| group[0].place);
    Ok(alike)
}

/// Files that are the same letter.
struct Group {
    /// The files' places in the list, in order, with their sizes.
    places: Vec<(usize, Option<u64>)>,
    normal_octets: usize,
    hash: [u8; 32],
}

type Compared = (Vec<Group>, Vec<(usize, Apart)>);

/// Compares the files that have one hash, and gives the groups of equal ones; nearly always that is one.
fn groups(entries: &[Entry], alike: &[Kept], places: &Places) -> Compared {
    let mut groups: Vec<(Vec<u8>, Group)> = Vec::new();
    let mut apart = Vec::new();
    for Kept { hash, place } in alike {
        match normal_form(&entries[*place], places) {
            Err(reason) => apart.push((*place, reason)),
            Ok(Read { normal, size }) => match groups.iter_mut().find(|(first, _)| *first == normal) {
                Some((_, group)) => group.places.push((*place, size)),
                None => {
                    let group = Group { places: vec![(*place, size)], normal_octets: normal.len(), hash: *hash };
                    groups.push((normal, group));
                }
            },
        }
    }
    let several = groups.into_iter().map(|(_, group)| group).filter(|group| group.places.len() > 1);
    (several.collect(), apart)
}

impl Group {
    fn ranked(&self) -> impl Iterator<Item = (&'static str, usize, Option<u64>)> {
        self.places.iter().enumerate().map(|(at, &(place, size))| (if at == 0 { "first" } else { "same" }, place, size))
    }

    fn lines(&self, entries: &[Entry], group: usize) -> impl Iterator<Item = Line> {
        self.ranked().map(move |(rank, place, octets)| {
            let Name { file, file_octets } = Name::in_cell(entries[place].path.as_os_str());
            let (normal_octets, normal_sha256) = (self.normal_octets, show::hex(&self.hash).to_lowercase());
            Line { group, rank, file, octets, normal_octets, normal_sha256, file_octets }
        })
    }

    /// Writes the names for people, or for programs: the lines with a zero octet at their ends, or the names alone.
    fn write(&self, entries: &[Entry], words: &Words, out: &mut impl Write) -> io::Result<()> {
        let null = words.places.null;
        for (rank, place, _) in self.ranked() {
            let name = entries[place].path.as_os_str();
            match (words.list, null) {
                (true, _) if rank == "first" => {}
                (true, _) => show::write_name(out, name, null)?,
                (false, true) => {
                    write!(out, "{rank:5} ")?;
                    show::write_name(out, name, null)?;
                }
                (false, false) => writeln!(out, "{rank:5} {}", show::name(name))?,
            }
        }
        if words.list || null { Ok(()) } else { writeln!(out) }
    }
}

/// A file's normal form, and the size of the file.
struct Read {
    normal: Vec<u8>,
    size: Option<u64>,
}

fn normal_form(entry: &Entry, places: &Places) -> Result<Read, Apart> {
    if let Some(trouble) = &entry.trouble {
        return Err(Apart::Unreadable(trouble.clone()));
    }
    let stream = input::read_file(&entry.path, places.hex).map_err(|error| Apart::Unreadable(error.to_string()))?;
    match odif::normal_form_in(places.by.edition(), &stream.octets) {
        Ok(normal) => Ok(Read { normal, size: stream.size }),
        Err(refusal) if refusal.rule == Rule::NormalFormTooLong => Err(Apart::TooLong),
        Err(_) => Err(Apart::Refused),
    }
}
