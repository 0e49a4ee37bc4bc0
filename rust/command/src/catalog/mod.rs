//! `odif catalog`
//!
//! **The invariant**, which is that of an export: after a run that ended well each file has exactly one row, made from that
//! source's octets with those words by that library, with its lines, and there is no other line. Whatever is killed, when,
//! and with which words, the file is that of a run that ended.
//!
//! How it is kept ([docs/CATALOG.md](../../../../docs/CATALOG.md) says it for users): a catalog is written anew, beside its
//! place, and takes it when it is whole and on the disk. Rows of the one before are taken over if all that they tell is so
//! still, with their seals. Rows are written in the order of the names, so the file does not depend on what came before.

mod counts;
mod database;
mod earlier;
mod row;

use std::collections::BTreeMap;
use std::fs;
use std::io::{self, Write};
use std::path::{Path, PathBuf};

use clap::Args;

use self::counts::Counts;
use self::database::{Reader, Writer};
use self::earlier::{Done, Earlier, Step};
use self::row::Asked;
use crate::files::{Entry, Places};
use crate::pool::Pool;
use crate::progress::Progress;
use crate::status::{Failure, Outcome, tell};
use crate::text::How;
use crate::{beside, show};

const EXAMPLES: &str = "\
Examples:
  odif catalog archive -o letters.sqlite
  odif catalog --files-from list.txt -o letters.sqlite --prune
  odif catalog --merge host1.sqlite host2.sqlite -o letters.sqlite

Exit status: 0 all files are letters; 1 some were refused or are gone; 2 some could not be read, or the
catalog could not be written; 130 it was interrupted, and the catalog is as it was before.";

/// The words that say which files are read, and how: a merge reads none.
const OF_FILES: [&str; 8] = ["folders", "files_from", "hex", "prune", "edition", "side", "logical", "utf8"];

/// Makes one SQLite file of an archive, to be searched
///
/// Writes a row for each file in folders and their subfolders (the table `letters`: what became of it, its hash, its date, the
/// first letter that is the same), a row for each text unit in reading order (`lines`: letter, page, block, unit, where its
/// content stands in the file, and its text in UTF-8), and a full-text index of these (`search`, of SQLite's FTS5). A run after
/// another reads only what is new or changed. However runs end, the file is that of a run that ended well: it is written
/// beside and takes its place when it is whole. The row of a letter which is not among the files any more stays, and
/// says `gone`.
#[derive(Args)]
#[command(after_help = EXAMPLES)]
pub struct Words {
    #[command(flatten)]
    places: Places,
    /// The SQLite file
    #[arg(short, value_name = "OUT")]
    out: PathBuf,
    #[command(flatten)]
    how: How,
    /// Leave out the rows of letters that are gone
    #[arg(long)]
    prune: bool,
    /// Catalogs, to be taken together. A file that several have is taken from the last of them
    #[arg(long, value_name = "CATALOG", num_args = 1.., conflicts_with_all = OF_FILES)]
    merge: Vec<PathBuf>,
}

impl Words {
    /// How files are read, with every word that changes a row. Who adds a word decides here whether it does.
    fn asked(&self) -> Asked<'_> {
        let Words { places, how, out: _, prune: _, merge: _ } = self;
        let Places { hex, by, folders: _, files_from: _, null: _, jobs: _ } = places;
        let words = how.words_in_utf8(by.edition()) + if *hex { " hex" } else { "" };
        Asked { how, hex: *hex, edition: by.edition(), words }
    }
}

pub fn run(words: &Words) -> Outcome {
    if words.merge.is_empty() { make(words) } else { merge(words) }
}

fn make(words: &Words) -> Outcome {
    let pool = Pool::new(words.places.jobs)?;
    let entries = find(words)?;
    let reader = there(&words.out)?;
    let earlier = reader.as_ref().map_or_else(|| Ok(Earlier::default()), Earlier::read)?;
    let mut counts = Counts { files: entries.len(), ..Counts::default() };
    let (steps, pruned) = earlier.steps(entries, words.prune);
    counts.pruned = pruned;
    let asked = words.asked();
    let mut writer = Writer::create(&words.out)?;
    let progress = Progress::over(steps.len());
    let take_up = |step: &Step, done: Done| {
        progress.add(1);
        let row = earlier::taken_up(step, done, reader.as_ref(), &asked, &mut counts);
        row.iter().for_each(|row| counts.add(row));
        row.map_or(Ok(()), |row| writer.add(&row))
    };
    let cut = |done| {
        let (done, all) = (show::grouped(done), show::counted(steps.len(), "file"));
        format!("after {done} of {all}; the catalog is as it was before")
    };
    pool.in_order(&steps, |step| earlier.work(step, &asked), take_up, cut)?;
    drop(progress);
    writer.finish()?;
    counts.tell();
    io::stdout().write_all(counts.text().as_bytes())?;
    Ok(counts.status())
}

/// The catalog that stands in a place, if there is one. What is there and is no catalog ends the run.
fn there(out: &Path) -> Result<Option<Reader>, Failure> {
    let is_there = !fs::symlink_metadata(out).is_err_and(|error| error.kind() == io::ErrorKind::NotFound);
    is_there.then(|| Reader::open(out)).transpose()
}

fn shown(path: &Path) -> String {
    show::name(path.as_os_str())
}

/// The files. Where a folder is not there the run ends, and nothing is touched.
fn find(words: &Words) -> Result<Vec<Entry>, Failure> {
    for folder in &words.places.folders {
        fs::metadata(folder).map_err(|error| beside::failure(Path::new(folder), &error))?;
    }
    let entries = words.places.list(std::slice::from_ref(&words.out))?;
    if entries.is_empty() && words.prune {
        return Err(Failure::File("there are no files, and --prune would leave out every letter".into()));
    }
    Ok(entries)
}

/// Takes catalogs together.
fn merge(words: &Words) -> Outcome {
    let readers = words.merge.iter().map(|file| Reader::open(file)).collect::<Result<Vec<_>, _>>()?;
    there(&words.out)?;
    let mut rows = BTreeMap::new();
    for (number, reader) in readers.iter().enumerate() {
        let letters = reader.letters()?.into_iter();
        rows.extend(letters.filter_map(|(id, row)| Some((row.path()?, (number, id)))));
    }
    let mut writer = Writer::create(&words.out)?;
    let mut counts = Counts { files: rows.len(), ..Counts::default() };
    for (path, (number, id)) in rows {
        match readers[number].whole(id) {
            Some(row) => {
                counts.add(&row);
                writer.add(&row)?;
            }
            None => {
                counts.damaged += 1;
                tell(&format!("odif: {}: its row in {} was altered\n", shown(&path), shown(&words.merge[number])));
            }
        }
    }
    writer.finish()?;
    counts.tell();
    io::stdout().write_all(counts.text().as_bytes())?;
    Ok(counts.status())
}
