//! `odif export`
//!
//! **The invariant.** Whatever was killed, when, and with which words: after a run that ended well every text in the folder
//! has exactly one line in the manifest, made from that source's octets with those words by that library, with that hash;
//! and whatever has no such line has no text.
//!
//! How it is kept ([docs/EXPORT.md](../../../../docs/EXPORT.md) says it for users):
//! - A file's line is in the journal before its text is touched, and the text is renamed into place whole (`work`). So
//!   at every moment each text that an export wrote is that of some line, in the manifest or in the journal.
//! - What an earlier run did is taken as done only if all that the line tells is so still (`Line::is_of`, `tells_of`). The
//!   octets of the text are hashed again each time: no state of a file tells that the disk gives back other octets. The
//!   source is not read again while its state is the same (`source`).
//! - A letter that is gone keeps its line and text, marked so, until `--prune` (`gone`). A text that no line tells of, and
//!   that no run wrote, is told and ends the run with 2 (`strangers`).
//! - The manifest takes its place last, when all texts are on the disk. Until then the one of before is there.
//! - The folder is one run's at a time (`folder`), and what is not in its place yet lies in one folder of its own.

mod clashes;
mod counts;
mod earlier;
mod folder;
mod gone;
mod journal;
pub mod line;
pub mod source;
mod strangers;
mod text;
mod verify;
mod work;

use std::collections::HashSet;
use std::ffi::OsString;
use std::fs;
use std::io::{self, Write};
use std::path::{Path, PathBuf};

use clap::Args;

use self::clashes::Clashes;
use self::counts::Counts;
use self::earlier::Earlier;
use self::folder::{Folder, MANIFEST};
use self::gone::Gone;
use self::journal::Journal;
use self::line::{COLUMNS, Line};
use self::strangers::Strangers;
use self::work::{Done, Work, below};
use crate::asked::By;
use crate::beside;
use crate::files::{Entry, Places, at_least_one};
use crate::pool::Pool;
use crate::progress::Progress;
use crate::show;
use crate::status::{Failure, Outcome};
use crate::survey::csv::Csv;
use crate::text::How;

const EXAMPLES: &str = "\
Examples:
  odif export archive texts
  odif export archive texts --utf8 --jobs 8
  odif export archive texts --prune
  find archive -name '*.odif' | odif export archive letters --files-from -
  odif export --verify texts

Exit status: 0 every letter has its text; 1 some were refused or are gone, with --strict also if
text was left out, with --verify if something differs; 2 some could not be read or written, or a
text is no letter's; 130 it was interrupted, and the next run goes on from there.";

/// Writes the text of a whole archive
///
/// Writes the text of each letter in a folder and its subfolders to a file of the same name with `.txt` behind it, in a
/// tree of folders like that of the archive, and `manifest.csv` with a line for each file: what became of it, how it was
/// read, by which library, and the hashes of the letter and of its text. A run after another writes only what is new or
/// changed, and goes on where an interrupted one ended. However runs end, and whatever their words: after one that ended
/// with 0 or 1 each text has exactly one line, which tells how it was made and its hash. A file that is refused or can't be
/// read has no text. That of a letter which is gone from the archive stays, and its line says `gone`.
#[derive(Args)]
#[command(after_help = EXAMPLES)]
pub struct Words {
    /// The folder with the letters
    #[arg(required_unless_present = "verify")]
    archive: Option<PathBuf>,
    /// The folder to write to, for the export alone; it is made if it is not there
    #[arg(required_unless_present = "verify", conflicts_with = "verify")]
    out: Option<PathBuf>,
    /// A file with the names of files and folders in ARCHIVE, one a line, which are exported and no others; `-` is standard input
    #[arg(long, value_name = "LIST", conflicts_with = "verify")]
    files_from: Option<OsString>,
    /// Names in the list end with a zero octet, and not with a line end
    #[arg(short = '0', long, requires = "files_from")]
    null: bool,
    #[command(flatten)]
    how: How,
    /// End with 1 if text units of some letter are left out, since no object of the side names them. Its text is written
    /// without them, and `left_out` in the manifest counts them
    #[arg(long, conflicts_with = "verify")]
    strict: bool,
    /// Remove the texts and lines of letters that are gone from the archive
    #[arg(long, conflicts_with = "verify")]
    prune: bool,
    /// Write nothing: hash the texts of an export again, and the letters where they are there, and tell what differs. The
    /// letters are looked for where the last run found them, or in ARCHIVE
    #[arg(long, value_name = "OUT", conflicts_with_all = ["side", "logical", "utf8", "edition"])]
    verify: Option<PathBuf>,
    /// The files are hexadecimal digits in pairs
    #[arg(long, conflicts_with = "verify")]
    hex: bool,
    #[command(flatten)]
    by: By,
    /// So many files at a time [default: as many as there are processors]
    #[arg(long, value_name = "N", value_parser = at_least_one)]
    jobs: Option<usize>,
}

impl Words {
    /// Every word that changes a text. Who adds a word decides here whether it does.
    fn how(&self) -> String {
        let Words { how, hex, by, archive: _, out: _, files_from: _, null: _, strict: _, prune: _, verify: _, jobs: _ } =
            self;
        how.words(by.edition()) + if *hex { " hex" } else { "" }
    }
}

pub fn run(words: &Words) -> Outcome {
    match (&words.verify, &words.archive, &words.out) {
        (Some(out), archive, _) => verify::run(out, archive.as_deref(), words.jobs),
        (None, Some(archive), Some(out)) => export(words, archive, out),
        _ => Err(Failure::Usage("it needs the archive and the folder to write to".into())),
    }
}

fn export(words: &Words, archive: &Path, out: &Path) -> Outcome {
    let pool = Pool::new(words.jobs)?;
    let entries = find(words, archive, out)?;
    let folder = &Folder::take(out, archive)?;
    let earlier = &Earlier::read(folder)?;
    let journal = Journal::begin(folder, earlier)?;
    let gone = Gone { archive, entries: &entries, folder, earlier }.lines(words.prune)?;
    let clashes = Clashes::among(&entries, archive, folder);
    clashes.clear(&entries, archive, folder)?;
    let mut told = Told::begin(folder)?;
    let progress = Progress::over(entries.len());
    let work = Work { words, archive, folder, earlier, journal: &journal, clashes, how: words.how() };
    let take_up = |entry: &Entry, done: Result<Done, Failure>| {
        progress.add(1);
        told.add(below(archive, &entry.path), &done?)
    };
    let cut = |done| {
        format!("after {} of {} files; run it again to go on", show::grouped(done), show::grouped(entries.len()))
    };
    pool.in_order(&entries, |entry| work.on(entry), take_up, cut)?;
    drop(progress);
    gone.iter().try_for_each(|(file, line)| told.add_gone(file, line.as_ref()))?;
    let counts = told.finish()?;
    journal.remove()?;
    counts.tell();
    io::stdout().write_all(counts.text().as_bytes())?;
    Ok(counts.status(words.strict))
}

/// What is told of a run: the lines of the manifest to be, and the counts.
struct Told<'a> {
    folder: &'a Folder,
    path: PathBuf,
    lines: Csv,
    texts: HashSet<PathBuf>,
    counts: Counts,
}

impl<'a> Told<'a> {
    fn begin(folder: &'a Folder) -> Result<Told<'a>, Failure> {
        let path = folder.fresh();
        let lines = Csv::create(&path, &COLUMNS)?;
        Ok(Told { folder, path, lines, texts: HashSet::new(), counts: Counts::default() })
    }

    fn add(&mut self, file: &Path, done: &Done) -> Result<(), Failure> {
        self.counts.add(file, &done.line, done.before);
        self.add_line(file, &done.line)
    }

    fn add_gone(&mut self, file: &Path, line: Option<&Line>) -> Result<(), Failure> {
        self.counts.add_gone(file, line);
        line.map_or(Ok(()), |line| self.add_line(file, line))
    }

    fn add_line(&mut self, file: &Path, line: &Line) -> Result<(), Failure> {
        if line.has_text() {
            self.texts.insert(self.folder.text(file));
        }
        self.lines.add(line)
    }

    /// Puts the texts on the disk, and then the manifest in its place.
    fn finish(mut self) -> Result<Counts, Failure> {
        self.counts.add_strangers(&Strangers::find(&self.folder.out, self.texts));
        self.folder.sync_texts()?;
        self.lines.finish()?;
        if let Ok(about) = fs::metadata(self.folder.out.join(MANIFEST)) {
            let _ = fs::set_permissions(&self.path, about.permissions());
        }
        self.folder.put_own(&self.path, MANIFEST)?;
        Ok(self.counts)
    }
}

/// The files of the archive. Where it is not there, or would be mixed up with what is written, the run ends, and nothing is
/// touched.
fn find(words: &Words, archive: &Path, out: &Path) -> Result<Vec<Entry>, Failure> {
    fs::read_dir(archive).map_err(|error| beside::failure(archive, &error))?;
    if lies_in(out, archive) {
        return Err(Failure::Usage("the folder to write to lies in the archive".into()));
    }
    if lies_in(archive, out) {
        return Err(Failure::Usage("the archive lies in the folder to write to".into()));
    }
    let entries = places(words, archive).list(&[])?;
    if let Some(other) = entries.iter().find(|entry| !entry.path.starts_with(archive)) {
        let (other, archive) = (show::name(other.path.as_os_str()), show::name(archive.as_os_str()));
        return Err(Failure::Usage(format!("{other}: the list names it, and it is not in {archive}")));
    }
    if entries.is_empty() && words.prune {
        return Err(Failure::File("the archive has no files, and --prune would remove every text".into()));
    }
    Ok(entries)
}

/// The whole archive, or what the list names.
fn places(words: &Words, archive: &Path) -> Places {
    let all = Places::of(archive.as_os_str(), words.hex, words.by, words.jobs);
    match &words.files_from {
        None => all,
        list => Places { folders: Vec::new(), files_from: list.clone(), null: words.null, ..all },
    }
}

/// Does the one lie in the other? What is not there yet lies where it would be made.
fn lies_in(inner: &Path, outer: &Path) -> bool {
    let inner = std::path::absolute(inner).unwrap_or_else(|_| inner.into());
    let there = inner.ancestors().find_map(|above| above.canonicalize().ok());
    matches!((there, outer.canonicalize()), (Some(inner), Ok(outer)) if inner.starts_with(&outer))
}
