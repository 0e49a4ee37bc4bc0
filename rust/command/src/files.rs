//! The files of a run over folders.

use std::ffi::{OsStr, OsString};
use std::fs;
use std::io::{self, Read};
use std::os::unix::ffi::OsStrExt;
use std::path::{Path, PathBuf};

use clap::Args;
use walkdir::WalkDir;

use crate::asked::{By, Files};
use crate::pool;
use crate::progress::Progress;
use crate::show;
use crate::status::{Failure, tell};

/// Where a run finds its files.
#[derive(Args)]
pub struct Places {
    /// The folders, and files, to look at
    #[arg(value_name = "FOLDER")]
    pub folders: Vec<OsString>,
    /// A file with the names of files and folders to look at, one a line; `-` is standard input
    #[arg(long, value_name = "FILE")]
    pub files_from: Option<OsString>,
    /// Names in lists end with a zero octet, and not with a line end
    #[arg(short = '0', long)]
    pub null: bool,
    /// The files are hexadecimal digits in pairs
    #[arg(long)]
    pub hex: bool,
    #[command(flatten)]
    pub by: By,
    /// So many files at a time [default: as many as there are processors]
    #[arg(long, value_name = "N", value_parser = at_least_one)]
    pub jobs: Option<usize>,
}

/// A number of things, at least one.
pub fn at_least_one(digits: &str) -> Result<usize, String> {
    digits.parse().ok().filter(|&count| count > 0).ok_or_else(|| "it needs a number from 1".into())
}

/// A file to look at, or something that could not even be looked at.
pub struct Entry {
    pub path: PathBuf,
    /// Why it can't be read, if that is known already.
    pub trouble: Option<String>,
}

impl Places {
    /// One folder.
    pub fn of(folder: &OsStr, hex: bool, by: By, jobs: Option<usize>) -> Places {
        Places { folders: vec![folder.into()], files_from: None, null: false, hex, by, jobs }
    }

    /// All files in the folders and their subfolders, sorted, each once, but for those that are to be written. A folder
    /// that is not there is among them, as one that can't be read.
    pub fn list(&self, written: &[PathBuf]) -> Result<Vec<Entry>, Failure> {
        if self.folders.is_empty() && self.files_from.is_none() {
            return Err(Failure::Usage("a folder is missing".into()));
        }
        if self.folders.iter().any(|folder| folder == "-") {
            return Err(Failure::Usage("it looks at folders and files, not at standard input".into()));
        }
        let progress = Progress::finding();
        let mut entries = Vec::new();
        for folder in self.folders.iter().map(PathBuf::from).chain(named_in(self.files_from.as_deref(), self.null)?) {
            add_folder(&folder, &mut entries, &progress);
        }
        if pool::is_ended() {
            return Err(Failure::Cut("it was still looking for files, and nothing is written".into()));
        }
        let written: Vec<_> = written.iter().filter_map(|path| path.canonicalize().ok()).collect();
        entries.retain(|entry| !written.iter().any(|file| is_same_file(&entry.path, file)));
        entries.sort_by(|one, other| one.path.cmp(&other.path));
        entries.dedup_by(|one, other| one.path == other.path);
        Ok(entries)
    }
}

impl Files {
    /// The files in the order in which they are named, those of a folder sorted. What is neither a file nor a folder, as a
    /// pipe, is read where it is named itself.
    pub fn list(&self) -> Result<Vec<Entry>, Failure> {
        self.standard_input_once()?;
        let mut entries = Vec::new();
        // A file of a list whose name is `-` is a file.
        let listed = named_in(self.files_from.as_deref(), self.null)?.into_iter();
        let listed = listed.map(|name| if name.as_os_str() == "-" { "./-".into() } else { name });
        for name in self.names.iter().map(PathBuf::from).chain(listed) {
            let begin = entries.len();
            if name.as_os_str() != "-" && name.is_dir() {
                add_folder(&name, &mut entries, &Progress::finding());
                entries[begin..].sort_by(|one, other| one.path.cmp(&other.path));
            } else {
                entries.push(Entry { path: name, trouble: None });
            }
        }
        if entries.is_empty() {
            tell("odif: there are no files\n");
        }
        Ok(entries)
    }

    /// What stands on standard input is gone once it is read.
    fn standard_input_once(&self) -> Result<(), Failure> {
        match self.names.iter().chain(&self.files_from).filter(|file| *file == "-").count() {
            0 | 1 => Ok(()),
            _ => Err(Failure::Usage("`-` stands there twice, and standard input can be read once".into())),
        }
    }
}

/// The names that a list has, if there is one.
fn named_in(list: Option<&OsStr>, null: bool) -> Result<Vec<PathBuf>, Failure> {
    let Some(file) = list else { return Ok(Vec::new()) };
    let mut text = Vec::new();
    let read = if file == "-" {
        io::stdin().read_to_end(&mut text).map(|_| ())
    } else {
        fs::read(file).map(|read| text = read)
    };
    read.map_err(|error| Failure::File(format!("{}: {error}", show::name(file))))?;
    let end = if null { 0 } else { b'\n' };
    let names = text.split(|&octet| octet == end).filter(|name| !name.is_empty());
    Ok(names.map(|name| PathBuf::from(OsStr::from_bytes(name))).collect())
}

fn is_same_file(path: &Path, file: &Path) -> bool {
    path.file_name() == file.file_name() && path.canonicalize().is_ok_and(|path| path == file)
}

/// Lists a folder and the folders in it, or a file. Links to folders in it are not followed, so it ends.
fn add_folder(folder: &Path, entries: &mut Vec<Entry>, progress: &Progress) {
    for found in WalkDir::new(folder).into_iter().take_while(|_| !pool::is_ended()) {
        match found {
            Ok(found) if found.file_type().is_dir() => {}
            Ok(found) if found.file_type().is_file() => {
                entries.push(Entry { path: found.into_path(), trouble: None });
                progress.add(1);
            }
            Ok(found) => add_other(found.into_path(), entries),
            Err(error) => {
                let path = error.path().unwrap_or(folder).into();
                let trouble = error.into_io_error().map_or("it leads to itself".into(), |error| error.to_string());
                entries.push(Entry { path, trouble: Some(trouble) });
            }
        }
    }
}

/// Lists what may be a link or no file at all. What is neither a file nor a folder could keep a reader waiting.
fn add_other(path: PathBuf, entries: &mut Vec<Entry>) {
    let trouble = match fs::metadata(&path) {
        Ok(about) if about.is_file() => None,
        Ok(about) if about.is_dir() => return,
        Ok(_) => Some("neither a file nor a folder".into()),
        Err(error) => Some(error.to_string()),
    };
    entries.push(Entry { path, trouble });
}
