//! The lines of letters that are not in the archive any more.

use std::collections::HashSet;
use std::ffi::OsStr;
use std::path::{Component, Path, PathBuf};

use super::earlier::Earlier;
use super::folder::Folder;
use super::line::{Became, Line};
use super::text::{self, There};
use crate::beside;
use crate::files::Entry;
use crate::names::Name;
use crate::status::Failure;

/// Finds out which letters are gone.
pub struct Gone<'a> {
    pub archive: &'a Path,
    /// What was found in the archive, sorted.
    pub entries: &'a [Entry],
    pub folder: &'a Folder,
    pub earlier: &'a Earlier,
}

impl Gone<'_> {
    /// The letters that are gone, in order, with their lines. With `prune` a letter's text goes, and it has no line any more.
    /// What lies in a folder that can't be read is not known to be gone, and stays.
    pub fn lines(&self, prune: bool) -> Result<Vec<(PathBuf, Option<Line>)>, Failure> {
        let troubles = self.entries.iter().filter(|entry| entry.trouble.is_some());
        let troubles: HashSet<&Path> = troubles.map(|entry| entry.path.as_path()).collect();
        let mut lines = Vec::new();
        for (name, file) in self.names() {
            let path = self.archive.join(&file);
            if self.is_there(&path) {
                continue;
            }
            let is_unseen = path.ancestors().any(|above| troubles.contains(above));
            if prune && !is_unseen {
                self.withdraw(&file)?;
                lines.push((file, None));
            } else {
                let outcome = if is_unseen { Became::Unseen } else { Became::Gone };
                let line = Line { outcome, ..self.line(name, &file)? }.sealed();
                lines.push((file, Some(line)));
            }
        }
        Ok(lines)
    }

    /// The files that earlier runs told of, in order. A name that no system has, or that leads out of the archive, is none.
    fn names(&self) -> impl Iterator<Item = (&Name, PathBuf)> {
        let names = self.earlier.names().into_iter();
        names.filter_map(|name| plain(&name.system()?).map(|file| (name, file)))
    }

    fn is_there(&self, path: &Path) -> bool {
        self.entries.binary_search_by(|entry| entry.path.as_path().cmp(path)).is_ok()
    }

    /// The line of the text that is there. A text that is no line's is taken away, for no one can tell what it is.
    fn line(&self, name: &Name, file: &Path) -> Result<Line, Failure> {
        let lines = self.earlier.of(name);
        let there = There::at(&self.folder.text(file));
        let told = lines.iter().rev().find(|line| line.has_text() && line.tells_of(&there));
        match (told, lines.last()) {
            (Some(line), _) => Ok(line.clone()),
            (None, last) => {
                self.withdraw(file)?;
                Ok(last.cloned().unwrap_or_default().without_text())
            }
        }
    }

    fn withdraw(&self, file: &Path) -> Result<(), Failure> {
        let place = self.folder.text(file);
        text::withdraw(&self.folder.out, &place).map_err(|error| beside::failure(&place, &error))
    }
}

/// A name below the archive, without the `./` that keeps a spreadsheet from running it.
fn plain(file: &OsStr) -> Option<PathBuf> {
    let parts = Path::new(file).components().filter(|part| *part != Component::CurDir);
    let names = parts.map(|part| if let Component::Normal(name) = part { Some(name) } else { None });
    names.collect()
}
