//! Letters whose text would have the name of a folder that has texts in it: a letter `x` beside a folder `x.txt`. The folder
//! has the name, whatever came first, so that each run decides alike.

use std::collections::HashSet;
use std::path::{Path, PathBuf};

use super::folder::Folder;
use super::text;
use super::work::below;
use crate::beside;
use crate::files::Entry;
use crate::status::Failure;

/// The places of texts that are those of folders.
pub struct Clashes(HashSet<PathBuf>);

impl Clashes {
    /// Finds them by the names alone.
    pub fn among(entries: &[Entry], archive: &Path, folder: &Folder) -> Clashes {
        let folders = entries.iter().flat_map(|entry| below(archive, &entry.path).ancestors().skip(1));
        let named_so = folders.filter(|folder| folder.as_os_str().as_encoded_bytes().ends_with(b".txt"));
        Clashes(named_so.map(|below| folder.out.join(below)).collect())
    }

    /// Is this the place of a folder?
    pub fn has(&self, place: &Path) -> bool {
        !self.0.is_empty() && self.0.contains(place)
    }

    /// Takes the texts away that stand in the places of folders. They were there before the folders.
    pub fn clear(&self, entries: &[Entry], archive: &Path, folder: &Folder) -> Result<(), Failure> {
        if self.0.is_empty() {
            return Ok(());
        }
        for place in
            entries.iter().map(|entry| folder.text(below(archive, &entry.path))).filter(|place| self.has(place))
        {
            text::withdraw(&folder.out, &place).map_err(|error| beside::failure(&place, &error))?;
        }
        Ok(())
    }
}
