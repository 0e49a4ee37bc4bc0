//! The journal of a run: the line of each file, written before anything of its text is touched.

use std::fs::{self, File};
use std::io::{self, Write};
use std::path::PathBuf;
use std::sync::{Mutex, PoisonError};

use super::earlier::Earlier;
use super::folder::{Folder, JOURNAL};
use super::line::{COLUMNS, Line};
use crate::beside;
use crate::status::Failure;

/// The file that a run adds its lines to, from its begin until its manifest is in place.
pub struct Journal {
    place: PathBuf,
    file: Mutex<File>,
}

impl Journal {
    /// Begins a journal with what an unfinished one has told. It takes that one's place when it is whole and on the disk.
    pub fn begin(folder: &Folder, earlier: &Earlier) -> Result<Journal, Failure> {
        let path = folder.fresh();
        let mut octets = heading(earlier.manifest());
        earlier.unfinished().for_each(|line| octets.extend(line.record()));
        let begun = File::create_new(&path).and_then(|mut file| {
            file.write_all(&octets)?;
            file.sync_all()?;
            Ok(file)
        });
        let file = Mutex::new(begun.map_err(|error| beside::failure(&path, &error))?);
        folder.put_own(&path, JOURNAL)?;
        Ok(Journal { place: folder.out.join(JOURNAL), file })
    }

    /// Adds a line. When this returns, whoever is killed now has told it.
    pub fn announce(&self, line: &Line) -> Result<(), Failure> {
        let record = line.record();
        let mut file = self.file.lock().unwrap_or_else(PoisonError::into_inner);
        file.write_all(&record).map_err(|error| beside::failure(&self.place, &error))
    }

    /// The run is over, and the manifest has all lines.
    pub fn remove(self) -> Result<(), Failure> {
        fs::remove_file(&self.place).map_err(|error| beside::failure(&self.place, &error))
    }
}

/// What a journal begins with: the hash of the manifest that it goes on from, or of none, and the names of the columns.
fn heading(manifest: &str) -> Vec<u8> {
    format!("{manifest}\n{}\n", COLUMNS.join(",")).into_bytes()
}

/// The lines of a journal that goes on from this manifest. One that goes on from another is that of a run that has ended:
/// its manifest has all that it tells.
pub fn rest<'a>(octets: &'a [u8], manifest: &str) -> &'a [u8] {
    match octets.strip_prefix(manifest.as_bytes()) {
        Some(rest) => rest.strip_prefix(b"\n").unwrap_or_default(),
        None => &[],
    }
}

/// The octets of the journal that an unfinished run has left.
pub fn left(folder: &Folder) -> Result<Vec<u8>, Failure> {
    let place = folder.out.join(JOURNAL);
    match fs::read(&place) {
        Err(error) if error.kind() == io::ErrorKind::NotFound => Ok(Vec::new()),
        read => read.map_err(|error| beside::failure(&place, &error)),
    }
}
