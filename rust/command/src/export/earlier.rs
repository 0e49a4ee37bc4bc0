//! What earlier runs have told: the lines of the manifest, and of the journal that an unfinished run left.

use std::collections::HashMap;
use std::fs;
use std::io;
use std::path::Path;

use super::folder::{Folder, MANIFEST};
use super::journal;
use super::line::Line;
use crate::names::Name;
use crate::status::Failure;
use crate::{beside, hash, show};

/// The lines of each file. A file has several where a run was killed: its text is that of one of them, and its octets tell
/// of which.
pub struct Earlier {
    lines: HashMap<Name, Vec<Line>>,
    unfinished: Vec<Name>,
    manifest: String,
}

impl Earlier {
    /// Reads what is there.
    pub fn read(folder: &Folder) -> Result<Earlier, Failure> {
        let manifest = manifest(&folder.out)?.unwrap_or_default();
        let hash = hash::of(&manifest);
        let mut earlier = Earlier { lines: HashMap::new(), unfinished: Vec::new(), manifest: hash };
        for line in lines(&manifest) {
            earlier.add(line);
        }
        drop(manifest);
        let left = journal::left(folder)?;
        for line in lines(journal::rest(&left, &earlier.manifest)) {
            earlier.unfinished.push(line.name());
            earlier.add(line);
        }
        earlier.unfinished.sort();
        earlier.unfinished.dedup();
        Ok(earlier)
    }

    fn add(&mut self, line: Line) {
        let lines = self.lines.entry(line.name()).or_default();
        lines.retain(|other| *other != line);
        lines.push(line);
    }

    /// The lines of a file, the last one last.
    pub fn of(&self, name: &Name) -> &[Line] {
        self.lines.get(name).map_or(&[], Vec::as_slice)
    }

    /// The files that have lines, in order.
    pub fn names(&self) -> Vec<&Name> {
        let mut names: Vec<_> = self.lines.keys().collect();
        names.sort();
        names
    }

    /// All lines of the files that the unfinished journal tells of.
    pub fn unfinished(&self) -> impl Iterator<Item = &Line> {
        self.unfinished.iter().flat_map(|name| self.of(name))
    }

    /// The hash of the manifest, or of nothing where there is none.
    pub fn manifest(&self) -> &str {
        &self.manifest
    }
}

/// The octets of the manifest, if there is one. What an export has not written is not written over.
pub fn manifest(out: &Path) -> Result<Option<Vec<u8>>, Failure> {
    let place = out.join(MANIFEST);
    match fs::read(&place) {
        Ok(octets) if octets.is_empty() || octets.starts_with(b"file,outcome,") => Ok(Some(octets)),
        Ok(_) => {
            let name = show::name(place.as_os_str());
            Err(Failure::File(format!("{name}: this is not the manifest of an export; move it away")))
        }
        Err(error) if error.kind() == io::ErrorKind::NotFound => Ok(None),
        Err(error) => Err(beside::failure(&place, &error)),
    }
}

/// The lines that are whole. One that is cut or damaged is as good as none.
pub fn lines(octets: &[u8]) -> impl Iterator<Item = Line> {
    let lines = csv::Reader::from_reader(octets).into_deserialize::<Line>();
    lines.filter_map(Result::ok).filter(Line::is_whole)
}
