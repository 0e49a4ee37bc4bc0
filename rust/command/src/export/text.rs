//! Where the text of a file stands, and what stands there.

use std::fs::{self, File};
use std::io;
use std::os::unix::fs::OpenOptionsExt;
use std::path::{Path, PathBuf};

use nix::errno::Errno;
use nix::fcntl::OFlag;

use super::folder;
use crate::hash;

/// The place of a file's text, by the file's name below the archive.
pub fn place(out: &Path, file: &Path) -> PathBuf {
    let mut name = out.join(file).into_os_string();
    name.push(".txt");
    name.into()
}

/// Would the text lie in a folder with the name of one of the export's own files?
pub fn is_own(file: &Path) -> bool {
    let mut parts = file.components();
    let first = parts.next().map(|part| part.as_os_str());
    parts.next().is_some() && folder::OWN.iter().any(|own| first == Some(own.as_ref()))
}

/// What stands in the place of a text.
pub enum There {
    /// Nothing, or a folder: it has the texts of other letters in it.
    Nothing,
    Text {
        octets: u64,
        sha256: String,
    },
    /// What this export never puts there, as a link, or what can't be read.
    Other,
}

impl There {
    /// Reads what stands in a place. Its octets are hashed, all of them: what its name, its time and its length say may be
    /// true of other octets too.
    pub fn at(place: &Path) -> There {
        let options = OFlag::O_NOFOLLOW | OFlag::O_NONBLOCK;
        match File::options().read(true).custom_flags(options.bits()).open(place) {
            Ok(file) => There::of(file).unwrap_or(There::Other),
            Err(error) if is_nothing(&error) => There::Nothing,
            Err(_) => There::Other,
        }
    }

    fn of(file: File) -> io::Result<There> {
        let about = file.metadata()?;
        if about.is_dir() {
            return Ok(There::Nothing);
        }
        if !about.is_file() {
            return Ok(There::Other);
        }
        hash::of_rest(file).map(|(octets, sha256)| There::Text { octets, sha256 })
    }
}

/// Takes away the text in a place, and the folders that are empty then. Where a folder stands, there is no text.
pub fn withdraw(out: &Path, place: &Path) -> io::Result<()> {
    match fs::remove_file(place) {
        Ok(()) => {
            let above = place.ancestors().skip(1).take_while(|folder| *folder != out);
            // A folder that has something in it stays, and so do those above it.
            above.map(fs::remove_dir).take_while(Result::is_ok).for_each(drop);
            Ok(())
        }
        Err(error) if is_nothing(&error) || error.kind() == io::ErrorKind::IsADirectory => Ok(()),
        Err(error) => Err(error),
    }
}

/// Does this say that nothing is in the place?
fn is_nothing(error: &io::Error) -> bool {
    use io::ErrorKind::{InvalidFilename, NotADirectory, NotFound};
    matches!(error.kind(), NotFound | NotADirectory | InvalidFilename)
}

/// Does this say that the disk is full or lost, so that no other text can be written either?
pub fn is_of_disk(error: &io::Error) -> bool {
    use io::ErrorKind::{OutOfMemory, QuotaExceeded, ReadOnlyFilesystem, StaleNetworkFileHandle, StorageFull};
    let codes = [Errno::EIO, Errno::ENODEV, Errno::ENXIO, Errno::ENFILE, Errno::EMFILE].map(|code| code as i32);
    error.raw_os_error().is_some_and(|code| codes.contains(&code))
        || matches!(
            error.kind(),
            StorageFull | QuotaExceeded | ReadOnlyFilesystem | StaleNetworkFileHandle | OutOfMemory
        )
}
