//! The folder that an export writes to: whose it is for the time of a run, and how a file gets its place in it.

use std::ffi::OsStr;
use std::fs::{self, File, TryLockError};
use std::io::{self, Read, Seek, Write};
use std::os::fd::AsRawFd;
use std::os::unix::ffi::OsStrExt;
use std::path::{Path, PathBuf};
use std::sync::atomic::{AtomicU64, Ordering};

use super::text;
use crate::beside;
use crate::show;
use crate::status::Failure;

/// The export's own names. The folder [`STAGE`] is there during a run only: what a dead run left is in it, and nowhere else.
pub const MANIFEST: &str = "manifest.csv";
pub const JOURNAL: &str = "manifest.part";
pub const LOCK: &str = "manifest.lock";
pub const STAGE: &str = ".odif-export";
pub const OWN: [&str; 4] = [MANIFEST, JOURNAL, LOCK, STAGE];

/// The folder, which is this run's alone until it ends, however it does: the system lets go of a dead one's lock.
pub struct Folder {
    pub out: PathBuf,
    next: AtomicU64,
    _lock: File,
}

/// A file that is written and not yet in its place.
pub struct Staged(PathBuf);

impl Folder {
    /// Makes the folder if it is not there, takes it for this run, and removes what a dead one left.
    pub fn take(out: &Path, archive: &Path) -> Result<Folder, Failure> {
        fs::create_dir_all(out).map_err(|error| beside::failure(out, &error))?;
        let path = out.join(LOCK);
        let open = File::options().read(true).write(true).create(true).truncate(false).open(&path);
        let mut lock = open.map_err(|error| beside::failure(&path, &error))?;
        match lock.try_lock() {
            Ok(()) => {}
            Err(TryLockError::WouldBlock) => return Err(is_taken(out)),
            Err(TryLockError::Error(error)) => return Err(beside::failure(&path, &error)),
        }
        note_archive(&mut lock, archive).map_err(|error| beside::failure(&path, &error))?;
        let folder = Folder { out: out.into(), next: AtomicU64::new(0), _lock: lock };
        let stage = folder.stage();
        clear(&stage).and_then(|()| fs::create_dir(&stage)).map_err(|error| beside::failure(&stage, &error))?;
        Ok(folder)
    }

    /// Where files are written before they get their places: on the same file system, so that a file gets it at once.
    fn stage(&self) -> PathBuf {
        self.out.join(STAGE)
    }

    /// A path for a new file that is to get a place.
    pub fn fresh(&self) -> PathBuf {
        self.stage().join(self.next.fetch_add(1, Ordering::Relaxed).to_string())
    }

    /// Writes a whole file, which has no place yet. What goes wrong here would go wrong with every other file too.
    pub fn write(&self, octets: &[u8]) -> Result<Staged, Failure> {
        let path = self.fresh();
        let written = File::create_new(&path).and_then(|mut file| file.write_all(octets));
        written.map_err(|error| beside::failure(&path, &error))?;
        Ok(Staged(path))
    }

    /// Gives a text its place, whatever file or link stands there; one that stands there keeps its permissions.
    pub fn put(&self, Staged(path): Staged, place: &Path) -> io::Result<()> {
        if let Ok(about) = fs::symlink_metadata(place)
            && about.is_file()
        {
            fs::set_permissions(&path, about.permissions())?;
        }
        let put = put_below_folders(&path, place);
        if put.is_err() {
            fs::remove_file(&path)?;
        }
        put
    }

    /// Gives one of the export's own files its place, on the disk.
    pub fn put_own(&self, path: &Path, name: &str) -> Result<(), Failure> {
        let place = self.out.join(name);
        let put = fs::rename(path, &place).and_then(|()| File::open(&self.out)?.sync_all());
        put.map_err(|error| beside::failure(&place, &error))
    }

    /// Puts all texts on the disk.
    pub fn sync_texts(&self) -> Result<(), Failure> {
        let synced = File::open(&self.out).and_then(|folder| Ok(nix::unistd::syncfs(folder.as_raw_fd())?));
        synced.map_err(|error| beside::failure(&self.out, &error))
    }

    /// The place of a file's text.
    pub fn text(&self, file: &Path) -> PathBuf {
        text::place(&self.out, file)
    }
}

impl Drop for Folder {
    /// What never got a place goes. Where that fails the next run does it.
    fn drop(&mut self) {
        let _ = clear(&self.stage());
    }
}

/// The folder for one who reads alone: no export may write to it meanwhile.
pub fn share(out: &Path) -> Result<Option<File>, Failure> {
    let path = out.join(LOCK);
    let lock = match File::open(&path) {
        Ok(lock) => lock,
        Err(error) if error.kind() == io::ErrorKind::NotFound => return Ok(None),
        Err(error) => return Err(beside::failure(&path, &error)),
    };
    match lock.try_lock_shared() {
        Ok(()) => Ok(Some(lock)),
        Err(TryLockError::WouldBlock) => Err(is_taken(out)),
        Err(TryLockError::Error(error)) => Err(beside::failure(&path, &error)),
    }
}

/// The archive that the last run noted.
pub fn noted_archive(mut lock: &File) -> Option<PathBuf> {
    let mut octets = Vec::new();
    lock.read_to_end(&mut octets).ok()?;
    let path = octets.strip_suffix(b"\n")?;
    Some(PathBuf::from(OsStr::from_bytes(path)))
}

/// Notes where the archive lies, for who verifies the export later.
fn note_archive(lock: &mut File, archive: &Path) -> io::Result<()> {
    let path = archive.canonicalize()?;
    let wanted = [path.as_os_str().as_bytes(), b"\n"].concat();
    let mut noted = Vec::new();
    lock.read_to_end(&mut noted)?;
    if noted != wanted {
        lock.set_len(0)?;
        lock.rewind()?;
        lock.write_all(&wanted)?;
    }
    Ok(())
}

fn is_taken(out: &Path) -> Failure {
    Failure::File(format!("{}: another export writes here", show::name(out.as_os_str())))
}

/// Removes a folder with all in it, if it is there.
fn clear(folder: &Path) -> io::Result<()> {
    match fs::remove_dir_all(folder) {
        Err(error) if error.kind() != io::ErrorKind::NotFound => Err(error),
        _ => Ok(()),
    }
}

/// Renames, and makes the folders above the place where they are not there. Another thread may remove one that is empty.
fn put_below_folders(path: &Path, place: &Path) -> io::Result<()> {
    const TRIES: usize = 1_000;
    for _ in 0..TRIES {
        match fs::rename(path, place) {
            Err(error) if error.kind() == io::ErrorKind::NotFound => {}
            renamed => return renamed,
        }
        match fs::create_dir_all(place.parent().unwrap_or(place)) {
            Err(error) if error.kind() != io::ErrorKind::NotFound => return Err(error),
            _ => {}
        }
    }
    fs::rename(path, place)
}
