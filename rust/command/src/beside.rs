//! Writing a file so that its old content is there until the new one is whole.

use std::ffi::{OsStr, OsString};
use std::fs::{self, File, Permissions};
use std::io::{self, BufWriter, Write};
use std::os::unix::ffi::OsStrExt;
use std::os::unix::fs::PermissionsExt;
use std::path::{Path, PathBuf};
use std::sync::OnceLock;
use std::time::Duration;

use nix::sys::stat::{Mode, umask};
use tempfile::{Builder, NamedTempFile};

use crate::show;
use crate::status::Failure;

/// A file that is being written beside its place. It takes the place when it is finished, and is gone if it never is.
pub struct Beside {
    path: PathBuf,
    out: Out,
    /// What the file may be used for: as that which it replaces, or as a new file.
    permissions: Permissions,
}

enum Out {
    Beside(BufWriter<NamedTempFile>),
    /// What is no plain file, such as a pipe or a device, is written to as it is.
    Through(BufWriter<File>),
}

impl Beside {
    /// Begins a file for this place.
    pub fn create(path: &Path) -> Result<Beside, Failure> {
        // Most files are new; then there is nothing to ask about what stands there.
        if fs::symlink_metadata(path).is_err_and(|error| error.kind() == io::ErrorKind::NotFound) {
            return Beside::apart(path.into(), new_permissions());
        }
        // The file that a link leads to is written, and the link stays.
        let path = fs::canonicalize(path).unwrap_or_else(|_| path.into());
        match fs::metadata(&path) {
            Ok(about) if about.is_file() => Beside::apart(path, about.permissions()),
            Ok(about) => match File::options().write(true).open(&path) {
                Ok(file) => {
                    Ok(Beside { path, out: Out::Through(BufWriter::new(file)), permissions: about.permissions() })
                }
                Err(error) => Err(failure(&path, &error)),
            },
            Err(_) => Beside::apart(path, new_permissions()),
        }
    }

    fn apart(path: PathBuf, permissions: Permissions) -> Result<Beside, Failure> {
        let file = Builder::new().prefix(&begin_of_names(&path)).suffix(END_OF_NAMES).tempfile_in(folder(&path));
        // A lock tells those who look for leftovers that this one is being written; where there are none, its age does.
        match file.inspect(|file| drop(file.as_file().try_lock())) {
            Ok(file) => Ok(Beside { path, out: Out::Beside(BufWriter::new(file)), permissions }),
            Err(error) => Err(failure(&path, &error)),
        }
    }

    /// The file that is being written, for who writes to it by other means; none where it is no plain file.
    pub fn part(&self) -> Option<&Path> {
        match &self.out {
            Out::Beside(out) => Some(out.get_ref().path()),
            Out::Through(_) => None,
        }
    }

    /// Puts the finished file in its place, and on the disk.
    pub fn finish(self) -> Result<(), Failure> {
        let Beside { path, out, permissions } = self;
        let done = match out {
            Out::Through(mut out) => out.flush(),
            Out::Beside(out) => {
                out.into_inner().map_err(|error| error.into_error()).and_then(|file| put(file, &path, permissions))
            }
        };
        done.map_err(|error| failure(&path, &error))
    }

    /// Adds octets.
    pub fn add(&mut self, octets: &[u8]) -> Result<(), Failure> {
        self.write_all(octets).map_err(|error| failure(&self.path, &error))
    }
}

impl Write for Beside {
    fn write(&mut self, octets: &[u8]) -> io::Result<usize> {
        match &mut self.out {
            Out::Beside(out) => out.write(octets),
            Out::Through(out) => out.write(octets),
        }
    }

    fn flush(&mut self) -> io::Result<()> {
        match &mut self.out {
            Out::Beside(out) => out.flush(),
            Out::Through(out) => out.flush(),
        }
    }
}

/// What is written beside a file `x` is named `.x.`, six letters, and this.
const END_OF_NAMES: &str = ".odif-part";

/// A name that would be too long with this is left out.
fn begin_of_names(path: &Path) -> OsString {
    let name = path.file_name().filter(|name| name.len() < 200).unwrap_or_default();
    [OsStr::new("."), name, OsStr::new(".")].into_iter().collect()
}

/// Removes what runs that were killed while they wrote this file have left beside it: files of these names that no one has
/// locked, and that were not touched for a minute.
pub fn remove_leftovers(path: &Path) {
    let begin = begin_of_names(path);
    let found = fs::read_dir(folder(path)).into_iter().flatten().flatten();
    let is_named_so = |name: &OsStr| {
        let middle = name.as_bytes().strip_prefix(begin.as_bytes());
        middle.and_then(|rest| rest.strip_suffix(END_OF_NAMES.as_bytes())).is_some_and(|letters| letters.len() == 6)
    };
    for leftover in found.filter(|found| is_named_so(&found.file_name())).map(|found| found.path()) {
        if is_dead(&leftover) {
            let _ = fs::remove_file(leftover);
        }
    }
}

fn is_dead(file: &Path) -> bool {
    let about = fs::symlink_metadata(file).ok().filter(fs::Metadata::is_file);
    let age = about.and_then(|about| about.modified().ok()?.elapsed().ok());
    let is_free = || File::open(file).is_ok_and(|file| file.try_lock().is_ok());
    age.is_some_and(|age| age > Duration::from_secs(60)) && is_free()
}

/// Writes a whole file.
pub fn write(path: &Path, octets: &[u8]) -> Result<(), Failure> {
    let mut file = Beside::create(path)?;
    file.add(octets)?;
    file.finish()
}

/// What can't be written, with its name.
pub fn failure(path: &Path, error: &io::Error) -> Failure {
    Failure::File(format!("{}: {error}", show::name(path.as_os_str())))
}

fn put(file: NamedTempFile, path: &Path, permissions: Permissions) -> io::Result<()> {
    file.as_file().set_permissions(permissions)?;
    file.as_file().sync_all()?;
    file.persist(path).map_err(|error| error.error)?;
    File::open(folder(path))?.sync_all()
}

/// Those that a new file gets.
fn new_permissions() -> Permissions {
    // The mask can be asked for only by setting it, so that is done once.
    static MASK: OnceLock<u32> = OnceLock::new();
    let mask = MASK.get_or_init(|| {
        let mask = umask(Mode::empty());
        umask(mask);
        mask.bits()
    });
    Permissions::from_mode(0o666 & !mask)
}

fn folder(path: &Path) -> &Path {
    match path.parent() {
        Some(folder) if !folder.as_os_str().is_empty() => folder,
        _ => Path::new("."),
    }
}
