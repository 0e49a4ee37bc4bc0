//! Reading a file of the archive so that its line tells exactly the octets that were read.

use std::fs::{File, Metadata};
use std::io;
use std::os::unix::fs::MetadataExt;
use std::path::Path;
use std::thread;
use std::time::{Duration, SystemTime, UNIX_EPOCH};

use super::line::Line;
use crate::hash::Hashing;
use crate::input;

/// So long after a change the system's clock for files has gone on, and a further change gets another time.
const TICK: Duration = Duration::from_millis(20);

/// So often a file is read that changes while it is read.
const TRIES: usize = 5;

/// Reads a file: its line with the file's state and hash, and the stream. What was read is what the file had in that
/// state, and no later change leaves it in it.
pub fn read(path: &Path, hex: bool, line: &Line) -> io::Result<(Line, Vec<u8>)> {
    for _ in 0..TRIES {
        let file = File::open(path)?;
        let about = settled(&file)?;
        let stamped = line.clone().stamped(&about);
        let mut source = Hashing::of(&file);
        let stream = input::take(&mut source, Some(about.len()), hex)?;
        if stamped.has_stamp_of(&line.clone().stamped(&file.metadata()?)) {
            return Ok((Line { sha256: source.whole().unwrap_or_default(), ..stamped }, stream.octets));
        }
    }
    Err(io::Error::other("it changes while it is read"))
}

/// The state of an open file, at a moment when a change to come makes another one.
fn settled(file: &File) -> io::Result<Metadata> {
    for _ in 0..TRIES {
        let about = file.metadata()?;
        if age(&about).is_none_or(|age| age >= TICK) {
            return Ok(about);
        }
        thread::sleep(TICK);
    }
    Err(io::Error::other("it is being written"))
}

/// How long ago the file was changed; nothing if its time is still to come.
fn age(about: &Metadata) -> Option<Duration> {
    let seconds = u64::try_from(about.ctime()).ok()?;
    let changed = UNIX_EPOCH + Duration::new(seconds, u32::try_from(about.ctime_nsec()).ok()?);
    SystemTime::now().duration_since(changed).ok()
}

#[cfg(test)]
mod tests {
    use std::fs;
    use std::io::Write;
    use std::process::Command;

    use super::*;

    #[test]
    fn what_is_written_right_after_it_was_read_is_another_state() {
        let folder = tempfile::tempdir().unwrap();
        let path = folder.path().join("letter");
        for _ in 0..5 {
            fs::write(&path, "before").unwrap();
            let modified = fs::metadata(&path).unwrap().modified().unwrap();
            let (line, octets) = read(&path, false, &Line::default()).unwrap();
            fs::write(&path, "behind").unwrap();
            File::options().write(true).open(&path).unwrap().set_modified(modified).unwrap();
            assert_eq!(octets, b"before");
            assert!(!line.has_stamp_of(&Line::default().stamped(&fs::metadata(&path).unwrap())));
        }
    }

    /// More is written to a pipe than it holds, so its time changes after it was read from, and before its end.
    #[test]
    fn what_changes_while_it_is_read_is_not_taken() {
        let folder = tempfile::tempdir().unwrap();
        let path = folder.path().join("pipe");
        assert!(Command::new("mkfifo").arg(&path).status().unwrap().success());
        let pipe = path.clone();
        thread::spawn(move || {
            while let Ok(mut pipe) = File::options().write(true).open(&pipe) {
                // Who reads may have enough before this is written.
                let _ = pipe.write_all(&[0; 1 << 17]);
            }
        });
        let error = read(&path, false, &Line::default()).map(|(_, octets)| octets.len()).unwrap_err();
        assert_eq!(error.to_string(), "it changes while it is read");
    }
}
