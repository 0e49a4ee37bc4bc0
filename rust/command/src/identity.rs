//! Which command and which library this is: what `odif --version` tells, and what an export writes beside each text. `--version`
//! also says whether the shared library that is installed beside the command is made of the archive that is in it.

use std::path::{Path, PathBuf};
use std::{env, fs};

const VERSION: &str = concat!(
    env!("CARGO_PKG_VERSION"),
    "\nlibrary   libodif.a, sha256 ",
    env!("ODIF_LIBRARY"),
    env!("ODIF_COMPILED"),
    "\ndesk      libpm1.a, sha256 ",
    env!("ODIF_DESK"),
    env!("ODIF_COMPILED"),
    "\nreader    odif.wasm, sha256 ",
    env!("ODIF_READER_HASH"),
    "\ncommit    ",
    env!("ODIF_COMMIT"),
    "\ntoolchain ",
    env!("ODIF_TOOLCHAIN")
);

/// What stands before the hash among the octets of an installed library (include/odif_sentence.c).
const MARK: &[u8] = b"libodif.a sha256 ";
const DIGITS: usize = 64;

/// The SHA-256 of the proved archive `libodif.a` that is in this command, or whose module is, compiled for its machine: the
/// library's identity.
pub const LIBRARY: &str = env!("ODIF_LIBRARY");

/// The version of the command and its commit: line ends after blocks and character sets are its own work.
pub const COMMAND: &str = concat!(env!("CARGO_PKG_VERSION"), " ", env!("ODIF_COMMIT"));

/// What the build writes where it could not find out.
const NOT_KNOWN: &str = "not known";

/// Can this library be told from another?
pub fn is_known() -> bool {
    LIBRARY != NOT_KNOWN
}

/// The text of `--version`. The installed library is read only where that is asked.
pub fn version() -> &'static str {
    if !env::args_os().any(|word| word == "--version") {
        return VERSION;
    }
    let installed = env::current_exe().ok().and_then(|command| installed_beside(&command));
    let Some((file, octets)) = installed.and_then(|file| fs::read(&file).ok().map(|octets| (file, octets))) else {
        return VERSION;
    };
    format!("{VERSION}\ninstalled {}: {}", file.display(), held(&octets)).leak()
}

/// Where `make install` puts the shared library of this series, beside the command's folder, if it is there.
fn installed_beside(command: &Path) -> Option<PathBuf> {
    let (series, _) = env!("CARGO_PKG_VERSION").rsplit_once('.')?;
    let file = command.parent()?.parent()?.join("lib").join(format!("libodif.so.{series}"));
    file.exists().then_some(file)
}

/// Whether the octets of a library name the archive that is in this command.
fn held(octets: &[u8]) -> String {
    match archive_of(octets) {
        Some(hash) if hash == LIBRARY => "made of this archive".into(),
        Some(hash) => format!("MADE OF ANOTHER ARCHIVE, sha256 {hash}"),
        None => "does not say of what it is made".into(),
    }
}

fn archive_of(octets: &[u8]) -> Option<&str> {
    let at = octets.windows(MARK.len()).position(|window| window == MARK)? + MARK.len();
    let hash = str::from_utf8(octets.get(at..at + DIGITS)?).ok()?;
    hash.bytes().all(|digit| digit.is_ascii_hexdigit()).then_some(hash)
}

#[cfg(test)]
mod tests {
    use super::*;

    #[test]
    fn an_installed_library_is_held_to_the_one_in_the_command() {
        let of = |hash: &str| held(&[b"\0\x7Fx", MARK, hash.as_bytes(), b"\0"].concat());
        assert_eq!(of(LIBRARY), "made of this archive");
        assert_eq!(of(&"a".repeat(64)), format!("MADE OF ANOTHER ARCHIVE, sha256 {}", "a".repeat(64)));
        assert_eq!(of(""), "does not say of what it is made");
        assert_eq!(held(b"no library"), "does not say of what it is made");
    }
}
