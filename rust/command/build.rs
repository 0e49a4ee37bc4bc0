//! Finds out what `odif --version` tells: the commit, the toolchain that proved the libraries, and their hashes.

use std::env;
use std::path::{Path, PathBuf};
use std::process::Command;

fn main() {
    let here = PathBuf::from(env::var_os("CARGO_MANIFEST_DIR").expect("cargo sets it"));
    let folder = env::var_os("ODIF_LIB_DIR").map_or_else(|| here.join("../../target/here"), PathBuf::from);
    println!("cargo::rerun-if-changed=build.rs");
    println!("cargo::rerun-if-env-changed=ODIF_LIB_DIR");
    if let Some(log) = output("git", &["-C", &here.display().to_string(), "rev-parse", "--git-path", "logs/HEAD"]) {
        println!("cargo::rerun-if-changed={}", here.join(log).display());
    }
    let commit = output("git", &["-C", &here.display().to_string(), "rev-parse", "HEAD"]);
    let date = output("git", &["-C", &here.display().to_string(), "show", "-s", "--format=%cs", "HEAD"]);
    let toolchain = output("rt", &["version"]);
    // The proved archives are for x86-64.
    let machine = env::var("CARGO_CFG_TARGET_ARCH").expect("cargo sets it");
    let compiled =
        if machine == "x86_64" { String::new() } else { format!(", compiled for {machine} from its module") };
    println!("cargo::rustc-env=ODIF_COMPILED={compiled}");
    let (library, desk) = (proved(&folder.join("libodif.a")), proved(&folder.join("libpm1.a")));
    for (name, value) in [("COMMIT", commit), ("TOOLCHAIN", toolchain), ("LIBRARY", library), ("DESK", desk)] {
        println!("cargo::rustc-env=ODIF_{name}={}", value.as_deref().unwrap_or("not known"));
    }
    let (reader, own) = reader(&folder);
    println!("cargo::rustc-env=ODIF_READER={}", reader.display());
    println!("cargo::rustc-env=ODIF_READER_HASH={}", own.as_deref().unwrap_or("not known"));
    // The manual page's: of the commit, so that it is the same wherever it is built.
    println!("cargo::rustc-env=ODIF_DATE={}", date.unwrap_or_default());
}

/// The SHA-256 of a file, which cargo shall look at each time.
fn hash(file: &Path) -> Option<String> {
    println!("cargo::rerun-if-changed={}", file.display());
    output("sha256sum", &[&file.display().to_string()])?.split(' ').next().map(String::from)
}

/// The SHA-256 of the proved archive that a library is made of. One for another machine says it among its octets, as an
/// installed one does, and else it is the proved archive itself.
fn proved(library: &Path) -> Option<String> {
    let (itself, name) = (hash(library)?, library.file_name()?.to_str()?);
    let words = ["-a", "-o", &format!("{name} sha256 [0-9a-f]\\{{64\\}}"), library.to_str()?];
    Some(output("grep", &words).and_then(|said| said.split(' ').next_back().map(String::from)).unwrap_or(itself))
}

/// The library as WebAssembly, for the page of `odif view`, and its hash: where ODIF_LIB_DIR has it, else where `make` has it. Where it is not to be had
/// the file is empty, and the subcommand says so.
fn reader(folder: &Path) -> (PathBuf, Option<String>) {
    let at =
        if env::var_os("ODIF_LIB_DIR").is_some() { folder.to_path_buf() } else { folder.join("../portable/wasm32") };
    let file = std::path::absolute(at.join("odif.wasm")).expect("a path");
    let own = hash(&file);
    if own.is_some() {
        return (file, own);
    }
    println!(
        "cargo::warning={} is not there, so `odif view` will not work; `portable/build wasm32` makes it",
        file.display()
    );
    let none = PathBuf::from(env::var_os("OUT_DIR").expect("cargo sets it")).join("none.wasm");
    std::fs::write(&none, b"").expect("cargo's folder for this script can be written");
    (none, None)
}

/// The first line that a command writes, if it can be run and ends well.
fn output(command: &str, words: &[&str]) -> Option<String> {
    let output = Command::new(command).args(words).output().ok().filter(|output| output.status.success())?;
    String::from_utf8(output.stdout).ok()?.lines().next().map(String::from)
}
