//! Finds the library `libodif.a`: in `ODIF_LIB_DIR`, else where `packaging/archive odif` leaves that for this machine; and with
//! the feature `pm1` the PM1 desk, `libpm1.a`, beside it.
//!
//! The archive is copied to cargo's own folder and linked from there. What cargo keeps of this script's words then names
//! nothing but that folder, which goes along if the tree is copied or moved: a tree never links another one's library.

use std::path::{Path, PathBuf};
use std::{env, fs};

fn main() {
    println!("cargo::rerun-if-changed=build.rs");
    println!("cargo::rerun-if-env-changed=ODIF_LIB_DIR");
    let folder = PathBuf::from(env::var_os("ODIF_LIB_DIR").unwrap_or("../../target/here".into()));
    let out = PathBuf::from(env::var_os("OUT_DIR").expect("cargo's folder for this script"));
    println!("cargo::rustc-link-search=native={}", out.display());
    println!("cargo::rustc-env=ODIF_ARCHIVE={}", out.join("libodif.a").display());
    if env::var_os("CARGO_FEATURE_PM1").is_some() {
        link("pm1", &folder, &out);
    }
    link("odif", &folder, &out);
}

fn link(library: &str, folder: &Path, out: &Path) {
    let file = format!("lib{library}.a");
    let archive = folder.join(&file);
    // Cargo takes this path, if it is relative, from the package's folder, and so does this script.
    println!("cargo::rerun-if-changed={}", archive.display());
    if let Err(error) = fs::copy(&archive, out.join(&file)) {
        let archive = std::path::absolute(&archive).unwrap_or(archive);
        println!("cargo::error=the library {} cannot be taken: {error}", archive.display());
        println!(
            "cargo::error=run `packaging/archive {library}` at the repository's root, or name its folder in ODIF_LIB_DIR"
        );
        return;
    }
    println!("cargo::rustc-link-lib=static={library}");
}
