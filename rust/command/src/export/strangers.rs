//! Whether the texts in the folder are those of the lines.

use std::collections::HashSet;
use std::ffi::OsStr;
use std::path::{Path, PathBuf};

use walkdir::WalkDir;

use super::folder::STAGE;

/// What is not as the lines tell, sorted.
pub struct Strangers {
    /// Files with the name of a text that are no line's. No export wrote them, so none removes them either.
    pub strangers: Vec<PathBuf>,
    /// Texts of lines that are not in the list of their folder. Where they can be opened all the same, the file system takes
    /// two names for one.
    pub missing: Vec<PathBuf>,
}

impl Strangers {
    /// Looks at all names in the folder.
    pub fn find(out: &Path, mut texts: HashSet<PathBuf>) -> Strangers {
        let found = WalkDir::new(out).into_iter().filter_entry(|entry| entry.file_name() != OsStr::new(STAGE));
        let files = found.filter_map(Result::ok).filter(|entry| !entry.file_type().is_dir());
        let named_so = files.filter(|file| file.file_name().as_encoded_bytes().ends_with(b".txt"));
        let mut strangers: Vec<_> = named_so.map(|file| file.into_path()).filter(|file| !texts.remove(file)).collect();
        // What lies behind a link to a folder is not looked for.
        let mut missing: Vec<_> = texts.into_iter().filter(|text| !is_behind_link(out, text)).collect();
        strangers.sort();
        missing.sort();
        Strangers { strangers, missing }
    }
}

fn is_behind_link(out: &Path, text: &Path) -> bool {
    text.ancestors().skip(1).take_while(|folder| *folder != out).any(Path::is_symlink)
}
