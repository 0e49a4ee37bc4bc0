//! Names of files in reports: each can be turned back into the name that the system knows.

use std::ffi::{OsStr, OsString};
use std::os::unix::ffi::{OsStrExt, OsStringExt};

use serde::{Deserialize, Serialize};

use crate::show;

/// A file's name for JSON and CSV. `file` is the name itself. Where that is no UTF-8, `file_octets` has it in
/// hexadecimal, and `file` is for people, with U+FFFD for what is none. Standard input is `-`.
#[derive(Clone, Debug, PartialEq, Eq, PartialOrd, Ord, Hash, Serialize, Deserialize)]
pub struct Name {
    pub file: String,
    #[serde(default, skip_serializing_if = "String::is_empty")]
    pub file_octets: String,
}

/// What begins a cell that a spreadsheet runs, the full-width forms too.
const RUN: [char; 10] = ['=', '+', '-', '@', '\t', '\r', '\u{FF1D}', '\u{FF0B}', '\u{FF0D}', '\u{FF20}'];

impl Name {
    /// The name of a file.
    pub fn of(file: &OsStr) -> Name {
        match file.to_str() {
            Some(text) => Name { file: text.into(), file_octets: String::new() },
            None => Name { file: file.to_string_lossy().into(), file_octets: show::hex(file.as_bytes()) },
        }
    }

    /// The name of a file as a cell of a CSV. A spreadsheet takes a cell that begins with one of [`RUN`] for a formula, so
    /// `./` stands before such a name: to the system it is a name of that file still.
    pub fn in_cell(file: &OsStr) -> Name {
        let name = Name::of(file);
        if name.file.starts_with(RUN) { Name { file: format!("./{}", name.file), ..name } } else { name }
    }

    /// The name as the system knows it; `None` if `file_octets` is not hexadecimal.
    pub fn system(&self) -> Option<OsString> {
        if self.file_octets.is_empty() {
            return Some(self.file.clone().into());
        }
        let digits = self.file_octets.as_bytes().chunks(2);
        let octets = digits.map(|pair| u8::from_str_radix(std::str::from_utf8(pair).ok()?, 16).ok());
        octets.collect::<Option<Vec<u8>>>().map(OsString::from_vec)
    }
}

#[cfg(test)]
mod tests {
    use std::path::Path;

    use super::*;

    #[test]
    fn every_name_can_be_turned_back() {
        let odd = OsStr::from_bytes(b"caf\xE9.odif");
        assert_eq!(Name::of(odd), Name { file: "caf\u{FFFD}.odif".into(), file_octets: "636166E92E6F646966".into() });
        for name in [odd, OsStr::new("a\\xE9\n\u{1B}.odif"), OsStr::new("ü, \"x\""), OsStr::new("-")] {
            assert_eq!(Name::of(name).system().as_deref(), Some(name));
        }
        for name in [odd, OsStr::new("=cmd|calc.odif"), OsStr::new("-"), OsStr::new("a=b")] {
            let back = Name::in_cell(name).system().unwrap();
            assert_eq!(Path::new("in").join(back), Path::new("in").join(name));
        }
        assert_eq!(Name::in_cell(OsStr::new("=1")).file, "./=1");
        assert_eq!(Name::in_cell(OsStr::new("a=1")).file, "a=1");
        let broken = Name { file: String::new(), file_octets: "6X".into() };
        assert_eq!(broken.system(), None);
    }
}
