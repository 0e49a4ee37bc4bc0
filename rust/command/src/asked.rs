//! The words that several subcommands share: which files, by which edition, which side.

use std::ffi::OsString;

use clap::{Args, ValueEnum};
use odif::{Edition, Refusal, Side, Text};

/// The files of a subcommand.
#[derive(Args)]
pub struct Files {
    /// The files, and folders with all files in them and in their subfolders; `-` is standard input
    #[arg(required_unless_present = "files_from", value_name = "FILE")]
    pub names: Vec<OsString>,
    /// A file with the names of files and folders to look at, one a line; `-` is standard input
    #[arg(long, value_name = "LIST")]
    pub files_from: Option<OsString>,
    /// Names in the list end with a zero octet, and not with a line end
    #[arg(short = '0', long, requires = "files_from")]
    pub null: bool,
    /// The files are hexadecimal digits in pairs, with white space between pairs
    #[arg(long)]
    pub hex: bool,
    #[command(flatten)]
    pub by: By,
}

/// The files of a subcommand that answers for people or as JSON.
#[derive(Args)]
pub struct Asked {
    #[command(flatten)]
    pub files: Files,
    /// One JSON object a line and file, with all that is known
    #[arg(long)]
    pub json: bool,
}

/// By what letters are read.
#[derive(Args, Clone, Copy)]
pub struct By {
    /// The edition of the standard. Letters of 1993 may have protected parts, and text units without content or with
    /// tiles; those of 1988 are letters of 1993 too
    #[arg(long, value_name = "YEAR", default_value = "1988")]
    edition: Year,
}

#[derive(Clone, Copy, PartialEq, Eq, ValueEnum)]
enum Year {
    #[value(name = "1988")]
    Of1988,
    #[value(name = "1993")]
    Of1993,
}

impl By {
    /// The edition that was asked for.
    pub fn edition(self) -> Edition {
        match self.edition {
            Year::Of1988 => Edition::Of1988,
            Year::Of1993 => Edition::Of1993,
        }
    }
}

/// The independent reader's word for an edition.
pub fn of_reader(edition: Edition) -> reader::Edition {
    match edition {
        Edition::Of1988 => reader::Edition::Of1988,
        Edition::Of1993 => reader::Edition::Of1993,
    }
}

/// Which side of a letter is read.
#[derive(Args)]
pub struct Sides {
    /// The side: that of the layout objects or of the logical ones. `auto` is the layout side, or the
    /// logical one where only that has text
    #[arg(long, value_name = "SIDE", default_value = "auto")]
    side: Which,
    /// The same as --side logical
    #[arg(long, conflicts_with = "side")]
    logical: bool,
}

#[derive(Clone, Copy, PartialEq, Eq, ValueEnum)]
enum Which {
    Auto,
    Layout,
    Logical,
}

impl Sides {
    /// What was asked for, in a word.
    pub fn word(&self) -> &'static str {
        match self.side {
            _ if self.logical => "logical",
            Which::Layout => "layout",
            Which::Logical => "logical",
            Which::Auto => "auto",
        }
    }

    /// The side to read of this stream, and its text.
    pub fn text(&self, edition: Edition, stream: &[u8]) -> Result<(Side, Text), Refusal> {
        let text = |side| odif::text_in(edition, stream, side).map(|text| (side, text));
        match self.side {
            _ if self.logical => text(Side::Logical),
            Which::Layout => text(Side::Layout),
            Which::Logical => text(Side::Logical),
            Which::Auto => auto_text(edition, stream),
        }
    }
}

/// The side that is read where none is asked for, and its text: the layout side, or the logical one where only that has
/// text.
pub fn auto_text(edition: Edition, stream: &[u8]) -> Result<(Side, Text), Refusal> {
    let text = |side| odif::text_in(edition, stream, side).map(|text| (side, text));
    let layout = text(Side::Layout)?;
    if !layout.1.lines().is_empty() {
        return Ok(layout);
    }
    let logical = text(Side::Logical)?;
    Ok(if logical.1.lines().is_empty() { layout } else { logical })
}
