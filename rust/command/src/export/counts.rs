//! What a run tells at its end.

use std::path::{Path, PathBuf};

use super::line::{Became, Line};
use super::strangers::Strangers;
use crate::show;
use crate::status::{Status, tell};

/// So many names of a kind are told; the manifest has all of them.
const NAMED: usize = 10;

/// How many files there were of each kind.
#[derive(Default)]
pub struct Counts {
    files: usize,
    accepted: usize,
    left_out: usize,
    refused: usize,
    unreadable: usize,
    unwritable: Named,
    gone: Named,
    pruned: Named,
    unseen: Named,
    strangers: Named,
    missing: Named,
    before: usize,
}

/// A count with the first names.
#[derive(Default)]
struct Named {
    count: usize,
    first: Vec<PathBuf>,
}

impl Named {
    fn add(&mut self, file: &Path) {
        self.count += 1;
        if self.count <= NAMED {
            self.first.push(file.into());
        }
    }

    /// Tells them on standard error.
    fn tell(&self, what: &str) {
        for file in &self.first {
            tell(&format!("odif: {}: {what}\n", show::name(file.as_os_str())));
        }
        if self.count > NAMED {
            tell(&format!("odif: and {} more: {what}\n", show::grouped(self.count - NAMED)));
        }
    }
}

impl Counts {
    /// A file of the archive.
    pub fn add(&mut self, file: &Path, line: &Line, before: bool) {
        self.files += 1;
        self.before += usize::from(before);
        match line.outcome {
            Became::Accepted => {
                self.accepted += 1;
                self.left_out += usize::from(line.left_out.is_some_and(|units| units > 0));
            }
            Became::Refused => self.refused += 1,
            Became::Unwritable => self.unwritable.add(file),
            _ => self.unreadable += 1,
        }
    }

    /// A letter that is not in the archive, with its line if that stays.
    pub fn add_gone(&mut self, file: &Path, line: Option<&Line>) {
        match line.map(|line| line.outcome) {
            Some(Became::Unseen) => self.unseen.add(file),
            Some(_) => self.gone.add(file),
            None => self.pruned.add(file),
        }
    }

    /// What is not as the lines tell.
    pub fn add_strangers(&mut self, found: &Strangers) {
        found.strangers.iter().for_each(|file| self.strangers.add(file));
        found.missing.iter().for_each(|file| self.missing.add(file));
    }

    /// Tells on standard error what needs a look.
    pub fn tell(&self) {
        if self.files == 0 {
            tell("odif: the archive has no files\n");
        }
        self.unwritable.tell("its text can't be written; the manifest says why");
        self.gone.tell("gone from the archive; its text and line stay until --prune");
        self.pruned.tell("gone from the archive; its text and line are removed");
        self.unseen.tell("in a folder of the archive that can't be read; its text and line stay");
        self.missing.tell("this text was written and is not there; does the file system take two names for one?");
        self.strangers.tell("this text is no letter's, and this export did not write it; move it away");
    }

    /// The report.
    pub fn text(&self) -> String {
        let mut text = format!(
            "{}\n{} with their text, {} of them with text units left out\n{} refused\n{} unreadable\n",
            show::counted(self.files, "file"),
            show::grouped(self.accepted),
            show::grouped(self.left_out),
            show::grouped(self.refused),
            show::grouped(self.unreadable),
        );
        for (named, what) in [
            (&self.unwritable, "unwritable"),
            (&self.gone, "gone from the archive, with their texts and lines still here"),
            (&self.pruned, "gone from the archive, and their texts and lines from here"),
            (&self.unseen, "in folders that can't be read, with their texts and lines still here"),
            (&self.missing, "of the texts are not there"),
            (&self.strangers, "here that are no letter's text"),
        ] {
            if named.count > 0 {
                text += &format!("{} {what}\n", show::grouped(named.count));
            }
        }
        text + &format!("{} were done before\n", show::grouped(self.before))
    }

    /// How the run ends.
    pub fn status(&self, strict: bool) -> Status {
        let named = [&self.unwritable, &self.unseen, &self.strangers, &self.missing];
        if self.unreadable > 0 || named.iter().any(|named| named.count > 0) {
            Status::Failed
        } else if self.refused + self.gone.count > 0 || strict && self.left_out > 0 {
            Status::Refused
        } else {
            Status::Accepted
        }
    }
}
