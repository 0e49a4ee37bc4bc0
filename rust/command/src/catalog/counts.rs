//! What a run tells at its end.

use super::row::Row;
use crate::export::line::Became;
use crate::show;
use crate::status::{Status, tell};

/// How many files there were of each kind.
#[derive(Default)]
pub struct Counts {
    pub files: usize,
    pub accepted: usize,
    pub lines: usize,
    pub refused: usize,
    pub unreadable: usize,
    pub gone: usize,
    pub unseen: usize,
    pub pruned: usize,
    pub damaged: usize,
    pub before: usize,
}

impl Counts {
    /// A row.
    pub fn add(&mut self, row: &Row) {
        self.lines += row.texts.len();
        match row.line.outcome {
            Became::Accepted => self.accepted += 1,
            Became::Refused => self.refused += 1,
            Became::Gone => self.gone += 1,
            Became::Unseen => self.unseen += 1,
            Became::Unreadable | Became::Unwritable => self.unreadable += 1,
        }
    }

    /// Tells on standard error what needs a look.
    pub fn tell(&self) {
        if self.files == 0 {
            tell("odif: there are no files\n");
        }
    }

    /// The report.
    pub fn text(&self) -> String {
        let mut text = format!("{}\n", show::counted(self.files, "file"));
        for (count, what) in [(self.accepted, "letters"), (self.lines, "lines"), (self.refused, "refused")] {
            text += &format!("{} {what}\n", show::grouped(count));
        }
        text += &format!("{} unreadable\n", show::grouped(self.unreadable));
        for (count, what) in [
            (self.gone, "gone, with their rows still here until --prune"),
            (self.pruned, "gone, and their rows from here"),
            (self.unseen, "in folders that can't be read, with their rows still here"),
            (self.damaged, "left out, since their rows were altered"),
        ] {
            if count > 0 {
                text += &format!("{} {what}\n", show::grouped(count));
            }
        }
        text + &format!("{} were done before\n", show::grouped(self.before))
    }

    /// How the run ends.
    pub fn status(&self) -> Status {
        if self.unreadable + self.unseen + self.damaged > 0 {
            Status::Failed
        } else if self.refused + self.gone > 0 {
            Status::Refused
        } else {
            Status::Accepted
        }
    }
}
