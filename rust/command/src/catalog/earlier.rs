//! The catalog that is there, and which of its rows are taken over.

use std::collections::{HashMap, HashSet};
use std::fs;
use std::path::{Path, PathBuf};

use super::counts::Counts;
use super::database::Reader;
use super::row::{Asked, Row};
use crate::export::line::Became;
use crate::files::Entry;
use crate::status::{Failure, tell};
use crate::{identity, show};

/// A row to be: a file that is there, or one that is gone, or whose folder can't be read, with its earlier row's number.
pub enum Step {
    File(Entry),
    Gone(PathBuf, i64),
    Unseen(PathBuf, i64),
}

impl Step {
    pub fn path(&self) -> &Path {
        match self {
            Step::File(entry) => &entry.path,
            Step::Gone(path, _) | Step::Unseen(path, _) => path,
        }
    }
}

/// What the work on a step gives: a row, or the number of one that is to be taken over.
pub enum Done {
    Read(Box<Row>),
    Before(i64),
}

/// The rows of the catalog that is there, with their numbers, without their lines.
#[derive(Default)]
pub struct Earlier(HashMap<PathBuf, (i64, Row)>);

impl Earlier {
    /// Reads them.
    pub fn read(reader: &Reader) -> Result<Earlier, Failure> {
        let rows = reader.letters()?.into_iter().filter_map(|(id, row)| Some((row.path()?, (id, row))));
        Ok(Earlier(rows.collect()))
    }

    /// The number of the row of a file, if all that it tells is so still: the file is in the state in which it was read, and
    /// the words, the library and the command are those of then. Its lines are still to be looked at.
    fn of(&self, entry: &Entry, asked: &Asked<'_>) -> Option<i64> {
        let (id, row) = self.0.get(&entry.path).filter(|_| entry.trouble.is_none() && identity::is_known())?;
        let fresh = asked.blank(&entry.path).stamped(&fs::metadata(&entry.path).ok()?);
        (row.line.is_of(&fresh) && row.line.when_there() != Became::Unreadable).then_some(*id)
    }

    /// The files that are not among these, with the numbers of their rows.
    fn others(&self, entries: &[Entry]) -> Vec<Step> {
        let there: HashSet<&Path> = entries.iter().map(|entry| entry.path.as_path()).collect();
        let troubles = entries.iter().filter(|entry| entry.trouble.is_some());
        let troubles: HashSet<&Path> = troubles.map(|entry| entry.path.as_path()).collect();
        let others = self.0.iter().filter(|(path, _)| !there.contains(path.as_path()));
        let step = |(path, (id, _)): (&PathBuf, &(i64, Row))| {
            let is_unseen = path.ancestors().any(|above| troubles.contains(above));
            if is_unseen { Step::Unseen(path.clone(), *id) } else { Step::Gone(path.clone(), *id) }
        };
        others.map(step).collect()
    }

    /// What is to be done, in the order of the names, and how many rows of letters that are gone are left out of it.
    pub fn steps(&self, entries: Vec<Entry>, prune: bool) -> (Vec<Step>, usize) {
        let mut steps = self.others(&entries);
        let before = steps.len();
        steps.retain(|step| !prune || !matches!(step, Step::Gone(..)));
        let pruned = before - steps.len();
        steps.extend(entries.into_iter().map(Step::File));
        steps.sort_by(|one, other| one.path().cmp(other.path()));
        (steps, pruned)
    }

    /// The work on a step, as far as it needs no catalog.
    pub fn work(&self, step: &Step, asked: &Asked<'_>) -> Done {
        match step {
            Step::File(entry) => match self.of(entry, asked) {
                Some(id) => Done::Before(id),
                None => Done::Read(Box::new(asked.read(entry))),
            },
            Step::Gone(_, id) | Step::Unseen(_, id) => Done::Before(*id),
        }
    }
}

/// The row of a step. One of before that is not as it was written is as good as none: a file is read again, and of one that
/// is gone no one can tell what it was.
pub fn taken_up(
    step: &Step,
    done: Done,
    reader: Option<&Reader>,
    asked: &Asked<'_>,
    counts: &mut Counts,
) -> Option<Row> {
    let before = match done {
        Done::Read(row) => return Some(*row),
        Done::Before(id) => reader.and_then(|reader| reader.whole(id)),
    };
    match (step, before) {
        (Step::File(_), Some(row)) => {
            counts.before += 1;
            let outcome = row.line.when_there();
            Some(if outcome == row.line.outcome { row } else { row.with_outcome(outcome) })
        }
        (Step::File(entry), None) => Some(asked.read(entry)),
        (Step::Gone(..), Some(row)) => Some(row.with_outcome(Became::Gone)),
        (Step::Unseen(..), Some(row)) => Some(row.with_outcome(Became::Unseen)),
        (Step::Gone(path, _) | Step::Unseen(path, _), None) => {
            counts.damaged += 1;
            tell(&format!(
                "odif: {}: its row was altered, and it is not there to be read again\n",
                show::name(path.as_os_str())
            ));
            None
        }
    }
}
