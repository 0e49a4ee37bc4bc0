//! What a survey counts.

use std::collections::BTreeMap;

use serde::Serialize;

use super::record::{Record, Verdict};
use crate::names::Name;
use crate::show;
use crate::status::Status;

/// The counts of a survey and the first files of each kind.
pub struct Tally {
    named: usize,
    /// How many files were looked at, and how the worst of them ended. The other counts are those of files that are listed.
    pub(super) seen: usize,
    worst: Status,
    pub(super) accepted: usize,
    pub(super) refused: BTreeMap<u32, BTreeMap<Cause, Group>>,
    pub(super) unreadable: Group,
    /// How many letters are in which order, and how many pages have which verdict, where that was asked.
    pub(super) orders: Option<BTreeMap<String, usize>>,
    pub(super) pages: Option<BTreeMap<String, usize>>,
    /// How many text units are shown and not shown, where that was asked.
    pub(super) units: Option<BTreeMap<String, usize>>,
}

/// Adds the counts of a column such as `2 essential, 1 outside`; a word without a number counts once.
fn add_column(counts: &mut Option<BTreeMap<String, usize>>, column: Option<&str>) {
    let Some(column) = column else { return };
    let counts = counts.get_or_insert_default();
    for part in column.split(", ").filter(|part| !part.is_empty()) {
        let counted = part.split_once(' ').and_then(|(count, word)| Some((count.parse().ok()?, word)));
        let (count, word) = counted.unwrap_or((1, part));
        *counts.entry(word.into()).or_insert(0) += count;
    }
}

/// What files with one fault have in common.
#[derive(Clone, Debug, PartialEq, Eq, PartialOrd, Ord, Serialize)]
pub(super) struct Cause {
    reason: String,
    #[serde(skip_serializing_if = "String::is_empty")]
    kind: String,
    #[serde(skip_serializing_if = "String::is_empty")]
    item: String,
    #[serde(skip_serializing_if = "String::is_empty")]
    foreign: String,
}

impl Cause {
    /// Of a foreign file it is enough what it is.
    fn of(record: &Record) -> Cause {
        let Record { reason, kind, item, foreign, .. } = record;
        let [reason, kind, item, foreign] = match foreign.is_empty() {
            true => [reason, kind, item, foreign].map(String::clone),
            false => [String::new(), String::new(), String::new(), foreign.clone()],
        };
        Cause { reason, kind, item, foreign }
    }

    pub(super) fn words(&self) -> String {
        if !self.foreign.is_empty() {
            return format!("{}, and no letter", self.foreign);
        }
        let kind = if self.kind.is_empty() { String::new() } else { format!("{}, ", self.kind) };
        let item = if self.item.is_empty() { String::new() } else { format!("item {}, ", self.item) };
        format!("{kind}{item}{}", self.reason)
    }
}

/// Files with the same trouble: how many, and the first ones, each with what is to be said of it.
#[derive(Clone, Default, Serialize)]
pub(super) struct Group {
    pub(super) count: usize,
    pub(super) first: Vec<Remark>,
}

#[derive(Clone, Serialize)]
pub(super) struct Remark {
    #[serde(flatten)]
    name: Name,
    #[serde(skip_serializing_if = "Option::is_none")]
    place: Option<usize>,
    #[serde(skip_serializing_if = "String::is_empty")]
    reason: String,
}

impl Group {
    fn add(&mut self, named: usize, record: &Record) {
        if self.count < named {
            let reason = if record.outcome == Verdict::Unreadable { record.reason.clone() } else { String::new() };
            self.first.push(Remark { name: record.name(), place: record.place, reason });
        }
        self.count += 1;
    }

    pub(super) fn push_text(&self, text: &mut String, indent: &str) {
        for Remark { name, place, reason } in &self.first {
            let place = place.map_or(String::new(), |place| format!(" at octet {place}"));
            let reason = if reason.is_empty() { String::new() } else { format!(": {reason}") };
            let name = name.system().map_or_else(|| name.file.clone(), |name| show::name(&name));
            text.push_str(&format!("{indent}{name}{place}{reason}\n"));
        }
        if self.count > self.first.len() {
            text.push_str(&format!("{indent}and {} more\n", show::grouped(self.count - self.first.len())));
        }
    }
}

impl Tally {
    /// Nothing yet; so many files of each kind will be named.
    pub fn new(named: usize) -> Self {
        Tally {
            named,
            seen: 0,
            worst: Status::Accepted,
            accepted: 0,
            refused: BTreeMap::new(),
            unreadable: Group::default(),
            orders: None,
            pages: None,
            units: None,
        }
    }

    /// Takes notice of a file, whether or not it is listed.
    pub fn see(&mut self, record: &Record) {
        self.seen += 1;
        self.worst = self.worst.max(match record.outcome {
            Verdict::Accepted => Status::Accepted,
            Verdict::Refused => Status::Refused,
            Verdict::Unreadable => Status::Failed,
        });
    }

    /// Counts a file that is listed.
    pub fn add(&mut self, record: &Record) {
        add_column(&mut self.units, record.units.as_deref());
        add_column(&mut self.orders, record.order.as_deref());
        add_column(&mut self.pages, record.pages.as_deref());
        match record.outcome {
            Verdict::Accepted => self.accepted += 1,
            Verdict::Unreadable => self.unreadable.add(self.named, record),
            Verdict::Refused => {
                let causes = self.refused.entry(record.number.unwrap_or_default()).or_default();
                causes.entry(Cause::of(record)).or_default().add(self.named, record);
            }
        }
    }

    pub fn refused(&self) -> usize {
        self.refused.values().flat_map(BTreeMap::values).map(|group| group.count).sum()
    }

    pub fn unreadable(&self) -> usize {
        self.unreadable.count
    }

    pub(super) fn listed(&self) -> usize {
        self.accepted + self.refused() + self.unreadable()
    }

    /// How the survey ends: the worst that was met, listed or not.
    pub fn status(&self) -> Status {
        self.worst
    }
}
