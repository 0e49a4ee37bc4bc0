//! What a survey finds out about one file: a line of its CSV.

use std::path::Path;

use odif::Edition;
use serde::{Deserialize, Deserializer, Serialize};

use crate::faults::Fault;
use crate::files::Entry;
use crate::input;
use crate::names::Name;
use crate::{date, order, pages, units};

#[derive(Clone, Copy, Debug, Default, PartialEq, Eq, Serialize, Deserialize)]
#[serde(rename_all = "lowercase")]
pub enum Verdict {
    Accepted,
    Refused,
    #[default]
    Unreadable,
}

/// The names of the columns that are always there, and of those that are asked for. The latter stand before the last one.
const COLUMNS: [&str; 14] = [
    "file",
    "outcome",
    "number",
    "place",
    "octets",
    "headers",
    "elements",
    "reason",
    "detail",
    "kind",
    "item",
    "foreign",
    "first_date",
    "file_octets",
];
const ORDER: &str = "order";
const PAGES: &str = "pages";
const UNITS: &str = "units";

/// Which of the columns that are asked for are there, and how they are filled.
#[derive(Clone, Copy, Default)]
pub struct Columns {
    pub order: bool,
    pub pages: bool,
    pub units: bool,
    /// The first date of refused files too.
    pub first_dates: bool,
}

impl Columns {
    /// Those of a line of names.
    pub fn of<'a>(names: impl Iterator<Item = &'a str> + Clone) -> Columns {
        let is_there = |column: &str| names.clone().any(|name| name == column);
        Columns { order: is_there(ORDER), pages: is_there(PAGES), units: is_there(UNITS), first_dates: false }
    }

    /// Those of either.
    pub fn or(self, other: Columns) -> Columns {
        Columns {
            order: self.order || other.order,
            pages: self.pages || other.pages,
            units: self.units || other.units,
            first_dates: self.first_dates || other.first_dates,
        }
    }

    /// The names of all columns.
    pub fn names(self) -> Vec<&'static str> {
        let asked = [(self.order, ORDER), (self.pages, PAGES), (self.units, UNITS)];
        let asked = asked.into_iter().filter(|(is_there, _)| *is_there);
        let (last, always) = COLUMNS.split_last().expect("some columns");
        always.iter().copied().chain(asked.map(|(_, name)| name)).chain([*last]).collect()
    }
}

/// One file. The fields are the columns, in their order.
#[derive(Default, Serialize, Deserialize)]
pub struct Record {
    pub file: String,
    pub outcome: Verdict,
    pub number: Option<u32>,
    pub place: Option<usize>,
    pub octets: Option<u64>,
    pub headers: Option<usize>,
    pub elements: Option<usize>,
    /// What refuses it, in words that are the same for all files with this fault, or why it can't be read.
    pub reason: String,
    /// What refuses it, with the facts.
    pub detail: String,
    /// The kind of element where it is refused.
    pub kind: String,
    /// The first octet of the item at fault, or the octets of the element's items.
    pub item: String,
    /// What the file seems to be instead of a letter.
    pub foreign: String,
    /// The date of the document by its first element. Of a refused file it is there only where that is asked. Surveys of
    /// before called it `date`.
    #[serde(default, alias = "date")]
    pub first_date: String,
    /// In which order a letter is, where that is asked: both, A, B or neither.
    #[serde(default, deserialize_with = "there", skip_serializing_if = "Option::is_none")]
    pub order: Option<String>,
    /// How many pages have which verdict of the PM1 desk, where that is asked.
    #[serde(default, deserialize_with = "there", skip_serializing_if = "Option::is_none")]
    pub pages: Option<String>,
    /// How many text units the text of a letter shows and does not show, where that is asked.
    #[serde(default, deserialize_with = "there", skip_serializing_if = "Option::is_none")]
    pub units: Option<String>,
    /// The file's name in hexadecimal, where it is no UTF-8.
    pub file_octets: String,
}

/// A column that is there, if empty.
fn there<'de, D: Deserializer<'de>>(field: D) -> Result<Option<String>, D::Error> {
    String::deserialize(field).map(Some)
}

impl Record {
    /// The record with these columns, empty where nothing was asked.
    pub fn with(mut self, columns: Columns) -> Record {
        self.order = columns.order.then(|| self.order.unwrap_or_default());
        self.pages = columns.pages.then(|| self.pages.unwrap_or_default());
        self.units = columns.units.then(|| self.units.unwrap_or_default());
        if self.outcome != Verdict::Accepted && !columns.first_dates {
            self.first_date.clear();
        }
        self
    }

    /// Judges a file.
    pub fn of(entry: &Entry, hex: bool, edition: Edition, columns: Columns) -> Record {
        let unreadable = |reason| Record { reason, ..Record::new(&entry.path, Verdict::Unreadable) };
        if let Some(trouble) = &entry.trouble {
            return unreadable(trouble.clone());
        }
        let stream = match input::read_file(&entry.path, hex) {
            Ok(stream) => stream,
            Err(error) => return unreadable(error.to_string()),
        };
        let checked = odif::check_in(edition, &stream.octets);
        let has_date = checked.verdict.is_ok() || columns.first_dates;
        let verdict = match checked.verdict {
            Ok(elements) => Record {
                number: Some(0),
                place: Some(0),
                elements: Some(elements),
                ..Record::new(&entry.path, Verdict::Accepted)
            },
            Err(refusal) => {
                let fault = Fault::of(edition, &stream.octets, &refusal);
                Record::new(&entry.path, Verdict::Refused).refused(fault)
            }
        };
        Record {
            octets: stream.size,
            headers: Some(checked.headers),
            first_date: if has_date { date::column(edition, &stream.octets) } else { String::new() },
            order: columns.order.then(|| order::column(edition, &stream.octets)),
            pages: columns.pages.then(|| pages::column(edition, &stream.octets)),
            units: columns.units.then(|| units::column(edition, &stream.octets)),
            ..verdict
        }
    }

    fn new(path: &Path, outcome: Verdict) -> Record {
        let Name { file, file_octets } = Name::in_cell(path.as_os_str());
        Record { file, outcome, file_octets, ..Record::default() }
    }

    fn refused(self, fault: Fault) -> Record {
        Record {
            number: Some(fault.number),
            place: Some(fault.place),
            elements: Some(0),
            reason: fault.reason,
            detail: fault.detail,
            kind: fault.kind.map_or(String::new(), |kind| kind.name().into()),
            item: fault.item,
            foreign: fault.foreign.unwrap_or_default().into(),
            ..self
        }
    }

    /// The file's name.
    pub fn name(&self) -> Name {
        Name { file: self.file.clone(), file_octets: self.file_octets.clone() }
    }
}
