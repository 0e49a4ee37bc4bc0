//! The report of a survey, for people and as JSON.

use std::collections::BTreeMap;
use std::time::Duration;

use odif::Rule;
use serde::Serialize;

use super::tally::{Cause, Group, Remark, Tally};
use crate::{explain, show};

/// How many faults of a rule a report has a line for.
const FAULTS: usize = 10;

impl Tally {
    /// The report for people.
    pub fn text(&self, elapsed: Duration) -> String {
        let mut text = self.counts(elapsed);
        self.push_refused(&mut text);
        text += &format!("{} unreadable\n", show::grouped(self.unreadable()));
        self.unreadable.push_text(&mut text, "    ");
        let asked = [("letters by order", &self.orders), ("pages by PM1", &self.pages), ("text units", &self.units)];
        for (what, counts) in asked {
            if let Some(counts) = counts {
                let counts = counts.iter().map(|(word, count)| format!("{} {word}", show::grouped(*count)));
                let counts = counts.collect::<Vec<_>>().join(", ");
                text += &format!("{what}: {}\n", if counts.is_empty() { "none" } else { &counts });
            }
        }
        text
    }

    fn counts(&self, elapsed: Duration) -> String {
        let listed = match self.listed() {
            listed if listed == self.seen => String::new(),
            listed => format!(", {} listed,", show::grouped(listed)),
        };
        format!(
            "{}{listed} in {:.2} s, {} a second\n{} accepted\n{} refused\n",
            show::counted(self.seen, "file"),
            elapsed.as_secs_f64(),
            show::grouped(a_second(self.seen, elapsed)),
            show::grouped(self.accepted),
            show::grouped(self.refused()),
        )
    }

    fn push_refused(&self, text: &mut String) {
        for (number, causes) in &self.refused {
            *text += &format!("  number {number}, {}: {}\n", show::counted(count(causes), "file"), sentence(*number));
            let causes = sorted(causes);
            for (cause, group) in causes.iter().take(FAULTS) {
                *text += &format!("    {}: {}\n", show::counted(group.count, "file"), cause.words());
                group.push_text(text, "      ");
            }
            let rest = causes.iter().skip(FAULTS);
            let files = rest.clone().map(|(_, group)| group.count).sum();
            if files > 0 {
                let (files, faults) = (show::counted(files, "file"), show::counted(rest.len(), "other fault"));
                *text += &format!("    {files} of {faults}\n");
            }
        }
    }

    /// The report as one JSON object.
    pub fn json(&self, elapsed: Duration) -> String {
        let numbers = self.refused.iter().map(|(&number, causes)| {
            let faults = sorted(causes).into_iter().map(|(cause, group)| Fault { cause, group }).collect();
            Number { number, sentence: sentence(number), count: count(causes), faults }
        });
        let report = Report {
            files: self.seen,
            listed: self.listed(),
            seconds: (elapsed.as_secs_f64() * 1000.0).round() / 1000.0,
            files_a_second: a_second(self.seen, elapsed),
            accepted: self.accepted,
            refused: self.refused(),
            unreadable: self.unreadable(),
            numbers: numbers.collect(),
            unreadable_files: &self.unreadable.first,
            orders: &self.orders,
            pages: &self.pages,
            units: &self.units,
        };
        explain::json(&report) + "\n"
    }
}

/// What JSON has.
#[derive(Serialize)]
struct Report<'a> {
    files: usize,
    listed: usize,
    seconds: f64,
    files_a_second: usize,
    accepted: usize,
    refused: usize,
    unreadable: usize,
    numbers: Vec<Number<'a>>,
    unreadable_files: &'a [Remark],
    #[serde(skip_serializing_if = "Option::is_none")]
    orders: &'a Option<BTreeMap<String, usize>>,
    #[serde(skip_serializing_if = "Option::is_none")]
    pages: &'a Option<BTreeMap<String, usize>>,
    #[serde(skip_serializing_if = "Option::is_none")]
    units: &'a Option<BTreeMap<String, usize>>,
}

#[derive(Serialize)]
struct Number<'a> {
    number: u32,
    sentence: &'a str,
    count: usize,
    faults: Vec<Fault<'a>>,
}

#[derive(Serialize)]
struct Fault<'a> {
    #[serde(flatten)]
    cause: &'a Cause,
    #[serde(flatten)]
    group: &'a Group,
}

/// Whole files a second.
fn a_second(files: usize, elapsed: Duration) -> usize {
    (files as f64 / elapsed.as_secs_f64().max(1e-9)) as usize
}

fn count(causes: &BTreeMap<Cause, Group>) -> usize {
    causes.values().map(|group| group.count).sum()
}

/// The faults, the most frequent first.
fn sorted(causes: &BTreeMap<Cause, Group>) -> Vec<(&Cause, &Group)> {
    let mut causes: Vec<_> = causes.iter().collect();
    causes.sort_by_key(|(_, group)| std::cmp::Reverse(group.count));
    causes
}

fn sentence(number: u32) -> &'static str {
    Rule::from_number(number).map_or("an unknown rule", Rule::sentence)
}
