//! Text units that the text of a side does not show, and where they stand.

use odif::{Edition, Kind, Side, Text};
use serde::Serialize;

use crate::asked::auto_text;
use crate::input::Source;
use crate::show;
use crate::status::tell;

/// So many of them are named to people.
const NAMED: usize = 3;

/// The text units of a letter, by one side.
pub struct Units {
    side: Side,
    count: usize,
    not_shown: Vec<Unit>,
}

/// A text unit that is not shown.
#[derive(Clone, Serialize)]
pub struct Unit {
    /// Its number among the elements, from 0.
    unit: usize,
    /// Where it begins.
    place: usize,
    /// Where the value stands that is its content, or that holds the pieces of it.
    first: usize,
    past: usize,
}

impl Unit {
    /// Which it is and where it stands, for people.
    pub fn in_words(&self) -> String {
        let Unit { unit, place, first, past } = self;
        let content = if past == first { "no content".into() } else { format!("its content at {first}..{past}") };
        format!("text unit {unit} at octet {place}, {content}")
    }
}

impl Units {
    /// Those of a side's text.
    pub fn of(side: Side, text: &Text) -> Units {
        let mut is_shown = vec![false; text.elements().len()];
        text.lines().iter().for_each(|line| is_shown[line.unit] = true);
        let elements = text.elements().iter().enumerate();
        let units = elements.filter(|(_, element)| element.kind == Kind::TextUnit);
        let not_shown = units.clone().filter(|(number, _)| !is_shown[*number]).map(|(unit, element)| {
            let content = element.content.clone().unwrap_or_default();
            Unit { unit, place: element.place.start, first: content.start, past: content.end }
        });
        Units { side, count: units.count(), not_shown: not_shown.collect() }
    }

    pub fn side(&self) -> Side {
        self.side
    }

    pub fn count(&self) -> usize {
        self.count
    }

    pub fn not_shown(&self) -> &[Unit] {
        &self.not_shown
    }

    /// The first of those that are not shown, in words.
    fn named(&self) -> String {
        let named = self.not_shown.iter().take(NAMED).map(|unit| format!("{} at octet {}", unit.unit, unit.place));
        let more = self.not_shown.len().saturating_sub(NAMED);
        let more = if more > 0 { format!(" and {} more", show::grouped(more)) } else { String::new() };
        let noun = if self.not_shown.len() == 1 { "element" } else { "elements" };
        format!("{noun} {}{more}", named.collect::<Vec<_>>().join(", "))
    }

    /// What `check` says behind its counts; nothing where all are shown.
    pub fn behind(&self) -> String {
        if self.not_shown.is_empty() {
            return String::new();
        }
        let left = show::counted(self.not_shown.len(), "text unit");
        let (side, of) = (self.side, show::grouped(self.count));
        format!("; {left} of {of} not shown by the {side} side: {}", self.named())
    }

    /// Tells on standard error of those that are not shown, and of the other side if it shows some. Gives back whether there
    /// are none.
    pub fn note(&self, source: &Source<'_>) -> bool {
        if self.not_shown.is_empty() {
            return true;
        }
        let left = show::counted(self.not_shown.len(), "text unit");
        let other = match self.side {
            Side::Layout => Side::Logical,
            Side::Logical => Side::Layout,
        };
        let there = odif::text_in(source.edition, &source.stream, other).map_or(0, |text| text.lines().len());
        let hint =
            if there > 0 { format!("; with --side {other} there are {}", show::grouped(there)) } else { String::new() };
        let (name, side, of, named) = (&source.shown, self.side, show::grouped(self.count), self.named());
        tell(&format!("odif: {name}: {left} of {of} not in the reading order of the {side} side: {named}{hint}\n"));
        false
    }

    /// How many are shown and how many are not, as `2 shown, 1 not shown`.
    fn counts(&self) -> String {
        let counts = [(self.count - self.not_shown.len(), "shown"), (self.not_shown.len(), "not shown")];
        let counts = counts.into_iter().filter(|(count, _)| *count > 0);
        counts.map(|(count, word)| format!("{count} {word}")).collect::<Vec<_>>().join(", ")
    }
}

/// The column of a survey: how many text units of a letter its text shows and does not show.
pub fn column(edition: Edition, stream: &[u8]) -> String {
    auto_text(edition, stream).map_or(String::new(), |(side, text)| Units::of(side, &text).counts())
}
