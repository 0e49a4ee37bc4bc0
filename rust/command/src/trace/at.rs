//! What stands at one octet of a file.

use std::io::{self, Write};
use std::ops::Range;

use odif::{Element, Side};
use serde::Serialize;

use super::Known;
use crate::show;
use crate::sources::{Place, Sources};

#[derive(Serialize)]
pub struct At {
    octet: usize,
    value_hex: String,
    element: usize,
    kind: &'static str,
    /// Where the element stands, and which of its fields the octet is in.
    place: Place,
    field: Option<Field>,
    /// Is it an octet of the date of the document?
    date: bool,
    /// The lines that it is on, of each side.
    lines: Vec<On>,
    #[serde(skip)]
    side: Side,
}

/// A field of the row of an element.
#[derive(Serialize)]
struct Field {
    name: &'static str,
    #[serde(flatten)]
    place: Place,
}

/// A line that an octet is on.
#[derive(Serialize)]
struct On {
    side: String,
    /// From 1.
    line: usize,
    /// Which octet of the line it is, from 0.
    octet: usize,
}

impl At {
    /// What stands at an octet of a letter.
    pub fn of(known: &Known<'_>, octet: usize) -> At {
        let elements = known.letter.elements();
        // An accepted stream is its elements, one after another.
        let number = elements.partition_point(|element| element.place.end <= octet);
        let element = &elements[number];
        At {
            octet,
            value_hex: show::hex(known.octets(&(octet..octet + 1))),
            element: number,
            kind: element.kind.name(),
            place: Place::of(&element.place),
            field: field(element, octet),
            date: known.date.as_ref().is_ok_and(|date| date.place.contains(&octet)),
            lines: lines(known, octet),
            side: known.side,
        }
    }

    pub fn write(&self, out: &mut dyn Write) -> io::Result<()> {
        let Place { first, past } = self.place;
        writeln!(out, "\noctet {}: {}", self.octet, self.value_hex)?;
        writeln!(out, "  in element {}, {}, at {first}..{past}", self.element, show::one(self.kind))?;
        match &self.field {
            Some(Field { name, place }) => writeln!(out, "  in its {name}, at {}..{}", place.first, place.past)?,
            None => writeln!(out, "  in none of the fields that its row tells")?,
        }
        if self.date {
            writeln!(out, "  in the date of the document")?;
        }
        if !self.lines.iter().any(|on| on.side == self.side.to_string()) {
            writeln!(out, "  on no line of the {} side", self.side)?;
        }
        for On { side, line, octet } in &self.lines {
            writeln!(out, "  on line {line} of the {side} side, octet {octet} of it, counted from 0")?;
        }
        Ok(())
    }
}

/// The field of an element's row that an octet is in. They lie apart.
fn field(element: &Element, octet: usize) -> Option<Field> {
    let fields: [(&'static str, &Option<Range<usize>>); 4] = [
        ("identifier", &element.identifier),
        ("logical identifier", &element.logical_identifier),
        ("portions", &element.portions),
        ("content", &element.content),
    ];
    fields.into_iter().find_map(|(name, place)| {
        let place = place.as_ref().filter(|place| place.contains(&octet))?;
        Some(Field { name, place: Place::of(place) })
    })
}

/// The lines that an octet is on: of the side that is asked first.
fn lines(known: &Known<'_>, octet: usize) -> Vec<On> {
    let on = |side: Side, sources: &Sources| {
        let (line, octet) = sources.line_at(octet)?;
        Some(On { side: side.to_string(), line: line + 1, octet })
    };
    let other = match known.side {
        Side::Layout => Side::Logical,
        Side::Logical => Side::Layout,
    };
    let stream = known.letter.stream();
    let there = odif::text_in(known.edition(), stream, other).expect("the text of an accepted letter");
    let there = Sources::of(known.edition(), stream, other, &there);
    [on(known.side, &known.sources), on(other, &there)].into_iter().flatten().collect()
}
