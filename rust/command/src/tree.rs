//! `odif tree`
//!
//! The verdict and the header count are the proved library's. The library hands back no items, so the listing is made
//! by the independent reader, and held to that count.

use std::io::{self, Write};

use clap::Args;
use reader::{Item, Length, Reading};
use serde::Serialize;

use crate::asked::Asked;
use crate::input::{self, Source};
use crate::items::{self, Known, Named};
use crate::show;
use crate::status::{Failure, Outcome, Status};

/// The octets of a value that a line shows.
const SHOWN: usize = 32;

const EXAMPLES: &str = "\
Examples:
  odif tree letter.odif | head
  odif tree --json letter.odif | jq -r '.items[] | select(.name == \"document-date-and-time\").value'

Exit status: 0 accepted; 1 one was refused; 2 one could not be read.";

/// Lists the items, with their names and values
///
/// Lists the items in stream order: offset, level, class and number or type, length (octets of the value, or
/// `indefinite`; of a length that takes more octets than it must, how many), closing marks, and the names that the modules
/// of 1988 and 1993 give, with the values. Of a refused stream it lists the items that passed, and then says what refused
/// it. JSON has the whole values. The listing is made by a reader that is not proved, and held to the library's count.
#[derive(Args)]
#[command(after_help = EXAMPLES)]
pub struct Words {
    #[command(flatten)]
    asked: Asked,
}

/// What JSON has besides the verdict.
#[derive(Serialize)]
struct Items {
    items: Vec<Line>,
}

#[derive(Serialize)]
struct Line {
    offset: usize,
    level: u8,
    class: &'static str,
    number: u16,
    #[serde(rename = "type", skip_serializing_if = "Option::is_none")]
    type_: Option<&'static str>,
    constructed: bool,
    header: usize,
    length: Option<usize>,
    /// Of an indefinite item, where its closing mark stands, if it is closed.
    #[serde(skip_serializing_if = "Option::is_none")]
    closing_mark: Option<usize>,
    #[serde(skip_serializing_if = "Option::is_none")]
    element: Option<usize>,
    #[serde(skip_serializing_if = "Option::is_none")]
    name: Option<&'static str>,
    /// Of a primitive item, a number or a string as far as its type tells.
    #[serde(skip_serializing_if = "Option::is_none")]
    value: Option<serde_json::Value>,
    #[serde(skip_serializing_if = "Option::is_none")]
    meaning: Option<String>,
    /// Of a primitive item, the value in hexadecimal.
    #[serde(skip_serializing_if = "Option::is_none")]
    value_hex: Option<String>,
}

pub fn run(words: &Words) -> Outcome {
    input::each(&words.asked.files, words.asked.json, |source| {
        let stream = &source.stream;
        let checked = odif::check_in(source.edition, stream);
        let reading = Reading::of(stream);
        if reading.tree().items().len() != checked.headers {
            let message = format!("{}: the two readers differ on its items; please report this file", source.shown);
            return Err(Failure::File(message));
        }
        // Of a stream that the octet rules refuse, what lies past the place was not read.
        let read_to = match &checked.verdict {
            Err(refusal) if refusal.number() < 9 => refusal.place,
            _ => stream.len(),
        };
        let items: Vec<Named<'_>> = items::named(reading.tree().items()).collect();
        let lines = || items.iter().map(|named| json_line(source, named, read_to)).collect();
        let answer = Items { items: if words.asked.json { lines() } else { Vec::new() } };
        input::write_answer(&words.asked, source, &checked.verdict, &answer, |out| {
            input::heading(out, source)?;
            writeln!(out, "  offset level  item")?;
            write_items(out, source, &items, read_to)
        })?;
        Ok(Status::of(&checked.verdict))
    })
}

/// Where the closing mark of an indefinite item stands, if it was read.
fn closing_mark(item: &Item, read_to: usize) -> Option<usize> {
    let end = item.value().end;
    (item.length() == Length::Indefinite && end + 2 <= read_to).then_some(end)
}

/// Writes a line for each item, and for each closing mark where it stands.
fn write_items(out: &mut dyn Write, source: &Source<'_>, items: &[Named<'_>], read_to: usize) -> io::Result<()> {
    let mut open: Vec<(usize, u8)> = Vec::new();
    let close = |out: &mut dyn Write, open: &mut Vec<(usize, u8)>, before: usize| {
        while let Some((mark, level)) = open.pop_if(|(mark, _)| *mark < before) {
            writeln!(out, "{mark:8} {level:5}  {:pad$}closing mark", "", pad = 2 * (usize::from(level) - 1))?;
        }
        Ok::<(), io::Error>(())
    };
    for named in items {
        close(out, &mut open, named.item.first())?;
        writeln!(out, "{}", line(source, named))?;
        open.extend(closing_mark(named.item, read_to).map(|mark| (mark, named.item.level())));
    }
    close(out, &mut open, usize::MAX)
}

/// What is to be said of a length that is not in the fewest octets.
fn long_length(item: &Item) -> String {
    let octets = item.header_length() - item.type_length();
    let fewest = match item.length() {
        Length::Definite(length @ 0x80..) => 1 + (u32::BITS - length.leading_zeros()).div_ceil(8) as usize,
        _ => 1,
    };
    if octets > fewest { format!(" in {octets} octets") } else { String::new() }
}

fn line(source: &Source<'_>, named: &Named<'_>) -> String {
    let item = named.item;
    let level = usize::from(item.level());
    let form = if item.is_constructed() { " constructed" } else { "" };
    let tag = format!("{:pad$}{}{form}", "", named.tag(), pad = 2 * (level - 1));
    let length = match item.length() {
        Length::Definite(length) => format!("{length}{}", long_length(item)),
        Length::Indefinite => "indefinite".into(),
    };
    let element = named.element.map_or(String::new(), |number| format!("element {number} "));
    let remark = format!("{element}{} {}", named.name().unwrap_or_default(), value(source, named));
    format!("{:8} {level:5}  {tag:36} length {length:10}  {}", item.first(), remark.trim()).trim_end().into()
}

/// The value of a primitive item: what it means if that is known, else in hexadecimal.
fn value(source: &Source<'_>, named: &Named<'_>) -> String {
    if named.item.is_constructed() {
        return String::new();
    }
    let octets = &source.stream[named.item.value()];
    let (front, more) = (&octets[..octets.len().min(SHOWN)], if octets.len() > SHOWN { ".." } else { "" });
    match named.value(source.edition, octets) {
        _ if octets.is_empty() => String::new(),
        Some(Known::Number(number)) => number.to_string(),
        Some(Known::Named(number, name)) => format!("{number} ({name})"),
        Some(Known::Object(object)) => object,
        Some(Known::Bits(bits, names)) if names.is_empty() => format!("{}{more}", &bits[..bits.len().min(SHOWN)]),
        Some(Known::Bits(bits, names)) => format!("{}{more} ({names})", &bits[..bits.len().min(SHOWN)]),
        _ if show::is_plain_text(front) => format!("\"{}\"{more}", show::escaped(front)),
        _ => format!("{}{more}", show::hex(front)),
    }
}

fn json_line(source: &Source<'_>, named: &Named<'_>, read_to: usize) -> Line {
    let item = named.item;
    let octets = &source.stream[item.value()];
    let (value, meaning) = match named.value(source.edition, octets) {
        None => (None, None),
        Some(Known::Number(number)) => (Some(number.into()), None),
        Some(Known::Named(number, name)) => (Some(number.into()), Some(name.into())),
        Some(Known::Bits(bits, names)) => (Some(bits.into()), Some(names).filter(|names| !names.is_empty())),
        Some(Known::Object(text) | Known::Text(text)) => (Some(text.into()), None),
    };
    Line {
        offset: item.first(),
        level: item.level(),
        class: items::class_name(item.class()),
        number: item.number(),
        type_: items::universal(item.number()).filter(|_| item.class() == reader::Class::Universal),
        constructed: item.is_constructed(),
        header: item.header_length(),
        length: match item.length() {
            Length::Definite(length) => Some(length as usize),
            Length::Indefinite => None,
        },
        closing_mark: closing_mark(item, read_to),
        element: named.element,
        name: named.name(),
        value,
        meaning,
        value_hex: (!item.is_constructed()).then(|| show::hex(octets)),
    }
}
