//! What exactly is wrong with a refused stream, and where in it.
//!
//! The verdict is the proved library's. It tells the rule and the place; the cases of a rule are told apart by the
//! independent reader, which is asked only where it agrees.

use odif::{Edition, Kind, Refusal};
use reader::{Item, Length, Reading, Why};

use crate::asked::of_reader;
use crate::{foreign, items, show};

/// A refusal with all that is known of it.
pub struct Fault {
    pub number: u32,
    pub place: usize,
    /// The rule, with all its cases.
    pub sentence: &'static str,
    /// The case, in words that are the same for all streams with this fault.
    pub reason: String,
    /// The case with its facts.
    pub detail: String,
    /// The number and kind of the element in which it stands.
    pub element: Option<usize>,
    pub kind: Option<Kind>,
    /// The first octet of the item at fault, or for rule 12 those of the element's items.
    pub item: String,
    /// What the stream seems to be instead of a letter.
    pub foreign: Option<&'static str>,
    /// What the edition of 1993 has to say to it.
    pub hint: Option<String>,
}

impl Fault {
    /// Looks for the cause of a refusal.
    pub fn of(edition: Edition, stream: &[u8], refusal: &Refusal) -> Fault {
        let reading = Reading::by(of_reader(edition), stream);
        let items = reading.tree().items();
        let found = reading.refusal();
        let why = found.filter(|found| found.number() == refusal.number() && found.place as usize == refusal.place);
        let reason = why.map_or_else(|| refusal.rule.sentence().into(), |found| found.why.to_string());
        let around = Around { stream, items, place: refusal.place };
        let detail = why.and_then(|found| around.facts(found.why)).unwrap_or_else(|| reason.clone());
        let (element, kind) = match refusal.number() {
            2..=15 if !stream.is_empty() => around.element(),
            _ => (None, None),
        };
        Fault {
            number: refusal.number(),
            place: refusal.place,
            sentence: refusal.rule.sentence(),
            reason,
            detail,
            element,
            kind,
            item: around.item(refusal.number()),
            foreign: foreign::name(stream),
            hint: why.and_then(|found| hint(edition, stream, found)),
        }
    }

    /// Do the octets at the place tell anything?
    pub fn has_place(&self, stream: &[u8]) -> bool {
        (2..=15).contains(&self.number) && !stream.is_empty()
    }
}

/// What the edition of 1993 says to a stream that that of 1988 refuses for something that only 1993 has. The library is
/// asked.
fn hint(edition: Edition, stream: &[u8], found: reader::Refusal) -> Option<String> {
    if edition != Edition::Of1988 || found.why != Why::ElementOf1993 && found.number() != 12 {
        return None;
    }
    let what = if found.number() == 12 { "1993 has such text units" } else { "this is an element of 1993" };
    match odif::check_in(Edition::Of1993, stream).verdict {
        Ok(_) => Some(format!("{what}, and `--edition 1993` accepts the letter")),
        Err(refusal) if refusal.place > found.place as usize || found.why == Why::ElementOf1993 => {
            let (number, place) = (refusal.number(), refusal.place);
            Some(format!("{what}, but `--edition 1993` refuses the letter too, number {number} at octet {place}"))
        }
        Err(_) => None,
    }
}

/// The items around the place of a refusal.
struct Around<'a> {
    stream: &'a [u8],
    items: &'a [Item],
    place: usize,
}

impl<'a> Around<'a> {
    fn octet(&self) -> Option<u8> {
        self.stream.get(self.place).copied()
    }

    /// The number and the kind of the element around the place, or that would begin there.
    fn element(&self) -> (Option<usize>, Option<Kind>) {
        let elements = self.items.iter().filter(|item| item.level() == 1 && item.first() <= self.place);
        let is_around = |item: &Item| {
            let end = item.value().end;
            end > self.place || end == self.place && item.length() == Length::Indefinite
        };
        match elements.clone().next_back() {
            Some(last) if is_around(last) => (Some(elements.count() - 1), items::kind(last.octet())),
            _ => (Some(elements.count()), self.octet().and_then(items::kind)),
        }
    }

    /// The item at fault. What refuses an element by 12 is told by the octets of its items.
    fn item(&self, number: u32) -> String {
        match self.octet() {
            Some(octet) if (2..=11).contains(&number) => show::hex(&[octet]),
            Some(_) if number == 12 => items::shape(self.items, self.place),
            _ => String::new(),
        }
    }

    /// The innermost item around the place, as where it begins, and its limit; of none, the stream's end.
    fn limit(&self) -> (Option<usize>, usize) {
        let is_around = |item: &&Item| item.is_constructed() && item.value().contains(&self.place);
        let inner = self.items.iter().rev().find(is_around);
        inner.map_or((None, self.stream.len()), |item| (Some(item.first()), item.value().end))
    }

    /// The case with its facts, where there are more than its words tell.
    fn facts(&self, why: Why) -> Option<String> {
        let octet = self.octet();
        Some(match why {
            Why::WrongForm => {
                let form = if octet? & 0x20 == 0 { "primitive" } else { "constructed" };
                let number = u16::from(octet? & 0x1F);
                let name = items::universal(number).map_or(String::new(), |name| format!(" ({name})"));
                format!("universal {number}{name} stands in {form} form, which it never has")
            }
            Why::NoSuchElement => format!("no element begins with octet {:02X}", octet?),
            Why::LengthOctet => {
                format!("the first length octet is {:02X}; 85 to FF are none", self.stream.get(self.length_octet())?)
            }
            Why::ValuePastLimit => self.past_limit()?,
            Why::Unclosed => self.unclosed()?,
            Why::BooleanLength => format!("a boolean is {} octets long, and not one", self.stream.get(self.place + 1)?),
            Why::ObjectTypeRange | Why::ObjectTypeLength => {
                format!("{why}: {}", show::hex(self.named(&["object type"]).next()?.1))
            }
            Why::IdentifierMisspelt => {
                let (name, value) = self.named(&IDENTIFIERS).find(|(_, value)| !is_identifier(value))?;
                format!("the {name} \"{}\" is misspelt", show::beginning(value, 80))
            }
            Why::PortionMisspelt => {
                let (_, value) = self.named(&["portion"]).find(|(_, value)| !is_portion(value))?;
                format!("the portion number \"{}\" is misspelt", show::beginning(value, 80))
            }
            Why::IdentifierAgain => self.identifier_again()?,
            Why::PortionAgain => {
                let portions: Vec<_> = self.named(&["portion"]).map(|(_, value)| value).collect();
                let twice = (1..portions.len()).find(|&at| portions[..at].contains(&portions[at]))?;
                format!("the element lists the portion \"{}\" twice", show::escaped(portions[twice]))
            }
            _ => return None,
        })
    }

    /// Where the first length octet of the item at the place stands: after its type field, of one to three octets.
    fn length_octet(&self) -> usize {
        let at = |place: usize| self.stream.get(place).copied().unwrap_or(0);
        let more = match (at(self.place) & 0x1F, at(self.place + 1) & 0x80) {
            (0x1F, 0) => 1,
            (0x1F, _) => 2,
            _ => 0,
        };
        self.place + 1 + more
    }

    fn past_limit(&self) -> Option<String> {
        let (holder, limit) = self.limit();
        let from = self.length_octet();
        let first = *self.stream.get(from)?;
        let further = if first < 0x80 { 0 } else { usize::from(first & 0x7F) };
        let octets = self.stream.get(from + 1..from + 1 + further)?;
        let length = if first < 0x80 {
            usize::from(first)
        } else {
            octets.iter().fold(0, |sum, &octet| sum << 8 | usize::from(octet))
        };
        let left = limit - (from + 1 + further);
        let end = match holder {
            Some(at) if limit < self.stream.len() => format!("the item around it, at octet {at},"),
            _ => "the stream".into(),
        };
        let (says, left) = (show::counted(length, "octet"), show::grouped(left));
        Some(format!(
            "the item {:02X} says that its value has {says}; up to the end of {end} there is room for {left}",
            self.octet()?
        ))
    }

    fn unclosed(&self) -> Option<String> {
        let is_open = |item: &&Item| item.length() == Length::Indefinite && item.value().end == self.place;
        let item = self.items.iter().rev().find(is_open)?;
        let at = if self.place == self.stream.len() { "the stream ends" } else { "the item around it ends" };
        Some(format!("{at} before the indefinite item {:02X}, at octet {}, is closed", item.octet(), item.first()))
    }

    fn identifier_again(&self) -> Option<String> {
        let this = items::kind(self.octet()?)?;
        let mut around = (0, this);
        let mut earlier = Vec::new();
        for named in items::named(self.items).take_while(|named| named.item.first() < self.place) {
            if let Some(number) = named.element {
                around = (number, items::kind(named.item.octet())?);
            }
            if let Some(name) = named.name().filter(|name| IDENTIFIERS.contains(name)) {
                earlier.push((around, name, &self.stream[named.item.value()]));
            }
        }
        self.named(&IDENTIFIERS).find_map(|(name, value)| {
            let is_same = |((_, kind), other, theirs): &&((usize, Kind), &str, &[u8])| {
                *theirs == value && *other == name && space(*kind) == space(this)
            };
            let ((number, kind), ..) = earlier.iter().find(is_same)?;
            let value = show::escaped(value);
            Some(format!("the {name} \"{value}\" is that of element {number}, {}, already", show::one(kind.name())))
        })
    }

    /// The items of these names in the element at the place, each with its name and value.
    fn named(&self, names: &'a [&'static str]) -> impl Iterator<Item = (&'static str, &'a [u8])> {
        let (stream, place) = (self.stream, self.place);
        let past = self.items.iter().find(|item| item.first() == place).map_or(0, |item| item.value().end);
        let inside = items::named(self.items).filter(move |named| (place..past).contains(&named.item.first()));
        inside
            .filter_map(|named| Some((named.name().filter(|name| names.contains(name))?, &stream[named.item.value()])))
    }
}

const IDENTIFIERS: [&str; 3] = ["identifier", "layout identifier", "logical identifier"];

/// Identifiers of these kinds are held against each other: those of classes and objects, of units, and of styles.
fn space(kind: Kind) -> u8 {
    match kind {
        Kind::TextUnit => 1,
        Kind::PresentationStyle | Kind::LayoutStyle => 2,
        _ => 0,
    }
}

fn is_identifier(value: &[u8]) -> bool {
    value.len() <= 64
        && value.split(|&octet| octet == b' ').all(|group| !group.is_empty() && group.iter().all(u8::is_ascii_digit))
}

fn is_portion(value: &[u8]) -> bool {
    (1..=16).contains(&value.len()) && value.iter().all(u8::is_ascii_digit)
}
