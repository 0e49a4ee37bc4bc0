//! Items with their names and values.

use odif::{Edition, Kind};
use reader::{Class, Item};

use crate::modules::{self, Field, Value};
use crate::show;

/// An item with what is known of it.
pub struct Named<'t> {
    pub item: &'t Item,
    /// Its number among the elements, if it is one.
    pub element: Option<usize>,
    pub field: Option<&'static Field>,
}

impl Named<'_> {
    pub fn name(&self) -> Option<&'static str> {
        self.field.map(|field| field.name)
    }

    /// The class and number, or the type of a universal number.
    pub fn tag(&self) -> String {
        match (self.item.class(), universal(self.item.number())) {
            (Class::Universal, Some(name)) => name.into(),
            (class, _) => format!("{} {}", class_name(class), self.item.number()),
        }
    }

    /// The value of a primitive item, as far as its type or its name tells what it is.
    pub fn value(&self, edition: Edition, octets: &[u8]) -> Option<Known> {
        let known = self.field.map(|field| field.value).filter(|&value| value != Value::Plain);
        match known.unwrap_or_else(|| by_type(self.item)) {
            _ if self.item.is_constructed() => None,
            Value::Plain => None,
            Value::Number => number(octets).map(Known::Number),
            Value::Named(names) => number(octets).map(|number| meaning(number, names)),
            Value::NamedBy(names) => number(octets).map(|number| meaning(number, names[edition as usize])),
            Value::Object => object(octets).map(Known::Object),
            Value::Bits(names) => bits(octets).map(|bits| named_bits(bits, names)),
            Value::Text => show::ascii(octets).map(Known::Text),
        }
    }
}

/// A value that means something.
pub enum Known {
    Number(i64),
    Named(i64, &'static str),
    /// An object identifier.
    Object(String),
    /// ASCII.
    Text(String),
    /// Bits as digits, and the names of those that are set, as far as they have some.
    Bits(String, String),
}

fn meaning(number: i64, names: &[&'static str]) -> Known {
    let name = usize::try_from(number).ok().and_then(|number| names.get(number));
    name.map_or(Known::Number(number), |name| Known::Named(number, name))
}

/// Each item with its name, as the items around it tell.
pub fn named(items: &[Item]) -> impl Iterator<Item = Named<'_>> {
    let mut around: Vec<Option<&'static Field>> = Vec::new();
    let mut elements = 0..;
    items.iter().map(move |item| {
        around.truncate(usize::from(item.level()) - 1);
        let field = match around.last() {
            None => modules::field(None, item),
            Some(holder) => holder.and_then(|holder| modules::field(Some(holder), item)),
        };
        around.push(field);
        let element = if item.level() == 1 { elements.next() } else { None };
        Named { item, element, field }
    })
}

/// The kind of the element that begins with this octet.
pub fn kind(octet: u8) -> Option<Kind> {
    Kind::from_number(u32::from(octet & 0x1F)).filter(|_| octet >> 5 == 0b101)
}

/// The octets of the items in the element at this place, those of an item in brackets behind it; of equal ones that
/// follow each other, one.
pub fn shape(items: &[Item], place: usize) -> String {
    let Some(start) = items.iter().position(|item| item.first() == place) else { return String::new() };
    let inside = items[start + 1..].iter().take_while(|item| item.level() > 1);
    let mut shape = String::new();
    let mut level = 2;
    let mut last = None;
    for item in inside.filter(|item| item.level() <= 4).take(40) {
        let here = Some((item.level(), item.octet()));
        if here == last {
            continue;
        }
        shape.extend((level..item.level()).map(|_| '('));
        shape.extend((item.level()..level).map(|_| ')'));
        if item.level() <= level && !shape.is_empty() {
            shape.push(' ');
        }
        shape += &show::hex(&[item.octet()]);
        (level, last) = (item.level(), here);
    }
    shape.extend((2..level).map(|_| ')'));
    shape
}

/// The type of a universal number, by X.208; those of later editions are named too, since foreign files have them.
#[rustfmt::skip]
pub fn universal(number: u16) -> Option<&'static str> {
    const NAMES: [&str; 31] = [
        "", "BOOLEAN", "INTEGER", "BIT STRING", "OCTET STRING", "NULL", "OBJECT IDENTIFIER", "ObjectDescriptor",
        "EXTERNAL", "REAL", "ENUMERATED", "", "UTF8String", "", "", "", "SEQUENCE", "SET", "NumericString",
        "PrintableString", "T61String", "VideotexString", "IA5String", "UTCTime", "GeneralizedTime", "GraphicString",
        "VisibleString", "GeneralString", "UniversalString", "", "BMPString",
    ];
    NAMES.get(usize::from(number)).copied().filter(|name| !name.is_empty())
}

pub fn class_name(class: Class) -> &'static str {
    match class {
        Class::Universal => "universal",
        Class::Application => "application",
        Class::Context => "context",
        Class::Private => "private",
    }
}

fn by_type(item: &Item) -> Value {
    match (item.class(), item.number()) {
        (Class::Universal, 1) => Value::Named(&["false"]),
        (Class::Universal, 2 | 10) => Value::Number,
        (Class::Universal, 3) => Value::Bits(&[]),
        (Class::Universal, 6) => Value::Object,
        (Class::Universal, 4 | 18..=27) => Value::Text,
        _ => Value::Plain,
    }
}

/// An integer of at most eight octets.
fn number(octets: &[u8]) -> Option<i64> {
    let first = *octets.first().filter(|_| octets.len() <= 8)?;
    let sign = if first < 0x80 { 0 } else { -1 };
    Some(octets.iter().fold(sign, |number, &octet| number << 8 | i64::from(octet)))
}

/// The bits of a bit string: the first octet says how many of the last one are none.
fn bits(octets: &[u8]) -> Option<String> {
    let (&unused, octets) = octets.split_first()?;
    let digits: String = octets.iter().map(|octet| format!("{octet:08b}")).collect();
    let length = digits.len().checked_sub(usize::from(unused)).filter(|_| unused < 8)?;
    Some(digits[..length].into())
}

fn named_bits(bits: String, names: &[&str]) -> Known {
    let set = bits.bytes().zip(names).filter(|(bit, _)| *bit == b'1').map(|(_, name)| *name);
    let names = set.collect::<Vec<_>>().join(", ");
    Known::Bits(bits, names)
}

/// The numbers of an object identifier, with dots between them.
fn object(octets: &[u8]) -> Option<String> {
    let mut numbers = Vec::new();
    let mut number: u64 = 0;
    for &octet in octets {
        number = number.checked_mul(128)? + u64::from(octet & 0x7F);
        if octet < 0x80 {
            numbers.push(std::mem::take(&mut number));
        }
    }
    let first = *numbers.first().filter(|_| octets.last().is_some_and(|&last| last < 0x80))?;
    let root = (first / 40).min(2);
    numbers.splice(..1, [root, first - 40 * root]);
    Some(numbers.iter().map(u64::to_string).collect::<Vec<_>>().join("."))
}

#[cfg(test)]
mod tests {
    use super::*;

    #[test]
    fn numbers() {
        assert_eq!(number(&[0xFF, 0x7F]), Some(-129));
        assert_eq!(number(&[0, 0x80]), Some(128));
        assert_eq!(number(&[]), None);
        assert_eq!(number(&[1; 9]), None);
    }

    #[test]
    fn bit_strings() {
        assert_eq!(bits(&[4, 0xA5, 0xF0]).as_deref(), Some("101001011111"));
        assert_eq!(bits(&[0]).as_deref(), Some(""));
        assert_eq!((bits(&[]), bits(&[1]), bits(&[8, 0])), (None, None, None));
    }

    #[test]
    fn object_identifiers() {
        assert_eq!(object(&[0x58, 0x02, 0x06, 0x00]).as_deref(), Some("2.8.2.6.0"));
        assert_eq!(object(&[0x2A, 0x86, 0x48]).as_deref(), Some("1.2.840"));
        assert_eq!(object(&[0x2A, 0x86]), None);
        assert_eq!(object(&[]), None);
    }
}
