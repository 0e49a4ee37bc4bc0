//! The dimensions of a page as they stand in its octets: how wide and high it is, and what of them is not two fixed numbers.
//!
//! The verdict on them is the proved library's. It tells no numbers, so they come from the independent reader's items.

use reader::Item;

use crate::show;

/// The items on the way: the descriptor body of an element, the dimensions in it, and a fixed dimension.
const DESCRIPTOR: u8 = 0x31;
const DIMENSIONS: u8 = 0xA4;
const FIXED: u8 = 0x80;
/// The most octets of a number.
const MOST: usize = 4;

/// What stands there.
#[derive(Debug, Default, PartialEq, Eq)]
pub struct Dimensions {
    /// Where the A4 stands, the first one if there are several.
    pub place: Option<usize>,
    /// Width and height in units of 1/1200 inch, if they are two fixed numbers.
    pub fixed: Option<(i32, i32)>,
    /// Why they are not.
    pub why: Option<String>,
}

impl Dimensions {
    /// Those in an element, of which these are the items, itself the first.
    pub fn of(stream: &[u8], items: &[Item]) -> Dimensions {
        let descriptor = below(items, 2).find(|item| item[0].octet() == DESCRIPTOR);
        let found: Vec<&[Item]> = descriptor
            .into_iter()
            .flat_map(|items| below(items, 3))
            .filter(|item| item[0].octet() == DIMENSIONS)
            .collect();
        let place = found.first().map(|items| items[0].first());
        match found[..] {
            [] => Dimensions::default(),
            [one] => match fixed(stream, one) {
                Ok(pair) => Dimensions { place, fixed: Some(pair), why: None },
                Err(why) => Dimensions { place, fixed: None, why: Some(why) },
            },
            _ => {
                let places = found.iter().map(|items| items[0].first().to_string()).collect::<Vec<_>>().join(", ");
                let why = format!("dimensions stand there {} times, at octets {places}", found.len());
                Dimensions { place, fixed: None, why: Some(why) }
            }
        }
    }
}

/// The items at a level, each with those in it, where none above the level follows.
fn below(items: &[Item], level: u8) -> impl Iterator<Item = &[Item]> {
    let inside = items.get(1..).unwrap_or_default();
    inside.chunk_by(move |_, next| next.level() > level)
}

/// The two numbers of dimensions, or why they are none.
fn fixed(stream: &[u8], items: &[Item]) -> Result<(i32, i32), String> {
    let inside: Vec<&Item> = below(items, 4).map(|items| &items[0]).collect();
    let [width, height] = inside[..] else {
        return Err(format!("the dimensions have {}, and not two", show::counted(inside.len(), "item")));
    };
    Ok((number(stream, width, "width")?, number(stream, height, "height")?))
}

/// A number of one to four octets, and no more than it needs.
fn number(stream: &[u8], item: &Item, what: &str) -> Result<i32, String> {
    let (octets, at) = (&stream[item.value()], item.first());
    let hex = || show::hex(octets);
    if item.octet() != FIXED {
        return Err(format!(
            "the {what}, at octet {at}, is an item {:02X}, and not a fixed dimension, 80",
            item.octet()
        ));
    }
    match octets {
        [] => Err(format!("the {what}, at octet {at}, is empty")),
        _ if octets.len() > MOST => {
            Err(format!("the {what}, at octet {at}, has {} octets, more than {MOST}", octets.len()))
        }
        [first, second, ..] if matches!((first, second), (0, 0..0x80) | (0xFF, 0x80..)) => {
            Err(format!("the {what}, at octet {at}, is {}, and not in the fewest octets", hex()))
        }
        [first, rest @ ..] => {
            let sign = i32::from(*first as i8);
            Ok(rest.iter().fold(sign, |number, &octet| number << 8 | i32::from(octet)))
        }
    }
}
