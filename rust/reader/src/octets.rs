//! One header: what stands at a position, by rules 2 to 8.

use crate::refusal::Why;

/// The deepest level of an item; top elements are at level 1.
pub const DEEPEST: u8 = 16;

/// The class of an item: bits 8 and 7 of its first octet.
#[derive(Clone, Copy, Debug, PartialEq, Eq)]
pub enum Class {
    /// Bits 00.
    Universal,
    /// Bits 01.
    Application,
    /// Bits 10.
    Context,
    /// Bits 11.
    Private,
}

impl Class {
    /// The class that a first octet names.
    pub fn of(octet: u8) -> Self {
        match octet >> 6 {
            0 => Class::Universal,
            1 => Class::Application,
            2 => Class::Context,
            _ => Class::Private,
        }
    }
}

/// The length that a header states.
#[derive(Clone, Copy, Debug, PartialEq, Eq)]
pub enum Length {
    /// As many value octets.
    Definite(u32),
    /// Up to the closing mark.
    Indefinite,
}

/// A header that has passed 2 to 8: how many octets it takes, and its type field; the number and the length it states.
#[derive(Clone, Copy, Debug)]
pub(crate) struct Header {
    pub size: u8,
    pub field: u8,
    pub number: u16,
    pub length: Length,
}

/// Bit 6 of a first octet: is the item constructed?
pub(crate) fn is_constructed(octet: u8) -> bool {
    octet & 0x20 != 0
}

/// "Universal numbers have a fixed table of 31 entries for their form."
fn has_form(octet: u8) -> bool {
    match octet & 0x1F {
        1 | 2 | 5 | 6 | 9 | 10 => !is_constructed(octet),
        8 | 16 | 17 => is_constructed(octet),
        3 | 4 | 7 | 11 | 18..=27 => true,
        _ => false,
    }
}

/// What begins `room`, the octets from a position to its limit, of which there is at least one: a header, a closing
/// mark (`None`), or the first of the faults 2 to 8. `marked` says that the innermost open item is indefinite.
#[inline]
pub(crate) fn meet(room: &[u8], marked: bool, level: u8) -> Result<Option<Header>, Why> {
    match room {
        [0, ..] if !marked => Err(Why::ZeroOutsideIndefinite),
        [0, 0, ..] => Ok(None),
        [0, _, ..] => Err(Why::HalfClosingMark),
        [0] => Err(Why::MarkPastLimit),
        _ if level > DEEPEST => Err(Why::TooDeep),
        [octet, ..] => {
            let (field, number) = type_field(room)?;
            let (more, length) = length(*octet, &room[field..])?;
            Ok(Some(Header { size: (field + more) as u8, field: field as u8, number, length }))
        }
        [] => Err(Why::HeaderPastLimit),
    }
}

/// The type field at the front of `room`: how many octets it takes, and its number. A number above 30 stands in one or
/// two octets after the first, seven bits each, with bit 8 set on all but the last.
#[inline]
fn type_field(room: &[u8]) -> Result<(usize, u16), Why> {
    let universal = Class::of(room[0]) == Class::Universal;
    let read = match room {
        [octet, ..] if octet & 0x1F < 0x1F => {
            if universal && !has_form(*octet) {
                return Err(Why::WrongForm);
            }
            return Ok((1, u16::from(octet & 0x1F)));
        }
        [_, 0x80, ..] => return Err(Why::NumberPadded),
        [_, 0..=0x1E, ..] => return Err(Why::NumberUnder31),
        [_, number @ 0x1F..=0x7F, ..] => (2, u16::from(*number)),
        [_, _, 0x80..=0xFF, ..] => return Err(Why::NumberOver16383),
        [_, high, low, ..] => (3, u16::from(high & 0x7F) << 7 | u16::from(*low)),
        _ => return Err(Why::HeaderPastLimit),
    };
    if universal { Err(Why::UniversalOver30) } else { Ok(read) }
}

/// The length octets at the front of `rest`, which follow a type field with this first octet: how many there are, and
/// what they state.
#[inline]
fn length(octet: u8, rest: &[u8]) -> Result<(usize, Length), Why> {
    match rest {
        [0x80, ..] if is_constructed(octet) => Ok((1, Length::Indefinite)),
        [0x80, ..] => Err(Why::IndefinitePrimitive),
        [0x85..=0xFF, ..] => Err(Why::LengthOctet),
        [length @ 0..=0x7F, value @ ..] => Ok((1, definite(octet, u32::from(*length), value)?)),
        [first @ 0x81..=0x84, rest @ ..] => {
            let count = usize::from(first - 0x80);
            let (octets, value) = rest.split_at_checked(count).ok_or(Why::HeaderPastLimit)?;
            let length = octets.iter().fold(0, |sum, &next| sum << 8 | u32::from(next));
            Ok((1 + count, definite(octet, length, value)?))
        }
        [] => Err(Why::HeaderPastLimit),
    }
}

/// A definite length, with what lies between the header and the limit.
#[inline]
fn definite(octet: u8, length: u32, value: &[u8]) -> Result<Length, Why> {
    if length as usize > value.len() {
        return Err(Why::ValuePastLimit);
    }
    match (octet, length) {
        (1, 1) | (2 | 10, 1..) | (5, 0) => {}
        (1, _) => return Err(Why::BooleanLength),
        (2 | 10, 0) => return Err(Why::EmptyNumber),
        (5, _) => return Err(Why::NullNotEmpty),
        _ => {}
    }
    Ok(Length::Definite(length))
}

#[cfg(test)]
mod tests {
    use super::*;

    fn fault(room: &[u8]) -> Option<Why> {
        meet(room, false, 1).err()
    }

    #[test]
    fn the_table_of_forms() {
        let allowed = |form: u8| (0..31).filter(|number| has_form(form | number)).collect::<Vec<_>>();
        assert_eq!(allowed(0), [1, 2, 3, 4, 5, 6, 7, 9, 10, 11, 18, 19, 20, 21, 22, 23, 24, 25, 26, 27]);
        assert_eq!(allowed(0x20), [3, 4, 7, 8, 11, 16, 17, 18, 19, 20, 21, 22, 23, 24, 25, 26, 27]);
    }

    #[test]
    fn numbers_in_order_within_an_item() {
        assert_eq!(meet(&[0], false, 17).err(), Some(Why::ZeroOutsideIndefinite));
        assert_eq!(meet(&[0x1F], false, 17).err(), Some(Why::TooDeep));
        assert_eq!(fault(&[0x1F, 0x1E]), Some(Why::NumberUnder31));
        assert_eq!(fault(&[0x1F, 0x80]), Some(Why::NumberPadded));
        assert_eq!(fault(&[0x1F, 0xFF, 0x80]), Some(Why::NumberOver16383));
        assert_eq!(fault(&[0x1F, 0xFF]), Some(Why::HeaderPastLimit));
        assert_eq!(fault(&[0x1F, 0xFF, 0x7F]), Some(Why::UniversalOver30));
        assert_eq!(fault(&[0x1F, 0x1F]), Some(Why::UniversalOver30));
        assert_eq!(fault(&[0x9F, 0x1F]), Some(Why::HeaderPastLimit));
        assert_eq!(fault(&[0x10, 0xFF]), Some(Why::WrongForm));
        assert_eq!(fault(&[0x04, 0x85]), Some(Why::LengthOctet));
        assert_eq!(fault(&[0x04, 0x80]), Some(Why::IndefinitePrimitive));
        assert_eq!(fault(&[0x04]), Some(Why::HeaderPastLimit));
        assert_eq!(fault(&[0x04, 0x82, 0x00]), Some(Why::HeaderPastLimit));
        assert_eq!(fault(&[0x01, 0x02, 0x00]), Some(Why::ValuePastLimit));
        assert_eq!(fault(&[0x01, 0x84, 0xFF, 0xFF, 0xFF, 0xFF]), Some(Why::ValuePastLimit));
        assert_eq!(fault(&[0x01, 0x00]), Some(Why::BooleanLength));
        assert_eq!(fault(&[0x05, 0x01, 0x00]), Some(Why::NullNotEmpty));
        assert_eq!(fault(&[0x0A, 0x81, 0x00]), Some(Why::EmptyNumber));
    }

    #[test]
    fn closing_marks() {
        assert!(matches!(meet(&[0, 0, 9], true, 17), Ok(None)));
        assert_eq!(meet(&[0], true, 2).err(), Some(Why::MarkPastLimit));
        assert_eq!(meet(&[0, 1], true, 2).err(), Some(Why::HalfClosingMark));
    }

    #[test]
    fn numbers_above_30() {
        for (number, octets) in [(31, &[0x1F][..]), (127, &[0x7F]), (128, &[0x81, 0x00]), (16_383, &[0xFF, 0x7F])] {
            let room = [&[0x9F], octets, &[0x00]].concat();
            let header = meet(&room, false, 1).unwrap().unwrap();
            assert_eq!((header.number, usize::from(header.size)), (number, room.len()));
        }
    }

    #[test]
    fn leading_zero_octets_are_legal() {
        let header = meet(&[0x04, 0x84, 0, 0, 0, 1, 7], false, 1).unwrap().unwrap();
        assert_eq!((header.size, header.length), (6, Length::Definite(1)));
    }
}
