//! The pages of a letter and whether PM1 has room for them (W-210): T.502, table 10, as docs/PM1.md tells it.

use crate::elements::{Row, kind, octet};
use crate::items::{Item, Tree};
use crate::letter::Letter;

/// The object type of a page.
const PAGE: u8 = 2;

/// What is said of a page.
#[derive(Clone, Copy, Debug, Default, PartialEq, Eq)]
pub enum Verdict {
    /// It has no dimensions.
    #[default]
    None,
    /// They are within the essential ones.
    Essential,
    /// They are within the non-essential ones.
    NonEssential,
    /// They are within none, or under 1.
    Outside,
    /// They are anything but two fixed numbers, or stand there twice.
    NotFixed,
}

/// One record of the list of pages.
#[derive(Clone, Copy, Debug, Default, PartialEq, Eq)]
pub struct Page {
    /// The layout object or class.
    pub element: u32,
    /// The number of the verdict.
    pub verdict: u32,
}

/// The answer about the pages.
#[derive(Clone, Copy, Debug, Default, PartialEq, Eq)]
pub struct Paged {
    /// 0, or the number of the refusal.
    pub number: u32,
    /// The place of the refusal.
    pub place: u32,
    /// The element count.
    pub elements: u32,
    /// The page count.
    pub pages: u32,
}

/// The pages and page classes of a letter, in stream order.
pub(crate) fn of_letter(stream: &[u8], tree: &Tree, letter: &Letter<'_>) -> Vec<Page> {
    let is_page =
        |row: &Row| matches!(row.kind, kind::LAYOUT_CLASS | kind::LAYOUT_OBJECT) && row.object_type == Some(PAGE);
    let rows = letter.rows.iter().zip(tree.elements()).enumerate().filter(|(_, (row, _))| is_page(row));
    rows.map(|(element, (_, (place, _)))| {
        let verdict = verdict(dimensions(stream, tree, place));
        Page { element: element as u32, verdict: verdict as u32 }
    })
    .collect()
}

/// "the dimensions, A4 in the descriptor body holding two items 80": none, one pair of numbers, or something else.
fn dimensions(stream: &[u8], tree: &Tree, element: usize) -> Option<Option<[i32; 2]>> {
    let mut descriptors = tree.run(element).filter(|(_, item)| item.octet() == octet::DESCRIPTOR);
    let (descriptor, _) = descriptors.next()?;
    let found: Vec<usize> =
        tree.run(descriptor).filter(|(_, item)| item.octet() == octet::DIMENSIONS).map(|(place, _)| place).collect();
    let pair = |place: usize| {
        let items: Vec<&Item> = tree.run(place).map(|(_, item)| item).collect();
        let number = |item: &Item| (item.octet() == octet::FIXED_DIMENSION).then(|| integer(&stream[item.value()]))?;
        match items[..] {
            [horizontal, vertical] => Some([number(horizontal)?, number(vertical)?]),
            _ => None,
        }
    };
    match found[..] {
        [] => None,
        [place] => Some(pair(place)),
        _ => Some(None),
    }
}

/// "X.209 integers, two's complement, at most four octets and shortest".
fn integer(value: &[u8]) -> Option<i32> {
    let number = match *value {
        [a] => i32::from(a as i8),
        [a, b] => i32::from(i16::from_be_bytes([a, b])),
        [a, b, c] => i32::from_be_bytes([a, b, c, 0]) >> 8,
        [a, b, c, d] => i32::from_be_bytes([a, b, c, d]),
        _ => return None,
    };
    // It is not the shortest if fewer octets hold it.
    let bits = 8 * (value.len() as u32 - 1);
    let held_by_fewer = bits > 0 && (number << (32 - bits)) >> (32 - bits) == number;
    (!held_by_fewer).then_some(number)
}

/// Horizontal and vertical, each of which may be turned.
const ESSENTIAL: [[i32; 2]; 1] = [[9_240, 12_400]];
const NON_ESSENTIAL: [[i32; 2]; 3] = [[9_920, 14_030], [10_200, 13_200], [14_030, 19_840]];

fn verdict(dimensions: Option<Option<[i32; 2]>>) -> Verdict {
    let pair = match dimensions {
        None => return Verdict::None,
        Some(None) => return Verdict::NotFixed,
        Some(Some(pair)) => pair,
    };
    let [least, greatest] = [pair[0].min(pair[1]), pair[0].max(pair[1])];
    // All pairs of the table have the lesser number first, so turning a page makes it fit wherever it can.
    let is_within = |table: &[[i32; 2]]| table.iter().any(|&[short, long]| least <= short && greatest <= long);
    if least < 1 {
        Verdict::Outside
    } else if is_within(&ESSENTIAL) {
        Verdict::Essential
    } else if is_within(&NON_ESSENTIAL) {
        Verdict::NonEssential
    } else {
        Verdict::Outside
    }
}
