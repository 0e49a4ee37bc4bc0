//! Whose child an element is (W-204): "The parent's identifier is the child's with its last space and digits taken off, among
//! kinds 1 and 2 for layout and 5 and 6 for logical."

use crate::answers::Side;
use crate::elements::{Row, kind};
use crate::letter::Letter;

/// "65,535 for other kinds and where there is no identifier, it has one group or nobody carries the shorter one".
pub const NO_PARENT: u32 = 65_535;

/// The side of a class or object; other kinds are of none.
fn side_of(kind: u8) -> Option<Side> {
    match kind {
        kind::LAYOUT_CLASS | kind::LAYOUT_OBJECT => Some(Side::Layout),
        kind::LOGICAL_CLASS | kind::LOGICAL_OBJECT => Some(Side::Logical),
        _ => None,
    }
}

/// The row of an element's parent.
pub(crate) fn parent(stream: &[u8], letter: &Letter<'_>, row: &Row) -> Option<u32> {
    let side = side_of(row.kind)?;
    let identifier = row.identifier.octets(stream)?;
    let space = identifier.iter().rposition(|&byte| byte == b' ')?;
    let &parent = letter.objects.get(&identifier[..space])?;
    (side_of(letter.rows[parent as usize].kind) == Some(side)).then_some(parent)
}

/// The rows of an element's children, in stream order.
pub(crate) fn children(stream: &[u8], letter: &Letter<'_>, row: u32) -> Vec<u32> {
    let rows = letter.rows.iter().enumerate();
    rows.filter(|(_, other)| parent(stream, letter, other) == Some(row)).map(|(child, _)| child as u32).collect()
}

#[cfg(test)]
mod tests {
    use super::*;
    use crate::{ROW_WIDTH, Reading, Related};

    /// An element with this identifier, all of less than 128 octets.
    fn named(octet: u8, identifier: &str) -> Vec<u8> {
        let name = [&[0x41, identifier.len() as u8], identifier.as_bytes()].concat();
        [&[octet, 2 + name.len() as u8, 0x31, name.len() as u8], &name[..]].concat()
    }

    #[test]
    fn parents_and_children() {
        let elements =
            [named(0xA2, "1 0"), named(0xA2, "1"), named(0xA2, "1 00"), named(0xA6, "1 0 2"), named(0xA6, "1 5")];
        let stream = [&[0xA0, 0x00], &elements.concat()[..]].concat();
        let reading = Reading::of(&stream);
        let mut table = [0; 6 * ROW_WIDTH];
        let mut list = [7; 3];
        assert_eq!(
            reading.children(2, &mut table, &mut list),
            Related { elements: 6, children: 2, ..Related::default() }
        );
        assert_eq!(list, [1, 3, 7]);
        let parents: Vec<u32> = table.chunks(ROW_WIDTH).map(|row| row[ROW_WIDTH - 1]).collect();
        // "1 0 2" and "1 5" are logical, and those who carry "1 0" and "1" are not.
        assert_eq!(parents, [NO_PARENT, 2, NO_PARENT, 2, NO_PARENT, NO_PARENT]);
    }

    #[test]
    fn what_a_refusal_leaves() {
        let stream = [&[0xA0, 0x00], &named(0xA2, "1 0")[..], &named(0xA2, "1")].concat();
        let reading = Reading::of(&stream);
        let (mut table, mut list) = ([7; 3 * ROW_WIDTH], [7; 1]);
        assert_eq!(reading.children(3, &mut table, &mut list), Related { number: 20, ..Related::default() });
        assert_eq!((table[0], list), (7, [7]));
        assert_eq!(reading.children(2, &mut table, &mut []), Related { number: 25, elements: 3, ..Related::default() });
        assert_eq!(table[0], 0);
        assert_eq!(reading.children(9, &mut table[1..], &mut []), Related { number: 16, ..Related::default() });
    }
}
