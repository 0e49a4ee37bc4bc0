//! The reading list of a side, found from the units: each unit's identifier is taken apart at its last space.

use crate::answers::{Match, Side};
use crate::elements::{Row, kind};
use crate::letter::Letter;
use crate::names;

/// All matches of a side, in stream order and then in the order of the portions.
pub(crate) fn of_side(stream: &[u8], letter: &Letter<'_>, side: Side) -> Vec<Match> {
    let units = letter.rows.iter().enumerate().filter(|(_, row)| row.kind == kind::TEXT_UNIT);
    let mut matches: Vec<Match> =
        units.filter_map(|(unit, row)| of_unit(stream, letter, side, unit as u32, row)).collect();
    matches.sort_unstable_by_key(|found| (found.element, found.portion));
    matches
}

/// The one match that a unit can have: identifiers are unique, and so are the portions of an element.
fn of_unit(stream: &[u8], letter: &Letter<'_>, side: Side, unit: u32, row: &Row) -> Option<Match> {
    let identifier = match side {
        Side::Layout => row.identifier,
        Side::Logical => row.logical_identifier,
    };
    let identifier = identifier.octets(stream)?;
    let space = identifier.iter().rposition(|&byte| byte == b' ')?;
    let &element = letter.objects.get(&identifier[..space])?;
    let holder = &letter.rows[element as usize];
    if !on_side(side, holder.kind) {
        return None;
    }
    let key = names::portion_key(&identifier[space + 1..])?;
    let keys = &letter.keys[holder.keys.start as usize..holder.keys.end as usize];
    let portion = keys.iter().position(|&listed| listed == key)? as u32;
    Some(Match { element, portion, unit })
}

fn on_side(side: Side, kind: u8) -> bool {
    match side {
        Side::Layout => matches!(kind, kind::LAYOUT_CLASS | kind::LAYOUT_OBJECT),
        Side::Logical => matches!(kind, kind::LOGICAL_CLASS | kind::LOGICAL_OBJECT),
    }
}
