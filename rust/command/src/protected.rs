//! Protected parts of letters of 1993, which are not opened.

use odif::{Element, Kind};

use crate::input::Source;
use crate::show;
use crate::status::tell;

const KINDS: [Kind; 4] =
    [Kind::SealedProfile, Kind::EncipheredProfile, Kind::PreEncipheredPart, Kind::PostEncipheredPart];

/// How many protected parts a letter has.
pub fn count(elements: &[Element]) -> usize {
    elements.iter().filter(|element| KINDS.contains(&element.kind)).count()
}

/// How many of each kind, in words; nothing where there are none.
pub fn words(elements: &[Element]) -> String {
    let of_kind = |kind: Kind| elements.iter().filter(|element| element.kind == kind).count();
    let kinds = KINDS.into_iter().map(|kind| (of_kind(kind), kind)).filter(|(count, _)| *count > 0);
    kinds.map(|(count, kind)| show::counted(count, kind.name())).collect::<Vec<_>>().join(", ")
}

/// Tells on standard error what text may be hidden in a letter.
pub fn note(source: &Source<'_>, elements: &[Element]) {
    let parts = words(elements);
    if !parts.is_empty() {
        tell(&format!("odif: {}: not opened: {parts}\n", source.shown));
    }
}
