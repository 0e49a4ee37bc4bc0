//! One element: its contents as tabled (12), its object type (13), the spelling of its names (14).

use std::ops::Range;

use crate::ROW_WIDTH;
use crate::edition::Edition;
use crate::items::{Item, Run, Tree};
use crate::names;
use crate::refusal::Why;

/// The most portions of one element.
const MOST_PORTIONS: usize = 64;
/// What a row has as its object type where there is none.
const NO_OBJECT_TYPE: u32 = 255;

/// The octets of the items that document 01 names, those of 1993, and those that T.502 speaks of.
pub(crate) mod octet {
    pub const OBJECT_TYPE: u8 = 0x02;
    pub const SEALED_INFORMATION: u8 = 0x03;
    pub const SEALED_INFORMATION_IN_PIECES: u8 = 0x23;
    pub const CONTENT: u8 = 0x04;
    pub const CONTENT_IN_PIECES: u8 = 0x24;
    pub const PORTION: u8 = 0x12;
    pub const TILES: u8 = 0x30;
    pub const DESCRIPTOR: u8 = 0x31;
    pub const UNIT_LAYOUT_IDENTIFIER: u8 = 0x40;
    pub const IDENTIFIER: u8 = 0x41;
    pub const STYLE_IDENTIFIER: u8 = 0x45;
    pub const PROTECTED_PART_IDENTIFIER: u8 = 0x47;
    pub const UNIT_LOGICAL_IDENTIFIER: u8 = 0x84;
    pub const PORTIONS: u8 = 0xA1;
    pub const DIMENSIONS: u8 = 0xA4;
    pub const FIXED_DIMENSION: u8 = 0x80;
}

/// The kinds of element: the number bits of its octet.
pub(crate) mod kind {
    pub const PROFILE: u8 = 0;
    pub const LAYOUT_CLASS: u8 = 1;
    pub const LAYOUT_OBJECT: u8 = 2;
    pub const TEXT_UNIT: u8 = 3;
    pub const LOGICAL_CLASS: u8 = 5;
    pub const LOGICAL_OBJECT: u8 = 6;
    pub const PRESENTATION_STYLE: u8 = 7;
    pub const LAYOUT_STYLE: u8 = 8;
    pub const SEALED_PROFILE: u8 = 9;
    pub const ENCIPHERED_PROFILE: u8 = 10;
    pub const PREENCIPHERED_PART: u8 = 11;
    pub const POSTENCIPHERED_PART: u8 = 12;
}

/// Rule 10: the kind of the element that begins with this octet.
pub(crate) fn kind_of(octet: u8, edition: Edition) -> Result<u8, Why> {
    if edition.has_element(octet) {
        Ok(octet & 0x1F)
    } else if Edition::Of1993.has_element(octet) {
        Err(Why::ElementOf1993)
    } else {
        Err(Why::NoSuchElement)
    }
}

/// First and past; an absent one is 0 and 0, where no value can lie.
#[derive(Clone, Copy, Debug, Default, PartialEq, Eq)]
pub(crate) struct Span {
    pub first: u32,
    pub past: u32,
}

impl Span {
    fn of_value(item: Option<&Item>) -> Self {
        item.map_or(Span::default(), |item| Span { first: item.start(), past: item.end() })
    }

    /// The octets, or `None` where it is absent.
    pub fn octets(self, stream: &[u8]) -> Option<&[u8]> {
        (self.past != 0).then(|| &stream[self.first as usize..self.past as usize])
    }
}

/// What the table tells of one element, and where its portions stand in the letter's list of them.
#[derive(Clone, Debug)]
pub(crate) struct Row {
    pub kind: u8,
    pub object_type: Option<u8>,
    pub element: Span,
    pub identifier: Span,
    pub logical_identifier: Span,
    pub portions: Span,
    /// A text unit's content, or enciphered information.
    pub content: Span,
    /// The place of a text unit's content in the tree's list.
    pub unit_content: Option<usize>,
    pub keys: Range<u32>,
}

impl Row {
    /// The thirteen numbers in the table's order, with its parent's row.
    pub fn numbers(&self, parent: u32) -> [u32; ROW_WIDTH] {
        let spans = [self.element, self.identifier, self.logical_identifier, self.portions, self.content];
        let mut numbers = [0; ROW_WIDTH];
        numbers[0] = u32::from(self.kind);
        numbers[1] = self.object_type.map_or(NO_OBJECT_TYPE, u32::from);
        for (pair, span) in numbers[2..].chunks_exact_mut(2).zip(spans) {
            pair.copy_from_slice(&[span.first, span.past]);
        }
        numbers[ROW_WIDTH - 1] = parent;
        numbers
    }
}

/// The items of an element that the later rules look at.
#[derive(Default)]
struct Parts<'t> {
    object_type: Option<&'t Item>,
    identifier: Option<&'t Item>,
    logical_identifier: Option<&'t Item>,
    portions: Option<(usize, &'t Item)>,
    content: Option<(usize, &'t Item)>,
}

/// Judges the element at this place of the tree by 12, 13 and 14, and adds its portions to `keys`.
pub(crate) fn judge(
    stream: &[u8],
    edition: Edition,
    tree: &Tree,
    place: usize,
    keys: &mut Vec<u64>,
) -> Result<Row, Why> {
    let element = &tree.items()[place];
    let kind = element.number() as u8;
    let parts = contents(tree, place, kind, edition)?;
    let object_type = parts.object_type.map(|item| object_type(&stream[item.value()], kind)).transpose()?;
    for item in [parts.identifier, parts.logical_identifier].into_iter().flatten() {
        if !names::is_identifier(&stream[item.value()]) {
            return Err(Why::IdentifierMisspelt);
        }
    }
    let first_key = keys.len();
    if let Some((portions, _)) = parts.portions {
        for (count, (_, item)) in tree.run(portions).enumerate() {
            if count == MOST_PORTIONS {
                return Err(Why::TooManyPortions);
            }
            keys.push(names::portion_key(&stream[item.value()]).ok_or(Why::PortionMisspelt)?);
        }
    }
    Ok(Row {
        kind,
        object_type,
        element: Span { first: element.first() as u32, past: element.past() },
        identifier: Span::of_value(parts.identifier),
        logical_identifier: Span::of_value(parts.logical_identifier),
        portions: Span::of_value(parts.portions.map(|(_, item)| item)),
        content: Span::of_value(parts.content.map(|(_, item)| item)),
        unit_content: parts.content.filter(|_| kind == kind::TEXT_UNIT).map(|(place, _)| place),
        keys: first_key as u32..keys.len() as u32,
    })
}

/// Rule 13: "The 02 has one value octet: 0 to 4 for layout, 0 to 2 for logical."
fn object_type(value: &[u8], kind: u8) -> Result<u8, Why> {
    let greatest = if matches!(kind, kind::LAYOUT_CLASS | kind::LAYOUT_OBJECT) { 4 } else { 2 };
    match *value {
        [number] if number <= greatest => Ok(number),
        [_] => Err(Why::ObjectTypeRange),
        _ => Err(Why::ObjectTypeLength),
    }
}

/// Rule 12: the element's items, if they are as tabled.
fn contents(tree: &Tree, place: usize, kind: u8, edition: Edition) -> Result<Parts<'_>, Why> {
    match kind {
        kind::PROFILE => Ok(Parts::default()),
        kind::TEXT_UNIT => unit(tree, place, edition),
        kind::PRESENTATION_STYLE | kind::LAYOUT_STYLE => style(tree.run(place)),
        kind::SEALED_PROFILE => {
            protected(tree, place, is_seal_piece, Why::NotASealPiece)?;
            Ok(Parts::default())
        }
        kind::ENCIPHERED_PROFILE | kind::PREENCIPHERED_PART | kind::POSTENCIPHERED_PART => {
            let content = protected(tree, place, is_piece, Why::NotAPiece)?;
            Ok(Parts { content: Some(content), ..Parts::default() })
        }
        kind::LAYOUT_CLASS | kind::LOGICAL_CLASS => {
            let parts = class_or_object(tree, place)?;
            // An identifier lies in the 31, so where there is one the 31 is there too.
            let whole = parts.object_type.is_some() && parts.identifier.is_some();
            if whole { Ok(parts) } else { Err(Why::ItemMissing) }
        }
        _ => class_or_object(tree, place),
    }
}

/// "02 or nothing, then 31 or nothing."
fn class_or_object(tree: &Tree, place: usize) -> Result<Parts<'_>, Why> {
    let mut run = tree.run(place).peekable();
    let object_type = run.next_if(|(_, item)| item.octet() == octet::OBJECT_TYPE);
    let descriptor = run.next_if(|(_, item)| item.octet() == octet::DESCRIPTOR);
    if run.next().is_some() {
        return Err(Why::ItemOutOfPlace);
    }
    let mut parts = Parts { object_type: object_type.map(|(_, item)| item), ..Parts::default() };
    if let Some((descriptor, _)) = descriptor {
        let [identifier, portions] = sift(tree.run(descriptor), [octet::IDENTIFIER, octet::PORTIONS], &[0x61, 0x81])?;
        parts.identifier = identifier.map(|(_, item)| item);
        parts.portions = portions;
    }
    if let Some((portions, _)) = parts.portions
        && tree.run(portions).any(|(_, item)| item.octet() != octet::PORTION)
    {
        return Err(Why::NotAPortion);
    }
    Ok(parts)
}

/// "31 or nothing, then 04", or "24, holding 04 and 24 items down to the level limit". In 1993 the content is optional,
/// and may be tiled: "Tiled-Content ::= SEQUENCE OF OCTET STRING", a 30 with such 04 and 24 items.
fn unit(tree: &Tree, place: usize, edition: Edition) -> Result<Parts<'_>, Why> {
    let mut run = tree.run(place).peekable();
    let descriptor = run.next_if(|(_, item)| item.octet() == octet::DESCRIPTOR);
    let content = run.next();
    match content {
        None if edition == Edition::Of1988 => return Err(Why::ItemMissing),
        Some((_, item)) if !is_content(item, edition) => return Err(Why::ItemOutOfPlace),
        _ if run.next().is_some() => return Err(Why::ItemOutOfPlace),
        Some((content, _)) if !tree.inside(content).iter().all(is_piece) => return Err(Why::NotAPiece),
        _ => {}
    }
    let mut parts = Parts { content, ..Parts::default() };
    if let Some((descriptor, _)) = descriptor {
        let once = [octet::UNIT_LAYOUT_IDENTIFIER, octet::UNIT_LOGICAL_IDENTIFIER];
        let [layout, logical] = sift(tree.run(descriptor), once, &[0x60, 0xA4])?;
        parts.identifier = layout.map(|(_, item)| item);
        parts.logical_identifier = logical.map(|(_, item)| item);
    }
    Ok(parts)
}

/// May it be the content of a text unit?
fn is_content(item: &Item, edition: Edition) -> bool {
    is_piece(item) || edition == Edition::Of1993 && item.octet() == octet::TILES
}

/// Is it a 04, or a 24 that holds pieces?
fn is_piece(item: &Item) -> bool {
    matches!(item.octet(), octet::CONTENT | octet::CONTENT_IN_PIECES)
}

/// The pieces of the content at this place, in order: a 04 is one piece, a 24 or 30 has those of every 04 in it.
pub(crate) fn pieces(tree: &Tree, place: usize) -> impl Iterator<Item = &Item> {
    let content = &tree.items()[place];
    std::iter::once(content).chain(tree.inside(place)).filter(|item| item.octet() == octet::CONTENT)
}

/// "exactly one 45, other items free", and no 65.
fn style(run: Run<'_>) -> Result<Parts<'_>, Why> {
    let [identifier] = sift(run, [octet::STYLE_IDENTIFIER], &[0x65])?;
    let (_, identifier) = identifier.ok_or(Why::ItemMissing)?;
    Ok(Parts { identifier: Some(identifier), ..Parts::default() })
}

/// Is it a 03, or a 23 that holds pieces?
fn is_seal_piece(item: &Item) -> bool {
    matches!(item.octet(), octet::SEALED_INFORMATION | octet::SEALED_INFORMATION_IN_PIECES)
}

/// "SEQUENCE { Protected-Part-Identifier, .. }": a 47, then the information, and nothing else. The information is an
/// "OCTET STRING" or a "BIT STRING", which X.209 lets be constructed: it then holds strings of its own type alone.
fn protected(tree: &Tree, place: usize, is_string: fn(&Item) -> bool, other: Why) -> Result<(usize, &Item), Why> {
    let mut run = tree.run(place);
    let is_identifier = |item: &Item| item.octet() == octet::PROTECTED_PART_IDENTIFIER;
    match [run.next(), run.next(), run.next()] {
        [Some((_, first)), Some((at, string)), None] if is_identifier(first) && is_string(string) => {
            if tree.inside(at).iter().all(is_string) { Ok((at, string)) } else { Err(other) }
        }
        [None, ..] => Err(Why::ItemMissing),
        [Some((_, first)), None, _] if is_identifier(first) => Err(Why::ItemMissing),
        _ => Err(Why::ItemOutOfPlace),
    }
}

/// The items of a run with the octets of `once`, each at most one, where none has an octet of `never`.
fn sift<'t, const N: usize>(run: Run<'t>, once: [u8; N], never: &[u8]) -> Result<[Option<(usize, &'t Item)>; N], Why> {
    let mut found = [None; N];
    for (place, item) in run {
        if never.contains(&item.octet()) {
            return Err(Why::ItemForbidden);
        }
        if let Some(which) = once.iter().position(|&octet| octet == item.octet())
            && found[which].replace((place, item)).is_some()
        {
            return Err(Why::ItemAgain);
        }
    }
    Ok(found)
}
