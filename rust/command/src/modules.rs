//! The names that the modules of 1988 (T.415, 5.5 to 5.12) and of 1993 (7.6 to 7.15) give to what stands in an element.
//! Where document 01 has a word for it, that is the name. What is not named here is free to stand there all the same.
//! What is new in 1993 is named in letters of 1988 too: no name of 1988 stands in its place.

use reader::Item;

/// An item that may stand somewhere: its first octet and number, its name, what its value is, and what may stand in it.
pub struct Field {
    octet: u8,
    number: u16,
    pub name: &'static str,
    pub value: Value,
    inside: &'static [Field],
}

/// What the value of a primitive item is.
#[derive(Clone, Copy, PartialEq, Eq)]
pub enum Value {
    /// What its universal type tells, or nothing known.
    Plain,
    Number,
    /// A number whose values, from 0, have names.
    Named(&'static [&'static str]),
    /// A number whose values have names, where 1988 and 1993 have names of their own.
    NamedBy([&'static [&'static str]; 2]),
    Text,
    Object,
    /// Bits, which have names from 0 on.
    Bits(&'static [&'static str]),
}

use Value::{Bits, Named, NamedBy, Number, Object, Plain, Text};

const fn item(octet: u8, name: &'static str, value: Value) -> Field {
    Field { octet, number: (octet & 0x1F) as u16, name, value, inside: &[] }
}

const fn items(octet: u8, name: &'static str, inside: &'static [Field]) -> Field {
    Field { octet, number: (octet & 0x1F) as u16, name, value: Plain, inside }
}

/// A constructed item of the context class, with a number above 30.
const fn items_above_30(number: u16, name: &'static str, inside: &'static [Field]) -> Field {
    Field { octet: 0xBF, number, name, value: Plain, inside }
}

/// The field of an item at the top of a stream, or in an item of this field.
pub fn field(around: Option<&'static Field>, item: &Item) -> Option<&'static Field> {
    of_type(around, item.octet(), item.number())
}

fn of_type(around: Option<&'static Field>, octet: u8, number: u16) -> Option<&'static Field> {
    let fields = around.map_or(&ELEMENTS[..], |field| field.inside);
    fields.iter().find(|field| field.octet == octet && field.number == number)
}

static ELEMENTS: [Field; 12] = [
    items(0xA0, "document profile", &PROFILE),
    items(0xA1, "layout class", &LAYOUT),
    items(0xA2, "layout object", &LAYOUT),
    items(0xA3, "text unit", &UNIT),
    items(0xA5, "logical class", &LOGICAL),
    items(0xA6, "logical object", &LOGICAL),
    items(0xA7, "presentation style", &PRESENTATION_STYLE),
    items(0xA8, "layout style", &LAYOUT_STYLE),
    items(0xA9, "sealed document profile", &SEALED),
    items(0xAA, "enciphered document profile", &ENCIPHERED),
    items(0xAB, "pre-enciphered body part", &ENCIPHERED),
    items(0xAC, "post-enciphered body part", &ENCIPHERED),
];

static SEALED: [Field; 3] = [
    item(0x47, "protected-part identifier", Text),
    item(0x03, "sealed attributes", Bits(&PROFILE_ATTRIBUTES)),
    items(0x23, "sealed attributes in pieces", &SEALED_PIECES),
];
static SEALED_PIECES: [Field; 2] = [item(0x03, "piece", Plain), items(0x23, "pieces", &SEALED_PIECES)];
static ENCIPHERED: [Field; 3] = [
    item(0x47, "protected-part identifier", Text),
    item(0x04, "enciphered information", Plain),
    items(0x24, "enciphered information in pieces", &ENCIPHERED_PIECES),
];
static ENCIPHERED_PIECES: [Field; 2] = [item(0x04, "piece", Plain), items(0x24, "pieces", &ENCIPHERED_PIECES)];

/// Document-Profile-Attribute-Names of 1993 (7.15), by their bits.
#[rustfmt::skip]
static PROFILE_ATTRIBUTES: [&str; 86] = [
    "generic-layout-structure", "specific-layout-structure", "generic-logical-structure", "specific-logical-structure",
    "layout-styles", "presentation-styles", "sealed-profiles", "enciphered-profiles", "pre-enciphered-body-parts",
    "post-enciphered-body-parts", "external-document-class", "resource-document", "resources",
    "document-application-profile", "document-application-profile-defaults", "document-architecture-class",
    "content-architecture-classes", "interchange-format-class", "oda-version", "alternative-feature-sets",
    "profile-character-sets", "comments-character-sets", "alternative-representation-character-sets", "page-dimensions",
    "medium-types", "layout-paths", "protections", "block-alignments", "fill-orders", "transparencies", "colours",
    "colours-of-layout-object", "object-colour-tables", "content-background-colours", "content-foreground-colours",
    "content-colour-tables", "borders", "page-positions", "types-of-coding", "coding-attributes",
    "presentation-features", "number-of-objects-per-page", "unit-scaling", "fonts-list", "colour-characteristics",
    "colour-spaces-list", "title", "subject", "document-reference", "document-type", "abstract", "keywords",
    "document-date-and-time", "creation-date-and-time", "local-filing-date-and-time", "expiry-date-and-time",
    "start-date-and-time", "purge-date-and-time", "release-date-and-time", "revision-history", "organizations",
    "preparers", "owners", "authors", "copyright", "status", "user-specific-codes", "distribution-list",
    "additional-information", "references-to-other-documents", "superseded-documents", "local-file-references",
    "document-size", "number-of-pages", "languages", "authorization", "security-classification", "access-rights",
    "sealed-information-encoding", "oda-security-label", "sealed-document-profiles", "pre-sealed-document-body-parts",
    "post-sealed-document-body-parts", "enciphered-document-profiles", "pre-enciphered-document-body-parts",
    "post-enciphered-document-body-parts",
];

static LAYOUT: [Field; 2] = [
    item(0x02, "object type", Named(&["document-layout-root", "page-set", "page", "frame", "block"])),
    items(0x31, "descriptor-body", &LAYOUT_BODY),
];
static LAYOUT_BODY: [Field; 35] = [
    item(0x41, "identifier", Text),
    items(0xA0, "subordinates", &[item(0x12, "subordinate", Text)]),
    items(0xA1, "portions", &[item(0x12, "portion", Text)]),
    item(0x82, "object-class", Text),
    items(0xA3, "position", &MEASURES),
    items(0xA4, "dimensions", &DIMENSIONS),
    item(0x85, "transparency", TRANSPARENCY),
    items(0xA6, "presentation-attributes", &PRESENTATION),
    items(0xA7, "default-value-lists", &[]),
    item(0x88, "user-readable-comments", Text),
    items(0xA9, "bindings", &[]),
    items(0xAA, "content-generator", &[]),
    item(0x8B, "layout-path", Named(&["0 degrees", "90 degrees", "180 degrees", "270 degrees"])),
    items(0xAC, "imaging-order", &[item(0x12, "subordinate", Text)]),
    items(0xAD, "permitted-categories", &[item(0x13, "category", Text)]),
    item(0x8E, "user-visible-name", Text),
    items(0xAF, "page-position", &MEASURES),
    items(0xB0, "medium-type", &[]),
    item(0x91, "presentation-style", Text),
    item(0x92, "logical-source", Text),
    items(0xB5, "balance", &[item(0x41, "identifier of the object", Text)]),
    item(0x96, "colour", COLOUR),
    items(0xB7, "border", &BORDER),
    item(0x99, "application-comments", Plain),
    item(0x9B, "primary", Text),
    item(0x9C, "alternative", Text),
    items(0xBD, "colour-of-layout-object", &[]),
    items(0xBE, "object-colour-table", &[]),
    items_above_30(31, "content-background-colour", &[]),
    items_above_30(32, "content-foreground-colour", &[]),
    items_above_30(33, "content-colour-table", &[]),
    items_above_30(34, "enciphered", &IS_ENCIPHERED),
    items_above_30(35, "sealed", &IS_SEALED),
    items_above_30(36, "layout-stream-categories", &[item(0x13, "category", Text)]),
    items_above_30(37, "layout-stream-sub-categories", &[item(0x13, "category", Text)]),
];
static LOGICAL: [Field; 2] = [
    item(0x02, "object type", Named(&["document-logical-root", "composite-logical-object", "basic-logical-object"])),
    items(0x31, "descriptor-body", &LOGICAL_BODY),
];
static LOGICAL_BODY: [Field; 19] = [
    item(0x41, "identifier", Text),
    items(0xA0, "subordinates", &[item(0x12, "subordinate", Text)]),
    items(0xA1, "portions", &[item(0x12, "portion", Text)]),
    item(0x82, "object-class", Text),
    items(0xA6, "presentation-attributes", &PRESENTATION),
    items(0xA7, "default-value-lists", &[]),
    item(0x88, "user-readable-comments", Text),
    items(0xA9, "bindings", &[]),
    items(0xAA, "content-generator", &[]),
    item(0x8E, "user-visible-name", Text),
    item(0x91, "presentation-style", Text),
    item(0x93, "layout-style", Text),
    item(0x94, "protection", Named(&["unprotected", "protected"])),
    item(0x98, "resource", Text),
    item(0x99, "application-comments", Plain),
    item(0x9B, "primary", Text),
    item(0x9C, "alternative", Text),
    items_above_30(34, "enciphered", &IS_ENCIPHERED),
    items_above_30(35, "sealed", &IS_SEALED),
];
static IS_ENCIPHERED: [Field; 3] = [
    item(0x80, "enciphered-subordinates", Named(&["none", "all"])),
    items(0xA1, "enciphered-subordinates", &[item(0x12, "subordinate", Text)]),
    item(0x82, "protected-part identifier", Text),
];
static IS_SEALED: [Field; 2] =
    [item(0x80, "sealed-status", Named(&["no", "yes"])), items(0xA1, "seal-ids", &[item(0x02, "seal-id", Number)])];
static UNIT: [Field; 4] = [
    items(0x31, "content-portion-attributes", &UNIT_ATTRIBUTES),
    item(0x04, "content", Text),
    items(0x24, "content in pieces", &PIECES),
    items(0x30, "tiled content", &TILES),
];
static UNIT_ATTRIBUTES: [Field; 10] = [
    item(0x40, "layout identifier", Text),
    item(0x84, "logical identifier", Text),
    item(0x80, "type-of-coding", Number),
    item(0x86, "type-of-coding", Object),
    items(0xA1, "character-coding-attributes", &[]),
    items(0xA2, "raster-gr-coding-attributes", &[]),
    item(0x83, "alternative-representation", Text),
    items(0xA7, "geo-gr-coding-attributes", &[]),
    items(0xA8, "videotex-coding-attributes", &[]),
    items(0xAB, "ext-cont-arch-coding-attributes", &[]),
];
static TILES: [Field; 2] = [item(0x04, "tile", Text), items(0x24, "tile in pieces", &PIECES)];
static PIECES: [Field; 2] = [item(0x04, "piece", Text), items(0x24, "pieces", &PIECES)];
static PRESENTATION_STYLE: [Field; 15] = [
    item(0x45, "identifier", Text),
    item(0x80, "user-readable-comments", Text),
    item(0x81, "user-visible-name", Text),
    item(0x82, "transparency", TRANSPARENCY),
    items(0xA3, "presentation-attributes", &PRESENTATION),
    item(0x84, "colour", COLOUR),
    items(0xA5, "border", &BORDER),
    item(0x99, "application-comments", Plain),
    items(0xBD, "colour-of-layout-object", &[]),
    items(0xBE, "object-colour-table", &[]),
    items_above_30(31, "content-background-colour", &[]),
    items_above_30(32, "content-foreground-colour", &[]),
    items_above_30(33, "content-colour-table", &[]),
    items(0xA6, "sealed", &IS_SEALED),
    item(0x87, "derived-from", Text),
];
static LAYOUT_STYLE: [Field; 7] = [
    item(0x45, "identifier", Text),
    item(0x80, "user-readable-comments", Text),
    item(0x81, "user-visible-name", Text),
    items(0xA4, "layout-directives", &[]),
    item(0x99, "application-comments", Plain),
    items(0xA6, "sealed", &IS_SEALED),
    item(0x87, "derived-from", Text),
];
static PRESENTATION: [Field; 6] = [
    item(0x42, "content-type", Number),
    item(0x06, "content-architecture-class", Object),
    items(0xA0, "character-attributes", &[]),
    items(0xA1, "raster-graphics-attributes", &[]),
    items(0xA2, "geometric-graphics-attributes", &[]),
    items(0xA6, "ext-cont-arch-pres-attributes", &[]),
];
const TRANSPARENCY: Value = Named(&["transparent", "opaque"]);
const COLOUR: Value = NamedBy([&["colourless", "white"], &["colour-of-media", "coloured"]]);
static MEASURES: [Field; 2] = [item(0x80, "measure", Number), item(0x84, "not present", Plain)];
static DIMENSIONS: [Field; 6] = [
    item(0x80, "measure", Number),
    item(0x81, "variable measure", Number),
    items(0xA1, "rule-a", &[item(0x80, "minimum", Number), item(0x81, "maximum", Number)]),
    items(0xA2, "rule-b", &[item(0x80, "minimum", Number), item(0x81, "maximum", Number)]),
    item(0x83, "maximum-size", Plain),
    item(0x84, "not present", Plain),
];
static BORDER: [Field; 4] = [
    items(0xA0, "left-hand-edge", &EDGE),
    items(0xA1, "right-hand-edge", &EDGE),
    items(0xA2, "trailing-edge", &EDGE),
    items(0xA3, "leading-edge", &EDGE),
];
static EDGE: [Field; 3] =
    [item(0x80, "line-width", Number), item(0x81, "line-type", Number), item(0x82, "freespace-width", Number)];

static PROFILE: [Field; 16] = [
    item(0x80, "generic-layout-structure", Text),
    item(0x81, "specific-layout-structure", Text),
    items(0xA2, "document-characteristics", &CHARACTERISTICS),
    items(0xA3, "document-management-attributes", &MANAGEMENT),
    item(0x84, "generic-logical-structure", Text),
    item(0x85, "specific-logical-structure", Text),
    item(0x86, "presentation-styles", Text),
    item(0x87, "layout-styles", Text),
    items(0xA9, "external-document-class", &REFERENCE),
    items(0xAA, "resource-document", &REFERENCE),
    items(0xAB, "resources", &[]),
    item(0x8C, "sealed-profiles", Text),
    item(0x8D, "enciphered-profiles", Text),
    item(0x8E, "preenciphered-bodyparts", Text),
    item(0x8F, "postenciphered-bodyparts", Text),
    items(0xB0, "document-security-attributes", &[]),
];
static CHARACTERISTICS: [Field; 11] = [
    item(0x80, "document-application-profile", Number),
    item(0x84, "document-application-profile", Object),
    item(0x81, "document-architecture-class", Named(&["formatted", "processable", "formatted-processable"])),
    items(0xA2, "non-basic-doc-characteristics", &NON_BASIC),
    items(0xA3, "non-basic-struc-characteristics", &[item(0x80, "number-of-objects-per-page", Number)]),
    items(0xA5, "content-architecture-classes", &[item(0x06, "content-architecture-class", Object)]),
    item(0x86, "interchange-format-class", Named(&["if-a", "if-b"])),
    items(0xA8, "oda-version", &[item(0x43, "standard-or-recommendation", Text), item(0x44, "publication-date", Text)]),
    items(0xAA, "doc-appl-profile-defaults", &[]),
    items(0xA9, "additional-doc-characteristics", &[]),
    items(0xAB, "alternative-feature-sets", &[]),
];
static NON_BASIC: [Field; 3] = [
    item(0x85, "profile-character-sets", Plain),
    item(0x81, "comments-character-sets", Plain),
    item(0x86, "alternative-repr-char-sets", Plain),
];
static ORIGINATORS: [Field; 4] = [
    items(0xA0, "organizations", &[item(0x43, "organization", Text)]),
    items(0xA1, "preparers", &[items(0x31, "preparer", &PERSON)]),
    items(0xA2, "owners", &[items(0x31, "owner", &PERSON)]),
    items(0xA3, "authors", &[items(0x31, "author", &PERSON)]),
];
static PERSON: [Field; 2] = [items(0xA0, "personal-name", &PERSONAL_NAME), item(0x81, "organization", Text)];
static PERSONAL_NAME: [Field; 4] = [
    item(0x80, "surname", Text),
    item(0x81, "givenname", Text),
    item(0x82, "initials", Text),
    // 1988 has a title there.
    item(0x83, "generation-qualifier", Text),
];
static CONTENT: [Field; 3] = [
    item(0x81, "document-size", Number),
    item(0x82, "number-of-pages", Number),
    items(0xA4, "languages", &[item(0x43, "language", Text)]),
];
static MANAGEMENT: [Field; 8] = [
    items(0xA0, "dates-and-times", &DATES),
    items(0xA1, "originators", &ORIGINATORS),
    items(0xA2, "other-user-information", &[]),
    items(0xA3, "external-references", &[]),
    items(0xA4, "local-file-references", &[]),
    items(0xA5, "content-attributes", &CONTENT),
    items(0xA6, "security-information", &[item(0x81, "security-classification", Text)]),
    items(0xA7, "document-description", &DESCRIPTION),
];
static DATES: [Field; 8] = [
    item(0x80, "document-date-and-time", Text),
    item(0x81, "creation-date-and-time", Text),
    items(0xA2, "local-filing-date-and-time", &[item(0x44, "date-and-time", Text)]),
    item(0x83, "expiry-date-and-time", Text),
    item(0x84, "start-date-and-time", Text),
    item(0x85, "purge-date-and-time", Text),
    item(0x86, "release-date-and-time", Text),
    items(0xA7, "revision-history", &[]),
];
static DESCRIPTION: [Field; 6] = [
    item(0x80, "title", Text),
    item(0x81, "subject", Text),
    item(0x82, "document-type", Text),
    item(0x83, "abstract", Text),
    items(0xA4, "keywords", &[item(0x43, "keyword", Text)]),
    items(0xA5, "document-reference", &REFERENCE),
];
static REFERENCE: [Field; 2] = [item(0x06, "unique-reference", Object), item(0x43, "descriptive-reference", Text)];

#[cfg(test)]
mod tests {
    use odif::Kind;

    use super::*;

    #[test]
    fn elements_are_named_as_their_kinds() {
        for octet in 0..=0xFF_u8 {
            let number = u16::from(octet & 0x1F);
            let kind = Kind::from_number(u32::from(number)).filter(|_| octet >> 5 == 0b101);
            assert_eq!(of_type(None, octet, number).map(|field| field.name), kind.map(Kind::name), "{octet:02X}");
        }
    }

    #[test]
    fn pieces_may_hold_pieces() {
        let path = [0xA3, 0x24, 0x24, 0x24, 0x04];
        let last =
            path.iter().fold(None, |around, &octet| Some(of_type(around, octet, u16::from(octet & 0x1F)).unwrap()));
        assert_eq!(last.map(|field| field.name), Some("piece"));
    }

    /// An octet and number names one thing wherever it stands.
    #[test]
    fn no_field_stands_twice() {
        let mut waiting = vec![&ELEMENTS[..]];
        let mut seen = Vec::new();
        while let Some(fields) = waiting.pop() {
            // Pieces hold pieces.
            if seen.contains(&fields.as_ptr()) {
                continue;
            }
            seen.push(fields.as_ptr());
            for (at, field) in fields.iter().enumerate() {
                let same = |other: &Field| (other.octet, other.number) == (field.octet, field.number);
                assert!(!fields[..at].iter().any(same), "{}", field.name);
                waiting.push(field.inside);
            }
        }
        assert!(seen.len() > 20);
    }
}
