//! Why a stream is refused: document 01's numbers 1 to 15, split into the cases that a person wants told apart.

use std::fmt;

/// The first fault of a stream: what it is, and where.
#[derive(Clone, Copy, Debug, PartialEq, Eq)]
pub struct Refusal {
    /// What is wrong.
    pub why: Why,
    /// Where, as document 01 says for its number.
    pub place: u32,
}

impl Refusal {
    /// The number of document 01's table.
    pub fn number(&self) -> u32 {
        self.why.number()
    }
}

/// Each way to be refused by 1 to 15. Several cases share a number.
#[derive(Clone, Copy, Debug, PartialEq, Eq)]
pub enum Why {
    /// 1: the stream is over the limit.
    StreamTooLong,
    /// 2: 00 where no indefinite item is innermost.
    ZeroOutsideIndefinite,
    /// 2: 00 followed by another byte than 00.
    HalfClosingMark,
    /// 3: an item at level 17.
    TooDeep,
    /// 4: the first octet of a number in further octets is 80.
    NumberPadded,
    /// 4: a number under 31 in further octets.
    NumberUnder31,
    /// 4: a number over 16,383.
    NumberOver16383,
    /// 5: a universal number in a form that it never has.
    WrongForm,
    /// 5: a universal number above 30.
    UniversalOver30,
    /// 6: a first length octet of 85 to FF.
    LengthOctet,
    /// 6: 80 on a primitive.
    IndefinitePrimitive,
    /// 7: the header passes the limit.
    HeaderPastLimit,
    /// 7: the value passes the limit.
    ValuePastLimit,
    /// 7: the second 00 passes the limit.
    MarkPastLimit,
    /// 7: an indefinite item reaches the limit unclosed.
    Unclosed,
    /// 8: a universal 1 of another length than one.
    BooleanLength,
    /// 8: a universal 5 that is not empty.
    NullNotEmpty,
    /// 8: a universal 2 or 10 that is empty.
    EmptyNumber,
    /// 9: the 4,097th element.
    TooManyElements,
    /// 10: an octet that is not in the element table.
    NoSuchElement,
    /// 10: in 1988, an octet that begins a protected part of 1993.
    ElementOf1993,
    /// 11: the first element is no profile.
    ProfileMissing,
    /// 11: a later element is one.
    ProfileAgain,
    /// 11: the stream is empty.
    EmptyStream,
    /// 12: an item that the table does not have, or out of order.
    ItemOutOfPlace,
    /// 12: an item that the table requires is not there.
    ItemMissing,
    /// 12: an item that may stand once stands again.
    ItemAgain,
    /// 12: an item that must not stand there.
    ItemForbidden,
    /// 12: an item among the portions that is no 12.
    NotAPortion,
    /// 12: an item among the pieces of a content that is neither 04 nor 24.
    NotAPiece,
    /// 12: an item among the pieces of a sealed profile's bit string that is neither 03 nor 23.
    NotASealPiece,
    /// 13: an object type that is not one octet.
    ObjectTypeLength,
    /// 13: an object type outside its range.
    ObjectTypeRange,
    /// 14: a misspelt identifier.
    IdentifierMisspelt,
    /// 14: a misspelt portion number.
    PortionMisspelt,
    /// 14: a 65th portion.
    TooManyPortions,
    /// 15: an identifier that an earlier element has.
    IdentifierAgain,
    /// 15: a portion that the element lists twice.
    PortionAgain,
}

impl Why {
    /// The number of document 01's table.
    pub fn number(self) -> u32 {
        self.row().0
    }

    /// The number and the words of each case.
    fn row(self) -> (u32, &'static str) {
        use Why::*;
        match self {
            StreamTooLong => (1, "the stream is over 1,048,576 octets"),
            ZeroOutsideIndefinite => (2, "a 00 stands where no indefinite item is innermost"),
            HalfClosingMark => (2, "a 00 that should begin a closing mark is followed by another octet than 00"),
            TooDeep => (3, "an item stands at level 17"),
            NumberPadded => (4, "the number of an item begins with the octet 80"),
            NumberUnder31 => (4, "a number under 31 stands in octets after the first"),
            NumberOver16383 => (4, "the number of an item is over 16,383"),
            WrongForm => (5, "a universal number stands in a form that it never has"),
            UniversalOver30 => (5, "a universal number is above 30"),
            LengthOctet => (6, "the first length octet is 85 to FF"),
            IndefinitePrimitive => (6, "a primitive item has the indefinite length 80"),
            HeaderPastLimit => (7, "the header of an item passes its limit"),
            ValuePastLimit => (7, "the value of an item passes its limit"),
            MarkPastLimit => (7, "the second 00 of a closing mark passes the limit"),
            Unclosed => (7, "an indefinite item reaches its limit unclosed"),
            BooleanLength => (8, "a universal 1 (boolean) is not one octet long"),
            NullNotEmpty => (8, "a universal 5 (null) is not empty"),
            EmptyNumber => (8, "a universal 2 or 10 (integer, enumerated) is empty"),
            TooManyElements => (9, "this is the 4,097th element"),
            NoSuchElement => (10, "no element begins with this octet"),
            ElementOf1993 => (10, "this is an element of 1993, and no letter of 1988 has it"),
            ProfileMissing => (11, "the first element is no document profile"),
            ProfileAgain => (11, "a document profile stands after the first element"),
            EmptyStream => (11, "the stream is empty"),
            ItemOutOfPlace => (12, "the element has an item that its table row does not have there"),
            ItemMissing => (12, "the element lacks an item that its table row requires"),
            ItemAgain => (12, "the element has an item twice that may stand once"),
            ItemForbidden => (12, "the element has an item that must not stand there"),
            NotAPortion => (12, "an item among the portions is no 12"),
            NotAPiece => (12, "an item among the pieces of the content is neither 04 nor 24"),
            NotASealPiece => (12, "an item among the pieces of the bit string is neither 03 nor 23"),
            ObjectTypeLength => (13, "the object type is not one octet"),
            ObjectTypeRange => (13, "the object type is outside its range"),
            IdentifierMisspelt => (14, "an identifier is misspelt"),
            PortionMisspelt => (14, "a portion number is misspelt"),
            TooManyPortions => (14, "the element lists a 65th portion"),
            IdentifierAgain => (15, "an earlier element has the same identifier"),
            PortionAgain => (15, "the element lists a portion twice"),
        }
    }
}

impl fmt::Display for Why {
    fn fmt(&self, f: &mut fmt::Formatter<'_>) -> fmt::Result {
        f.write_str(self.row().1)
    }
}
