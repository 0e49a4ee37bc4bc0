//! Refusals: document 01's numbers as an enum, each with its sentence.

use std::error::Error;
use std::fmt;

/// A refusal: which rule, and where in the stream.
#[derive(Clone, Copy, Debug, PartialEq, Eq)]
#[non_exhaustive]
pub struct Refusal {
    /// The rule that refuses.
    pub rule: Rule,
    /// The place, as octets of the stream from 0. It is 0 for the rules that have no place.
    pub place: usize,
}

impl Refusal {
    /// The number of the rule, from 1.
    pub fn number(&self) -> u32 {
        self.rule.number()
    }

    /// Makes an answer's number and place a result.
    pub(crate) fn unless_accepted(number: u32, place: u32) -> Result<(), Refusal> {
        match number {
            0 => Ok(()),
            _ => {
                let rule = Rule::from_number(number).unwrap_or(Rule::Unknown(number));
                Err(Refusal { rule, place: place as usize })
            }
        }
    }
}

impl fmt::Display for Refusal {
    fn fmt(&self, f: &mut fmt::Formatter<'_>) -> fmt::Result {
        write!(f, "number {} at {}: {}", self.number(), self.place, self.rule)
    }
}

impl Error for Refusal {}

/// The rules that can refuse a stream or a question, in the order of their numbers.
#[derive(Clone, Copy, Debug, PartialEq, Eq, PartialOrd, Ord, Hash)]
#[non_exhaustive]
pub enum Rule {
    /// 1
    StreamTooLong,
    /// 2
    MisplacedZero,
    /// 3
    TooDeep,
    /// 4
    NumberInFurtherOctets,
    /// 5
    WrongForm,
    /// 6
    LengthOctet,
    /// 7
    PastLimit,
    /// 8
    WrongLength,
    /// 9
    TooManyElements,
    /// 10
    NoSuchElement,
    /// 11
    ProfilePlace,
    /// 12
    Contents,
    /// 13
    ObjectType,
    /// 14
    Misspelt,
    /// 15
    Repeated,
    /// 16
    TableTooShort,
    /// 17
    NormalFormTooLong,
    /// 18
    OutputTooShort,
    /// 19
    ListTooShort,
    /// 20
    NoTextUnit,
    /// 21; only [`crate::raw::content`] gives it
    InPieces,
    /// 22
    CopyTooShort,
    /// 23
    NoSoleDate,
    /// 24
    NoSuchDay,
    /// 25; only [`crate::raw::children`] gives it
    ChildrenTooShort,
    /// 26; only the order of a class gives it
    OutOfOrder,
    /// 27; only making a letter gives it, and its place is the entry's number
    PartOutside,
    /// 30; only `raw::pm1::pages` gives it
    PagesTooShort,
    /// 31; only [`crate::raw::layout_sources`] and the like give it
    SourcesTooShort,
    /// 32; only the short normal form in lent scratch gives it
    ScratchTooSmall,
    /// Another number: the library is newer than this crate.
    #[non_exhaustive]
    Unknown(u32),
}

impl Rule {
    /// Every rule that this crate knows, in the order of the numbers.
    pub const ALL: [Rule; 30] = [
        Rule::StreamTooLong,
        Rule::MisplacedZero,
        Rule::TooDeep,
        Rule::NumberInFurtherOctets,
        Rule::WrongForm,
        Rule::LengthOctet,
        Rule::PastLimit,
        Rule::WrongLength,
        Rule::TooManyElements,
        Rule::NoSuchElement,
        Rule::ProfilePlace,
        Rule::Contents,
        Rule::ObjectType,
        Rule::Misspelt,
        Rule::Repeated,
        Rule::TableTooShort,
        Rule::NormalFormTooLong,
        Rule::OutputTooShort,
        Rule::ListTooShort,
        Rule::NoTextUnit,
        Rule::InPieces,
        Rule::CopyTooShort,
        Rule::NoSoleDate,
        Rule::NoSuchDay,
        Rule::ChildrenTooShort,
        Rule::OutOfOrder,
        Rule::PartOutside,
        Rule::PagesTooShort,
        Rule::SourcesTooShort,
        Rule::ScratchTooSmall,
    ];

    /// Their numbers.
    const NUMBERS: [u32; Rule::ALL.len()] =
        [1, 2, 3, 4, 5, 6, 7, 8, 9, 10, 11, 12, 13, 14, 15, 16, 17, 18, 19, 20, 21, 22, 23, 24, 25, 26, 27, 30, 31, 32];

    /// The number of the rule.
    pub fn number(self) -> u32 {
        match self {
            Rule::Unknown(number) => number,
            known => {
                let found = Rule::ALL.into_iter().zip(Rule::NUMBERS).find(|&(rule, _)| rule == known);
                found.expect("one of all").1
            }
        }
    }

    /// The rule of a number, if this crate knows it.
    pub fn from_number(number: u32) -> Option<Rule> {
        let found = Rule::NUMBERS.into_iter().zip(Rule::ALL).find(|&(known, _)| known == number);
        found.map(|(_, rule)| rule)
    }

    /// The rule as a sentence.
    pub fn sentence(self) -> &'static str {
        match self {
            Rule::StreamTooLong => {
                "the stream is over 1,048,576 octets, or over 65,535 where its short normal form is asked"
            }
            Rule::MisplacedZero => {
                "a 00 stands where no indefinite item is innermost, or is followed by another octet than 00"
            }
            Rule::TooDeep => "an item stands at level 17; level 16 is the deepest",
            Rule::NumberInFurtherOctets => "the number of an item is over 16,383, or not in the fewest octets",
            Rule::WrongForm => "a universal number stands in a form that it never has, or is above 30",
            Rule::LengthOctet => "the first length octet is 85 to FF, or 80 on a primitive item",
            Rule::PastLimit => {
                "a header, a value or a closing mark passes its limit, or an indefinite item reaches it unclosed"
            }
            Rule::WrongLength => "a boolean is not one octet, a null is not empty, or an integer is empty",
            Rule::TooManyElements => "there are more than 4,096 elements",
            Rule::NoSuchElement => "no element begins with this octet",
            Rule::ProfilePlace => "the document profile is not first, stands again later, or the stream is empty",
            Rule::Contents => "the contents of an element are not as tabled",
            Rule::ObjectType => "an object type is outside its range or not one octet",
            Rule::Misspelt => "an identifier or a portion number is misspelt, or there is a 65th portion",
            Rule::Repeated => "an identifier or a portion number stands twice",
            Rule::TableTooShort => "the table has fewer rows than there are elements",
            Rule::NormalFormTooLong => "the normal form is over 1,048,576 octets",
            Rule::OutputTooShort => "the output is shorter than the normal form, or than the text in UTF-8",
            Rule::ListTooShort => "the list is shorter than the matches, or the lines are fewer",
            Rule::NoTextUnit => "the asked element is no text unit or does not exist",
            Rule::InPieces => "the content is in pieces or tiles, and no one part of the stream",
            Rule::CopyTooShort => "the output is shorter than the joined content, or than all texts of the side",
            Rule::NoSoleDate => "the profile does not have exactly one date of the document, or that is constructed",
            Rule::NoSuchDay => "the date of the document does not begin with a day as in 1988-06-05",
            Rule::ChildrenTooShort => "the list is shorter than the children",
            Rule::OutOfOrder => "the elements are not in the order that was asked",
            Rule::PartOutside => "a part of an entry is outside the buffer, or ends before it begins",
            Rule::PagesTooShort => "the list is shorter than the pages",
            Rule::SourcesTooShort => "the list is shorter than the sources",
            Rule::ScratchTooSmall => "the lent scratch is too small for the elements of the stream",
            Rule::Unknown(_) => "a rule that is newer than this program",
        }
    }
}

impl fmt::Display for Rule {
    fn fmt(&self, f: &mut fmt::Formatter<'_>) -> fmt::Result {
        f.write_str(self.sentence())
    }
}

#[cfg(test)]
mod tests {
    use super::*;

    #[test]
    fn numbers_and_rules_agree() {
        for (number, rule) in (1..28).chain(30..33).zip(Rule::ALL) {
            assert_eq!((rule.number(), Rule::from_number(number)), (number, Some(rule)));
            assert_eq!(Refusal::unless_accepted(number, 7), Err(Refusal { rule, place: 7 }));
        }
        assert_eq!(Rule::ALL.last().map(|rule| rule.number()), Some(32));
        assert_eq!(Refusal::unless_accepted(0, 0), Ok(()));
    }

    /// The library of today gives no such number, so this is asked of what reads its answers.
    #[test]
    fn a_number_of_a_newer_library_is_a_refusal_too() {
        for number in [99, 255, u32::MAX] {
            let refusal = Refusal::unless_accepted(number, 5).unwrap_err();
            assert_eq!((refusal.number(), refusal.place), (number, 5));
            assert_eq!(refusal.to_string(), format!("number {number} at 5: a rule that is newer than this program"));
            assert_eq!(Rule::from_number(number), None);
        }
        assert_eq!(Rule::from_number(0), None);
    }
}
