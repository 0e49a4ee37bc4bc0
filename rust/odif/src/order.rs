//! The order of the elements by interchange format class A or B.

use std::fmt;

use crate::edition::Edition;
use crate::letter::Letter;
use crate::raw;
use crate::refusal::Refusal;

/// An interchange format class, by whose order elements are judged (T.415 of 1993, 7.2 and 7.3). A letter is judged by the
/// class that is asked, whatever class its profile names.
#[derive(Clone, Copy, Debug, PartialEq, Eq, Hash)]
pub enum Class {
    /// Elements of a kind together, and text units behind the objects that list them.
    A,
    /// Each layout object with its text units right behind it; no logical side.
    B,
}

impl Class {
    /// Both.
    pub const ALL: [Class; 2] = [Class::A, Class::B];
}

impl fmt::Display for Class {
    fn fmt(&self, f: &mut fmt::Formatter<'_>) -> fmt::Result {
        f.write_str(match self {
            Class::A => "A",
            Class::B => "B",
        })
    }
}

/// Says whether a stream is in the order of a class. Else it is refused: by a rule of 1 to 15, or by 26, at the first
/// element such that no run in the order begins with the elements through it, or at the stream's length if only the end is
/// missing.
pub fn order(class: Class, stream: &[u8]) -> Result<(), Refusal> {
    order_in(Edition::Of1988, class, stream)
}

/// As [`order`], by an edition. Protected parts, which 1993 has, have their places in both orders, but those enciphered before
/// the layout have none in that of class B.
pub fn order_in(edition: Edition, class: Class, stream: &[u8]) -> Result<(), Refusal> {
    let answer = raw::order_in(edition, class, stream);
    Refusal::unless_accepted(answer.number, answer.place)
}

impl Letter<'_> {
    /// Is the letter in the order of a class? Else it is refused by 26, at the octet where that shows.
    pub fn order(&self, class: Class) -> Result<(), Refusal> {
        order_in(self.edition(), class, self.stream())
    }
}
