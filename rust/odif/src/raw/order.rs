//! The order of a class.

use super::twins;
use crate::edition::Edition;
use crate::order::Class;

/// The answer of [`order`].
#[repr(C)]
#[derive(Clone, Copy, Debug, Default, PartialEq, Eq)]
pub struct Ordered {
    /// 0, or the number of the refusal.
    pub number: u32,
    /// The place of the refusal; with 26 the first octet of an element, or the stream's length.
    pub place: u32,
}

twins! {
    /// Says whether a stream is in the order of class A.
    order_a order_a_in = odif_order_a odif_order_a_1993() -> Ordered;
    /// Says whether a stream is in the order of class B.
    order_b order_b_in = odif_order_b odif_order_b_1993() -> Ordered;
}

/// Says whether a stream is in the order of a class.
pub fn order(class: Class, stream: &[u8]) -> Ordered {
    match class {
        Class::A => order_a(stream),
        Class::B => order_b(stream),
    }
}

/// [`order`] by an edition.
pub fn order_in(edition: Edition, class: Class, stream: &[u8]) -> Ordered {
    match class {
        Class::A => order_a_in(edition, stream),
        Class::B => order_b_in(edition, stream),
    }
}
