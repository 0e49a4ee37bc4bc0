//! The PM1 desk: the functions and structs of `include/pm1.h`, on slices.

use std::slice;

use super::twins;
use crate::edition::Edition;

/// The numbers of a [`Page`].
pub const PAGE_WIDTH: usize = 2;

/// One record of a list of pages.
#[repr(C)]
#[derive(Clone, Copy, Debug, Default, PartialEq, Eq)]
pub struct Page {
    /// The row of the layout object or class.
    pub element: u32,
    /// 0 no dimensions, 1 essential, 2 non-essential, 3 outside, 4 not fixed.
    pub verdict: u32,
}

/// The answer of [`pages`].
#[repr(C)]
#[derive(Clone, Copy, Debug, Default, PartialEq, Eq)]
pub struct Listed {
    /// 0, or the number of the refusal.
    pub number: u32,
    /// The place of the refusal.
    pub place: u32,
    /// The rows filled, also with 30.
    pub elements: u32,
    /// The records filled.
    pub pages: u32,
}

twins! {
    /// [`pages`] with the list as numbers, those of a [`Page`] each; an incomplete last record is not used.
    pub pages_numbers pages_numbers_in = pm1_pages_numbers pm1_pages_numbers_1993(table: u32, list: u32) -> Listed;
}

/// Fills the table and the list of pages and page classes, each with its verdict.
pub fn pages(stream: &[u8], table: &mut [u32], list: &mut [Page]) -> Listed {
    pages_numbers(stream, table, numbers_of(list))
}

/// [`pages`] by an edition.
pub fn pages_in(edition: Edition, stream: &[u8], table: &mut [u32], list: &mut [Page]) -> Listed {
    pages_numbers_in(edition, stream, table, numbers_of(list))
}

/// The numbers of records of pages.
fn numbers_of(list: &mut [Page]) -> &mut [u32] {
    // SAFETY: a page is its two numbers and nothing else, in their order, and any numbers are a page.
    unsafe { slice::from_raw_parts_mut(list.as_mut_ptr().cast(), PAGE_WIDTH * list.len()) }
}
