//! Where the text of a side stands in the stream.

use std::ops::Range;

use crate::edition::Edition;
use crate::letter::{Letter, Side};
use crate::raw;
use crate::refusal::Refusal;

/// Which octets of the stream are shown in which line of a [`Text`](crate::Text).
#[derive(Clone, Debug, PartialEq, Eq)]
#[non_exhaustive]
pub struct Source {
    /// The line, a number of [`Text::lines`](crate::Text::lines).
    pub line: usize,
    /// The octets in the stream. It is never empty.
    pub place: Range<usize>,
}

/// Where the text of a side of a stream stands in it: a source for each piece that has octets, line by line in the order of
/// [`text`](crate::text()), and in each line piece by piece. The octets at these places, one after another, are the text; those
/// of a line are its content, and ascend in the content of its unit. No octet of the stream is in two sources.
pub fn sources(stream: &[u8], side: Side) -> Result<Vec<Source>, Refusal> {
    sources_in(Edition::Of1988, stream, side)
}

/// As [`sources`], by an edition.
pub fn sources_in(edition: Edition, stream: &[u8], side: Side) -> Result<Vec<Source>, Refusal> {
    let headers = crate::check_in(edition, stream).headers;
    filled(edition, stream, side, headers)
}

impl Letter<'_> {
    /// Where the text of a side stands in the stream, as [`sources`] tells it.
    pub fn sources(&self, side: Side) -> Result<Vec<Source>, Refusal> {
        filled(self.edition(), self.stream(), side, self.headers())
    }
}

/// As many records as there are headers are always enough.
fn filled(edition: Edition, stream: &[u8], side: Side, headers: usize) -> Result<Vec<Source>, Refusal> {
    let mut list = vec![raw::Source::default(); headers];
    let told = match side {
        Side::Layout => raw::layout_sources_in(edition, stream, &mut list),
        Side::Logical => raw::logical_sources_in(edition, stream, &mut list),
    };
    Refusal::unless_accepted(told.number, told.place)?;
    list.truncate(told.sources as usize);
    let source =
        |source: raw::Source| Source { line: source.line as usize, place: source.first as usize..source.past as usize };
    Ok(list.into_iter().map(source).collect())
}
