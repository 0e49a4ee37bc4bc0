//! Memory to lend: filled with a pattern, with more of it before and behind, so that every stray write shows.

/// Cells kept before and behind what is lent.
const GUARD: usize = 16;

/// Memory for one question.
#[derive(Clone, Debug, PartialEq, Eq)]
pub struct Lent<T> {
    cells: Vec<T>,
}

impl<T: Clone + PartialEq> Lent<T> {
    /// So many cells to lend, each with what `pattern` gives for its place.
    pub fn new(count: usize, pattern: impl Fn(usize) -> T) -> Self {
        Lent { cells: (0..count + 2 * GUARD).map(pattern).collect() }
    }

    /// The cells to lend.
    pub fn lend(&mut self) -> &mut [T] {
        let past = self.cells.len() - GUARD;
        &mut self.cells[GUARD..past]
    }

    /// The cells that were lent.
    pub fn cells(&self) -> &[T] {
        &self.cells[GUARD..self.cells.len() - GUARD]
    }

    /// Is all as it was before, but for the first `used` cells? More than were lent can't have been used.
    pub fn is_untouched_past(&self, used: usize, before: &Self) -> bool {
        used <= self.cells().len()
            && self.cells[..GUARD] == before.cells[..GUARD]
            && self.cells[GUARD + used..] == before.cells[GUARD + used..]
    }
}

/// A pattern of numbers, none of which a table or a list would hold.
pub fn numbers(place: usize) -> u32 {
    0x8000_0000 | (place as u32).wrapping_mul(0x9E37_79B9) >> 1
}

/// A pattern of octets.
pub fn octets(place: usize) -> u8 {
    ((place as u32).wrapping_mul(0x9E37_79B9) >> 24) as u8
}
