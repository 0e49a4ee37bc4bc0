//! A letter that arrives in blocks: the functions and structs of `include/odif.h`.
#![allow(unsafe_code)]

/// The state of the block engine. Its numbers are the engine's own; it has no pointer in it, and may be copied.
#[repr(C)]
#[derive(Clone, Copy, Debug, PartialEq, Eq)]
pub struct Blocks {
    /// The octets told.
    pub total: u64,
    /// The octets that have come.
    pub taken: u64,
    /// Where the next header stands.
    pub at: u64,
    /// How many items are open there.
    pub level: u64,
    /// The items that passed 2 to 8.
    pub headers: u32,
    /// The finding, 1 to 8, or 0.
    pub number: u32,
    /// The finding's place.
    pub place: u32,
    /// The octets of the next header that have come.
    pub have: u32,
    /// Twice the end of each open item, and one more if it waits for its closing mark.
    pub ends: [u32; 16],
    /// The octets of the next header.
    pub begun: [u8; 8],
}

/// The answer of [`start`] and [`take`].
#[repr(C)]
#[derive(Clone, Copy, Debug, PartialEq, Eq)]
pub struct Taken {
    /// 0, 1 from the start, or 28 from a block.
    pub number: u32,
    /// The state to go on with.
    pub state: Blocks,
}

/// The answer of [`close`].
#[repr(C)]
#[derive(Clone, Copy, Debug, PartialEq, Eq)]
pub struct Walked {
    /// 0, the first fault of 1 to 8, or 29.
    pub number: u32,
    /// The place of the fault.
    pub place: u32,
    /// The items that passed 2 to 8; 0 after 1 and 29.
    pub headers: u32,
}

unsafe extern "C" {
    fn odif_blocks_start(total: usize) -> Taken;
    fn odif_blocks_take(state: Blocks, block: *const u8, block_len: usize) -> Taken;
    fn odif_blocks_close(state: Blocks) -> Walked;
}

// SAFETY, for each call below: a pointer and a length come from one slice, which is lent for the call alone and read
// only, and no pointer is kept. Any numbers are a valid state to the library.

/// Starts a letter of so many octets.
pub fn start(total: usize) -> Taken {
    unsafe { odif_blocks_start(total) }
}

/// Takes a block of any length.
pub fn take(state: Blocks, block: &[u8]) -> Taken {
    unsafe { odif_blocks_take(state, block.as_ptr(), block.len()) }
}

/// What the walk of the letter tells, if all its octets have come.
pub fn close(state: Blocks) -> Walked {
    unsafe { odif_blocks_close(state) }
}
