//! Holds the proved library against the independent reader.
//!
//! The program `compare` puts every question of both editions to both, on examples, on every limit of document 01 from both sides, on
//! generated letters, damaged copies of them and noise, and compares the answers and all lent memory; what it does with one
//! stream is in the crate `second`. The program `bench` measures the two beside each other.

pub mod blocks;
pub mod characters;
pub mod coding;
pub mod damage;
pub mod dates;
pub mod examples;
pub mod hold;
pub mod inputs;
pub mod letters;
pub mod limits;
pub mod making;
pub mod openssl;
pub mod order;
pub mod pages;
pub mod seeded;
pub mod short;

pub use second::{editions, lent, rng, tally};
