//! A plain reading of the paper 'Play tables for bell towers', to compare other code with.
//!
//! It shares no code with the proved crates and allocates freely. Work areas do not occur here, so
//! neither does refusal 15.

use std::fmt;

pub mod alternatives;
pub mod book;
pub mod check;
pub mod follow;
pub mod judge;
pub mod listing;
pub mod log;
pub mod make;
pub mod pending;
pub mod program;
pub mod runs;
pub mod table;
pub mod tower;
pub mod vectors;
pub mod why;

/// The most pairs, and the most rows of a table file.
pub const MOST_PAIRS: usize = 1_000;

/// Why a call is turned down: the paper's number, and the place that goes with it.
#[derive(Clone, Copy, Debug, PartialEq, Eq)]
pub struct Refusal {
    pub number: u8,
    pub place: usize,
}

impl Refusal {
    /// A refusal whose place is 0.
    pub fn new(number: u8) -> Self {
        Refusal { number, place: 0 }
    }

    pub fn at(number: u8, place: usize) -> Self {
        Refusal { number, place }
    }
}

impl fmt::Display for Refusal {
    fn fmt(&self, f: &mut fmt::Formatter) -> fmt::Result {
        write!(f, "refused {} {}", self.number, self.place)
    }
}

/// The number of `width` bytes at `at`, low byte first.
fn number_at(width: usize, bytes: &[u8], at: usize) -> usize {
    let bytes = bytes[at..at + width].iter().rev();
    bytes.fold(0, |number, byte| 256 * number + usize::from(*byte))
}

/// The two-byte number at `at`.
fn two_bytes(bytes: &[u8], at: usize) -> usize {
    number_at(2, bytes, at)
}

/// Writes a number in `width` bytes, low byte first. What does not fit is cut off.
fn put_number(width: usize, bytes: &mut Vec<u8>, number: usize) {
    bytes.extend(&number.to_le_bytes()[..width]);
}
