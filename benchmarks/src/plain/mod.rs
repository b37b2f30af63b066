//! The six entries in plain Rust, as one would write them for speed and without proofs: what is
//! read lies in arrays of fixed size, and the room of the searches is kept from call to call.

pub mod alternatives;
pub mod book;
pub mod check;
pub mod follow;
pub mod hash;
pub mod log;
pub mod make;
pub mod pairs;
pub mod pending;
pub mod search;
pub mod table;
pub mod tower;
pub mod why;

/// Why a call is turned down: number, place, and the letter of a 14.
#[derive(Clone, Copy, Debug, PartialEq, Eq)]
pub struct Refusal {
    pub number: u8,
    pub place: usize,
    pub letter: u8,
}

impl Refusal {
    pub fn new(number: u8) -> Self {
        Refusal::at(number, 0)
    }

    pub fn at(number: u8, place: usize) -> Self {
        Refusal {
            number,
            place,
            letter: 0,
        }
    }

    /// A 14.
    pub fn not_good(letter: u8, place: usize) -> Self {
        Refusal {
            number: 14,
            place,
            letter,
        }
    }
}

pub const MOST_PAIRS: usize = 1_000;
pub const MOST_NODES: usize = 60;
pub const MOST_ACTIONS: usize = 16;

/// The two-byte number at `at`, low byte first.
fn two_bytes(bytes: &[u8], at: usize) -> usize {
    usize::from(u16::from_le_bytes([bytes[at], bytes[at + 1]]))
}
