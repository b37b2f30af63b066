//! Work areas as a caller lends them: full of noise, and seldom of the least length.

use crate::common::Random;
use std::sync::OnceLock;

/// The least lengths of the areas; an entry borrows the first ones, so many.
pub use succoryvise_sys::{AREAS as LEAST, CHECKER_AREAS, MAKER_AREAS, READER_AREAS};

/// The most that an area of a case is longer than it has to be.
const MOST_MORE: usize = 300;

/// The first N areas of a case.
pub struct Areas<const N: usize> {
    lengths: [usize; N],
    /// Where the noise of the first one begins.
    noise: usize,
}

impl<const N: usize> Areas<N> {
    /// Areas that are just long enough.
    pub fn least() -> Self {
        Areas {
            lengths: std::array::from_fn(|i| LEAST[i]),
            noise: 0,
        }
    }

    /// Areas of which each may be longer than it has to be, and one in `times` times too short.
    pub fn any(random: &mut Random, times: usize) -> Self {
        let mut areas = Areas::least();
        for length in &mut areas.lengths {
            if random.once_in(2) {
                *length += random.below(MOST_MORE + 1);
            }
        }
        if random.once_in(times) {
            let short = random.below(N);
            areas.lengths[short] = match random.below(3) {
                0 => LEAST[short] - 1,
                1 => random.below(LEAST[short]),
                _ => 0,
            };
        }
        areas.noise = random.below(NOISE / 2);
        areas
    }

    /// Refusal 15.
    pub fn too_short(&self) -> bool {
        let mut each = self.lengths.iter().zip(LEAST);
        each.any(|(length, least)| *length < least)
    }

    /// The areas themselves, each full of noise.
    pub fn lend(&self) -> [Vec<u8>; N] {
        std::array::from_fn(|i| {
            let from = (self.noise + 1_000 * i) % (NOISE / 2);
            noise(NOISE)[from..from + self.lengths[i]].to_vec()
        })
    }

    /// Whether they are as they have to be after a call: refused with 15 it has changed nothing, and
    /// after every other call they are zero.
    pub fn are_right(&self, lent: &[Vec<u8>; N]) -> bool {
        if self.too_short() {
            return *lent == self.lend();
        }
        let mut each = lent.iter().zip(self.lengths);
        each.all(|(area, length)| area.len() == length && is_zero(area))
    }
}

/// Areas, as an entry takes them.
pub fn slices<const N: usize>(areas: &mut [Vec<u8>; N]) -> [&mut [u8]; N] {
    areas.each_mut().map(|area| &mut area[..])
}

fn is_zero(area: &[u8]) -> bool {
    area.iter().fold(0, |all, byte| all | byte) == 0
}

const NOISE: usize = 1 << 17;

/// So many bytes at random, at most 128 KiB, the same in every run.
pub fn noise(length: usize) -> &'static [u8] {
    static BYTES: OnceLock<Vec<u8>> = OnceLock::new();
    let bytes = BYTES.get_or_init(|| {
        let mut random = Random::new(0x9E37_79B9_7F4A_7C15);
        (0..NOISE).map(|_| random.below(256) as u8).collect()
    });
    &bytes[..length]
}
