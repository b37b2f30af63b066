//! What an entry answers, on both sides.

use crate::plain::Refusal;
use std::fmt;

/// The values of an answer (number 0), or a refusal's number, place and letter.
#[derive(Clone, Copy, Debug, Default, PartialEq, Eq)]
pub struct Answer {
    pub number: u8,
    pub letter: u8,
    pub place: usize,
    pub values: [usize; 3],
}

impl Answer {
    /// Of an entry with so many values, at most 3.
    pub fn of<const N: usize>(answer: Result<[usize; N], Refusal>) -> Self {
        match answer {
            Ok(values) => Answer {
                values: std::array::from_fn(|i| values.get(i).copied().unwrap_or(0)),
                ..Answer::default()
            },
            Err(refusal) => refusal.into(),
        }
    }
}

impl From<Refusal> for Answer {
    fn from(refusal: Refusal) -> Self {
        Answer {
            number: refusal.number,
            letter: refusal.letter,
            place: refusal.place,
            ..Answer::default()
        }
    }
}

/// A refusal, as the vectors write it.
impl fmt::Display for Answer {
    fn fmt(&self, f: &mut fmt::Formatter) -> fmt::Result {
        write!(f, "refused {} {}", self.number, self.place)?;
        match self.letter {
            0 => Ok(()),
            letter => write!(f, " {}", char::from(letter)),
        }
    }
}
