//! What an entry answers, whoever answers.

use reference::judge::Reason;
use reference::Refusal;
use std::fmt;

/// The values of an answer (number 0), or a refusal's number, place and letter (0 for none).
#[derive(Clone, Debug, Default, PartialEq, Eq)]
pub struct Answer {
    pub number: u8,
    pub place: usize,
    pub letter: u8,
    pub values: Vec<usize>,
}

impl Answer {
    pub fn of_values(values: impl Into<Vec<usize>>) -> Self {
        Answer {
            values: values.into(),
            ..Answer::default()
        }
    }

    /// Refusal 14.
    pub fn not_good(reason: Reason, place: usize) -> Self {
        Answer {
            letter: reason.letter() as u8,
            ..Refusal::at(14, place).into()
        }
    }

    /// The kind of a 14, by its reason.
    pub fn reason(&self) -> Option<&'static str> {
        match self.letter {
            b'a' => Some("14 a"),
            b'b' => Some("14 b"),
            b'c' => Some("14 c"),
            b'd' => Some("14 d"),
            b'e' => Some("14 e"),
            _ => None,
        }
    }
}

impl From<Refusal> for Answer {
    fn from(refusal: Refusal) -> Self {
        Answer {
            number: refusal.number,
            place: refusal.place,
            ..Answer::default()
        }
    }
}

/// As the vectors write it, but for the word before the values.
impl fmt::Display for Answer {
    fn fmt(&self, f: &mut fmt::Formatter) -> fmt::Result {
        if self.number == 0 {
            let values: Vec<String> = self.values.iter().map(usize::to_string).collect();
            return write!(f, "{}", values.join(" "));
        }
        write!(f, "refused {} {}", self.number, self.place)?;
        match self.letter {
            0 => Ok(()),
            letter => write!(f, " {}", char::from(letter)),
        }
    }
}

/// The answer of an entry that has so many values, at most 3, out of what the proved code hands over.
pub fn with_values(count: usize, handed: succoryvise_sys::Answer) -> Answer {
    let number = u8::try_from(handed.number).expect("a number of the paper");
    let count = if number == 0 { count } else { 0 };
    let values = [handed.first, handed.second, handed.third];
    assert!(values[count..].iter().all(|value| *value == 0));
    Answer {
        number,
        place: handed.place,
        letter: handed.letter,
        values: values[..count].to_vec(),
    }
}
