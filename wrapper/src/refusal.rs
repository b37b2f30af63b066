//! Why a call is turned down.

use std::error::Error;
use std::fmt;
use succoryvise_sys::Answer;

/// The three values of an answer, 0 where there are fewer; or the refusal.
pub(crate) fn values(answer: Answer) -> Result<[usize; 3], Refusal> {
    match answer.number {
        0 => Ok([answer.first, answer.second, answer.third]),
        number => Err(Refusal::of_numbers(number, answer.place, answer.letter)),
    }
}

/// Why a call is turned down, with the numbers and places of the paper. Lines are counted from 0.
///
/// There may be more cases and more fields in time: a `match` has an arm `_`, and a pattern ends in
/// `..`. [`number`](Refusal::number) and [`place`](Refusal::place) are there for every refusal.
///
/// ```
/// use succoryvise::{read_book, Refusal};
///
/// let said = match read_book(3, b"start T\nstart p3\n") {
///     Ok(counts) => format!("{} lines", counts.lines),
///     Err(Refusal::Mark { line, .. }) => format!("line {line} has a mark too many"),
///     Err(refusal) => format!("{}: {refusal}", refusal.number()),
/// };
/// assert_eq!(said, "line 1 has a mark too many");
/// ```
#[derive(Clone, Copy, Debug, PartialEq, Eq, Hash)]
#[non_exhaustive]
pub enum Refusal {
    /// 1: the tower file has a wrong offset in its header or a wrong length.
    TowerSize,
    /// 2: a count or the start state of the tower is out of range, or a book is read for too many
    /// marks.
    Range,
    /// 3: an action of the tower has length 0 or a kind above 2.
    Action,
    /// 4: a target of the tower is neither a state nor 255.
    Target,
    /// 5: a mask of the tower has a bit at or above the number of marks.
    Mask,
    /// 6: a line of the book is not of the grammar.
    #[non_exhaustive]
    Grammar {
        /// The line.
        line: usize,
    },
    /// 7: a line of the book has a number above 254.
    #[non_exhaustive]
    Number {
        /// The line.
        line: usize,
    },
    /// 8: a line of the book has a mark that the tower does not have.
    #[non_exhaustive]
    Mark {
        /// The line.
        line: usize,
    },
    /// 9: the book is longer than 4,096 bytes (line 0); or with this line it has more than 60 nodes;
    /// or the line has more than 16 brackets open at one time.
    #[non_exhaustive]
    Limit {
        /// The line.
        line: usize,
    },
    /// 10: a line of the book has a timed formula where none may be.
    #[non_exhaustive]
    Timed {
        /// The line.
        line: usize,
    },
    /// 11: there are more than 1,000 pairs, or rows with what is pending.
    Pairs,
    /// 12: there is no good table, of any length.
    NoTable,
    /// 13: the table file is not laid out as it should be, or is for a tower with other counts.
    Layout,
    /// 14: the table is not good.
    NotGood(Reason),
    /// 15: a work area is too short. This crate lends areas that are long enough.
    Area,
    /// 16: the output is too short for the table, or the list for the run. This crate lends lists that are
    /// long enough.
    Output,
    /// 17: the row or the action is outside the table.
    Outside,
    /// 18: the action is not allowed in this row.
    NotAllowed,
    /// 19: a line of the log is not of its form.
    #[non_exhaustive]
    Log {
        /// The line.
        line: usize,
    },
    /// 20: a step leaves more than 16 alternatives.
    Alternatives,
    /// Any other number: the archive knows more refusals than this crate.
    #[non_exhaustive]
    Other {
        /// The number.
        number: u32,
        /// The place.
        place: usize,
    },
}

/// Why a table is not good. There may be more cases and more fields in time, as in [`Refusal`].
#[derive(Clone, Copy, Debug, PartialEq, Eq, Hash)]
#[non_exhaustive]
pub enum Reason {
    /// a: row 0 has not the tower's start state.
    Start,
    /// b: an enabled action of kind 0 or 2 is not allowed in this row.
    #[non_exhaustive]
    Withheld {
        /// The row.
        row: usize,
    },
    /// c: an action is allowed in this row that is not enabled or leads to a row of another state.
    #[non_exhaustive]
    WrongStep {
        /// The row.
        row: usize,
    },
    /// d: no action of kind 1 or 2 is allowed in this row.
    #[non_exhaustive]
    Stopped {
        /// The row.
        row: usize,
    },
    /// e: the table allows a run that breaks a rule.
    Broken,
    /// Any other letter: the archive knows more reasons than this crate.
    #[non_exhaustive]
    Other {
        /// The letter.
        letter: char,
        /// The place.
        place: usize,
    },
}

impl Refusal {
    /// The number of the paper, 1 to 20 so far.
    pub fn number(&self) -> u32 {
        match self {
            Refusal::TowerSize => 1,
            Refusal::Range => 2,
            Refusal::Action => 3,
            Refusal::Target => 4,
            Refusal::Mask => 5,
            Refusal::Grammar { .. } => 6,
            Refusal::Number { .. } => 7,
            Refusal::Mark { .. } => 8,
            Refusal::Limit { .. } => 9,
            Refusal::Timed { .. } => 10,
            Refusal::Pairs => 11,
            Refusal::NoTable => 12,
            Refusal::Layout => 13,
            Refusal::NotGood(_) => 14,
            Refusal::Area => 15,
            Refusal::Output => 16,
            Refusal::Outside => 17,
            Refusal::NotAllowed => 18,
            Refusal::Log { .. } => 19,
            Refusal::Alternatives => 20,
            Refusal::Other { number, .. } => *number,
        }
    }

    /// The place of the paper: the line from 0 for 6 to 10 and 19, the row for a 14 b to d, otherwise 0.
    pub fn place(&self) -> usize {
        match self {
            Refusal::Grammar { line }
            | Refusal::Number { line }
            | Refusal::Mark { line }
            | Refusal::Limit { line }
            | Refusal::Timed { line }
            | Refusal::Log { line } => *line,
            Refusal::NotGood(reason) => reason.place(),
            Refusal::Other { place, .. } => *place,
            _ => 0,
        }
    }

    /// The reason inside a 14.
    pub fn reason(&self) -> Option<Reason> {
        match self {
            Refusal::NotGood(reason) => Some(*reason),
            _ => None,
        }
    }

    /// The refusal with this number, place and letter, whatever they are.
    fn of_numbers(number: u32, place: usize, letter: u8) -> Self {
        let line = place;
        match number {
            1 => Refusal::TowerSize,
            2 => Refusal::Range,
            3 => Refusal::Action,
            4 => Refusal::Target,
            5 => Refusal::Mask,
            6 => Refusal::Grammar { line },
            7 => Refusal::Number { line },
            8 => Refusal::Mark { line },
            9 => Refusal::Limit { line },
            10 => Refusal::Timed { line },
            11 => Refusal::Pairs,
            12 => Refusal::NoTable,
            13 => Refusal::Layout,
            14 => Refusal::NotGood(Reason::of_letter(letter, place)),
            15 => Refusal::Area,
            16 => Refusal::Output,
            17 => Refusal::Outside,
            18 => Refusal::NotAllowed,
            19 => Refusal::Log { line },
            20 => Refusal::Alternatives,
            number => Refusal::Other { number, place },
        }
    }
}

impl Reason {
    /// The letter of the paper, `a` to `e` so far.
    pub fn letter(&self) -> char {
        match self {
            Reason::Start => 'a',
            Reason::Withheld { .. } => 'b',
            Reason::WrongStep { .. } => 'c',
            Reason::Stopped { .. } => 'd',
            Reason::Broken => 'e',
            Reason::Other { letter, .. } => *letter,
        }
    }

    /// The row for b to d, otherwise 0.
    pub fn place(&self) -> usize {
        match self {
            Reason::Withheld { row } | Reason::WrongStep { row } | Reason::Stopped { row } => *row,
            Reason::Start | Reason::Broken => 0,
            Reason::Other { place, .. } => *place,
        }
    }

    /// The reason with this letter and place, whatever they are.
    fn of_letter(letter: u8, place: usize) -> Self {
        let row = place;
        match letter {
            b'a' => Reason::Start,
            b'b' => Reason::Withheld { row },
            b'c' => Reason::WrongStep { row },
            b'd' => Reason::Stopped { row },
            b'e' => Reason::Broken,
            letter => Reason::Other {
                letter: letter.into(),
                place,
            },
        }
    }
}

/// In plain words. Lines are told as people count them, from 1.
impl fmt::Display for Refusal {
    fn fmt(&self, f: &mut fmt::Formatter) -> fmt::Result {
        let counted = self.place().saturating_add(1);
        match self {
            Refusal::TowerSize => f.write_str("the tower file has a wrong offset or length"),
            Refusal::Range => f.write_str("a count or the start of the tower is out of range"),
            Refusal::Action => f.write_str("an action of the tower has length 0 or an unknown kind"),
            Refusal::Target => f.write_str("a target of the tower is no state"),
            Refusal::Mask => f.write_str("a state has a mark that the tower does not have"),
            Refusal::Grammar { .. } => write!(f, "line {counted} is not of the grammar"),
            Refusal::Number { .. } => write!(f, "line {counted} has a number above 254"),
            Refusal::Mark { .. } => write!(f, "line {counted} has a mark that the tower does not have"),
            Refusal::Limit { .. } => write!(
                f,
                "the book is over 4,096 bytes, or with line {counted} over 60 nodes or 16 open brackets"
            ),
            Refusal::Timed { .. } => write!(f, "line {counted} has a timed part where none may be"),
            Refusal::Pairs => f.write_str("there are more than 1,000 pairs"),
            Refusal::NoTable => f.write_str("there is no good table"),
            Refusal::Layout => f.write_str("the table file is damaged or for another tower"),
            Refusal::NotGood(reason) => write!(f, "the table is not good: {reason}"),
            Refusal::Area => f.write_str("a work area is too short"),
            Refusal::Output => f.write_str("the output is too short for the table"),
            Refusal::Outside => f.write_str("the row or the action is outside the table"),
            Refusal::NotAllowed => f.write_str("the action is not allowed now"),
            Refusal::Log { .. } => write!(f, "line {counted} of the log is not of its form"),
            Refusal::Alternatives => f.write_str("a step leaves more than 16 alternatives"),
            Refusal::Other { number, place } => {
                write!(f, "refused with number {number}, place {place}")
            }
        }
    }
}

/// In plain words.
impl fmt::Display for Reason {
    fn fmt(&self, f: &mut fmt::Formatter) -> fmt::Result {
        match self {
            Reason::Start => f.write_str("row 0 has not the start state"),
            Reason::Withheld { row } => write!(f, "row {row} withholds an action that is not ours"),
            Reason::WrongStep { row } => {
                write!(f, "row {row} has a step that the tower does not have")
            }
            Reason::Stopped { row } => write!(f, "row {row} allows no action but the player's"),
            Reason::Broken => f.write_str("it allows a run that breaks a rule"),
            Reason::Other { letter, place } => write!(f, "reason {letter}, place {place}"),
        }
    }
}

impl Error for Refusal {}

#[cfg(test)]
mod tests {
    use super::{values, Answer, Reason, Refusal};

    /// The refusal of these numbers.
    fn refusal(number: u32, place: usize, letter: u8) -> Refusal {
        let answer = Answer {
            number,
            letter,
            place,
            ..Answer::default()
        };
        values(answer).expect_err("a refusal")
    }

    /// Number, place and letter of each refusal are those that it was made of.
    #[test]
    fn numbers_there_and_back() {
        for number in (1..=20).filter(|number| *number != 14) {
            let refusal = refusal(number, 7, 0);
            let place = if matches!(number, 6..=10 | 19) { 7 } else { 0 };
            assert_eq!((refusal.number(), refusal.place()), (number, place));
            assert_eq!(refusal.reason(), None);
            assert!(!matches!(refusal, Refusal::Other { .. }));
        }
        for letter in b'a'..=b'e' {
            let refusal = refusal(14, 7, letter);
            let place = if (b'b'..=b'd').contains(&letter) {
                7
            } else {
                0
            };
            assert_eq!((refusal.number(), refusal.place()), (14, place));
            let reason = refusal.reason().expect("a reason");
            assert_eq!(reason.letter(), char::from(letter));
            assert!(!matches!(reason, Reason::Other { .. }));
        }
    }

    /// Whatever the archive answers, there is a refusal with just this number, and words for it.
    #[test]
    fn no_number_is_too_much() {
        assert_eq!(values(Answer::default()), Ok([0; 3]));
        for number in (1..=65_535).chain([u32::MAX]) {
            for place in [0, 7, usize::MAX] {
                let refusal = refusal(number, place, 0);
                assert_eq!(refusal.number(), number);
                let known = number <= 20;
                assert_eq!(matches!(refusal, Refusal::Other { .. }), !known);
                assert!(known || refusal.place() == place);
                assert!(!refusal.to_string().is_empty());
            }
        }
        for letter in 0..=255 {
            let refusal = refusal(14, usize::MAX, letter);
            assert_eq!(refusal.number(), 14);
            let reason = refusal.reason().expect("a reason");
            assert_eq!(reason.letter(), char::from(letter));
            let known = (b'a'..=b'e').contains(&letter);
            assert_eq!(matches!(reason, Reason::Other { .. }), !known);
            assert!(known || refusal.place() == usize::MAX);
            assert!(!refusal.to_string().is_empty());
        }
    }

    /// Lines are told from 1, rows as the listing has them.
    #[test]
    fn in_plain_words() {
        assert_eq!(refusal(6, 2, 0).to_string(), "line 3 is not of the grammar");
        assert_eq!(
            refusal(14, 2, b'd').to_string(),
            "the table is not good: row 2 allows no action but the player's"
        );
        assert_eq!(
            refusal(19, 65_536, 0).to_string(),
            "line 65537 of the log is not of its form"
        );
        assert_eq!(
            refusal(20, 0, 0).to_string(),
            "a step leaves more than 16 alternatives"
        );
        assert_eq!(
            refusal(21, 2, 0).to_string(),
            "refused with number 21, place 2"
        );
    }
}
