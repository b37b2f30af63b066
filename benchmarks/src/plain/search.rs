//! A search over pairs that hold a set of alternatives, as the maker and the checker use it. There are two:
//! the plain one, and a tuned one.

use super::book::Book;
use super::Refusal;

/// The number of a pair.
pub type Number = u16;

/// A step out of a pair that is tried.
#[derive(Clone, Copy)]
pub struct Tried {
    pub action: usize,
    pub length: u8,
    /// The state or the row that it leads to.
    pub target: usize,
}

/// The room of a search, kept from call to call. A pair is a state or a row, and what is pending there.
pub trait Search {
    /// What a book says about sets, found once for each call.
    type Rules<'a>;

    fn new() -> Self;

    /// With a bit for each `|` with two timed sides.
    fn rules(book: &Book, either: u64) -> Self::Rules<'_>;

    /// Begins with the pair of this state or row and what is pending at first.
    fn begin(&mut self, rules: &Self::Rules<'_>, at: usize);

    /// The state or the row of a pair, where there are so many.
    fn at(&self, pair: usize) -> Option<usize>;

    /// How many pairs have been met, and how many alternatives they have.
    fn counts(&self) -> [usize; 2];

    /// Steps from a pair, whose marks these are, by all that is tried, and says for each action the
    /// pair that it leads to, or nothing where it breaks a rule. Answers whether the pair gives over 16
    /// alternatives by one of them; then it is stepped from by none. 11 where there is too much to
    /// count.
    fn step(
        &mut self,
        rules: &Self::Rules<'_>,
        pair: usize,
        marks: u16,
        tried: impl Iterator<Item = Tried>,
        lead: impl FnMut(usize, Option<Number>),
    ) -> Result<bool, Refusal>;
}
