//! Pairs that hold a set of alternatives: a state or a row, and what is pending there.

use super::alternatives::{OverFull, Progression, Rules, Set};
use super::book::Book;
use super::hash::Fast;
use super::search::{Number, Search, Tried};
use super::{Refusal, MOST_ACTIONS, MOST_PAIRS};
use std::collections::HashMap;

#[derive(Clone, Copy, PartialEq, Eq, Hash)]
struct Pair {
    /// The state or the row.
    at: u16,
    set: Set,
}

/// The room of a search over pairs, kept from call to call.
pub struct Pairs {
    numbers: HashMap<Pair, Number, Fast>,
    met: Vec<Pair>,
    /// How many alternatives they have together.
    alternatives: usize,
    /// The steps out of one pair, each with the place of its length.
    tried: Vec<(Tried, usize)>,
    /// Their lengths, and for each the pair that a step of it leads to, whose state or row changes with
    /// the action.
    lengths: Vec<u8>,
    after: Vec<Pair>,
    progression: Progression,
}

impl Search for Pairs {
    type Rules<'a> = Rules<'a>;

    fn new() -> Self {
        let (at, set) = (0, Set::EMPTY);
        Pairs {
            numbers: HashMap::with_capacity_and_hasher(MOST_PAIRS, Fast::default()),
            met: Vec::with_capacity(MOST_PAIRS),
            alternatives: 0,
            tried: Vec::with_capacity(MOST_ACTIONS),
            lengths: Vec::with_capacity(MOST_ACTIONS),
            after: vec![Pair { at, set }; MOST_ACTIONS],
            progression: Progression::new(),
        }
    }

    fn rules(book: &Book, either: u64) -> Rules<'_> {
        Rules::of(book, either)
    }

    fn begin(&mut self, rules: &Rules, at: usize) {
        self.numbers.clear();
        self.met.clear();
        self.alternatives = 1;
        let first = Pair {
            at: at as u16,
            set: Set::at_first(rules.book),
        };
        self.numbers.insert(first, 0);
        self.met.push(first);
    }

    fn at(&self, pair: usize) -> Option<usize> {
        self.met.get(pair).map(|pair| usize::from(pair.at))
    }

    fn counts(&self) -> [usize; 2] {
        [self.met.len(), self.alternatives]
    }

    fn step(
        &mut self,
        rules: &Rules,
        pair: usize,
        marks: u16,
        tried: impl Iterator<Item = Tried>,
        mut lead: impl FnMut(usize, Option<Number>),
    ) -> Result<bool, Refusal> {
        let old = &self.met[pair].set;
        self.tried.clear();
        self.lengths.clear();
        for step in tried {
            let mut known = self.lengths.iter();
            let place = known.position(|known| *known == step.length);
            let fresh = self.lengths.len();
            self.tried.push((step, place.unwrap_or(fresh)));
            if place.is_none() {
                let after = &mut self.after[fresh].set;
                let progressed = self
                    .progression
                    .after(rules, old, marks, step.length, after);
                if let Err(OverFull) = progressed {
                    return Ok(true);
                }
                self.lengths.push(step.length);
            }
        }
        for at in 0..self.tried.len() {
            let (step, place) = self.tried[at];
            let pair = self.reach(place, step.target as u16)?;
            lead(step.action, pair);
        }
        Ok(false)
    }
}

impl Pairs {
    /// The number of the pair that a step of the length at this place leads to, which is new or not;
    /// nothing where no alternative is left.
    fn reach(&mut self, place: usize, at: u16) -> Result<Option<Number>, Refusal> {
        let reached = &mut self.after[place];
        let count = reached.set.alternatives().len();
        if count == 0 {
            return Ok(None);
        }
        reached.at = at;
        if let Some(&number) = self.numbers.get(reached) {
            return Ok(Some(number));
        }
        self.alternatives += count;
        if self.alternatives > MOST_PAIRS {
            return Err(Refusal::new(11));
        }
        let number = self.met.len() as Number;
        self.numbers.insert(*reached, number);
        self.met.push(*reached);
        Ok(Some(number))
    }
}
