//! Pairs that hold a set of alternatives: a state or a row, and what is pending there. Sets are
//! numbered as they come up, so that a pair is two numbers.

use super::alternatives::{Alternative, OverFull, Progression, Rules};
use crate::plain::book::Book;
use crate::plain::hash::{Fast, FastHasher};
use crate::plain::search::{Number, Search, Tried};
use crate::plain::{Refusal, MOST_ACTIONS, MOST_PAIRS};
use std::collections::HashMap;
use std::hash::Hasher;
use std::ops::Range;

/// The places of the sets' numbers, twice as many as there are sets, at least.
const PLACES: usize = 2_048;
const FREE: Number = Number::MAX;

/// The sets that have come up, by their numbers.
struct Sets {
    alternatives: Vec<Alternative>,
    /// Where each set ends.
    ends: Vec<usize>,
    /// Numbers of sets, each at its hash or behind it.
    places: Vec<Number>,
}

impl Sets {
    fn new() -> Self {
        Sets {
            alternatives: Vec::with_capacity(2 * MOST_PAIRS),
            ends: Vec::with_capacity(MOST_PAIRS + 1),
            places: vec![FREE; PLACES],
        }
    }

    fn clear(&mut self) {
        self.alternatives.clear();
        self.ends.clear();
        self.places.fill(FREE);
    }

    fn range(&self, number: Number) -> Range<usize> {
        let number = usize::from(number);
        let begin = number.checked_sub(1).map_or(0, |before| self.ends[before]);
        begin..self.ends[number]
    }

    fn get(&self, number: Number) -> &[Alternative] {
        &self.alternatives[self.range(number)]
    }

    /// The number of a set, in its order.
    fn number(&mut self, set: &[Alternative]) -> Number {
        let mut hasher = FastHasher::default();
        for word in set.iter().flat_map(Alternative::words) {
            hasher.write_u64(word);
        }
        let mut place = hasher.finish() as usize % PLACES;
        loop {
            let number = self.places[place];
            if number == FREE {
                break;
            }
            if self.get(number) == set {
                return number;
            }
            place = (place + 1) % PLACES;
        }
        let number = self.ends.len() as Number;
        self.places[place] = number;
        self.alternatives.extend_from_slice(set);
        self.ends.push(self.alternatives.len());
        number
    }
}

#[derive(Clone, Copy, PartialEq, Eq, Hash)]
struct Pair {
    /// The state or the row.
    at: u16,
    set: Number,
}

/// The room of a search over pairs, kept from call to call.
pub struct Pairs {
    sets: Sets,
    numbers: HashMap<Pair, Number, Fast>,
    met: Vec<Pair>,
    /// How many alternatives they have together.
    alternatives: usize,
    /// The steps out of one pair, each with the place of its length.
    tried: Vec<(Tried, usize)>,
    /// Their lengths, what is pending after each, and where that ends; and the sets' numbers.
    lengths: Vec<u8>,
    after: Vec<Alternative>,
    ends: Vec<usize>,
    after_numbers: Vec<Option<Number>>,
    progression: Progression,
}

impl Search for Pairs {
    type Rules<'a> = Rules<'a>;

    fn new() -> Self {
        Pairs {
            sets: Sets::new(),
            numbers: HashMap::with_capacity_and_hasher(MOST_PAIRS + 1, Fast::default()),
            met: Vec::with_capacity(MOST_PAIRS + 1),
            alternatives: 0,
            tried: Vec::with_capacity(MOST_ACTIONS),
            lengths: Vec::with_capacity(MOST_ACTIONS),
            after: Vec::with_capacity(2 * MOST_ACTIONS * MOST_ACTIONS),
            ends: Vec::with_capacity(MOST_ACTIONS),
            after_numbers: Vec::with_capacity(MOST_ACTIONS),
            progression: Progression::new(),
        }
    }

    fn rules(book: &Book, either: u64) -> Rules<'_> {
        Rules::of(book, either)
    }

    fn begin(&mut self, rules: &Rules, at: usize) {
        self.sets.clear();
        self.numbers.clear();
        self.met.clear();
        self.alternatives = 1;
        let first = Pair {
            at: at as u16,
            set: self.sets.number(&[rules.at_first()]),
        };
        self.numbers.insert(first, 0);
        self.met.push(first);
    }

    fn at(&self, pair: usize) -> Option<usize> {
        self.met.get(pair).map(|pair| usize::from(pair.at))
    }

    fn counts(&self) -> [usize; 2] {
        [self.met.len(), self.alternatives]
    }

    fn step(
        &mut self,
        rules: &Rules,
        pair: usize,
        marks: u16,
        tried: impl Iterator<Item = Tried>,
        mut lead: impl FnMut(usize, Option<Number>),
    ) -> Result<bool, Refusal> {
        let old = self.sets.get(self.met[pair].set);
        self.tried.clear();
        self.lengths.clear();
        self.after.clear();
        self.ends.clear();
        for step in tried {
            let mut known = self.lengths.iter();
            let place = known.position(|known| *known == step.length);
            self.tried.push((step, place.unwrap_or(self.lengths.len())));
            if place.is_none() {
                let after = &mut self.after;
                let progressed = self
                    .progression
                    .after(rules, old, marks, step.length, after);
                if let Err(OverFull) = progressed {
                    return Ok(true);
                }
                self.lengths.push(step.length);
                self.ends.push(self.after.len());
            }
        }
        self.after_numbers.clear();
        let mut begin = 0;
        for &end in &self.ends {
            let set = &self.after[begin..end];
            let number = (!set.is_empty()).then(|| self.sets.number(set));
            self.after_numbers.push(number);
            begin = end;
        }
        for at in 0..self.tried.len() {
            let (step, place) = self.tried[at];
            let set = self.after_numbers[place];
            let pair = set.map(|set| self.reach(step.target as u16, set));
            lead(step.action, pair.transpose()?);
        }
        Ok(false)
    }
}

impl Pairs {
    /// The number of a pair, which is new or not.
    fn reach(&mut self, at: u16, set: Number) -> Result<Number, Refusal> {
        let reached = Pair { at, set };
        let fresh = self.met.len() as Number;
        let number = *self.numbers.entry(reached).or_insert(fresh);
        if number == fresh {
            self.alternatives += self.sets.range(set).len();
            if self.alternatives > MOST_PAIRS {
                return Err(Refusal::new(11));
            }
            self.met.push(reached);
        }
        Ok(number)
    }
}
