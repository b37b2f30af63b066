//! What is pending under a book in which both sides of `|` are timed somewhere: a set of alternatives,
//! and its progression along one step.

use super::book::{Book, Node};
use super::pending::{self, Pending};
use super::MOST_NODES;
use std::hash::{Hash, Hasher};

/// The most alternatives after a combination and its dropping.
const MOST: usize = 16;

/// The alternative with nothing pending.
const NOTHING: Pending = [0; MOST_NODES];

/// A combination leaves over 16 alternatives.
pub struct OverFull;

/// Alternatives in the order of their bytes: by the ticks left from the lowest node up, nothing before a
/// number.
#[derive(Clone, Copy)]
pub struct Set {
    alternatives: [Pending; MOST],
    count: usize,
}

impl Set {
    pub const EMPTY: Set = Set {
        alternatives: [NOTHING; MOST],
        count: 0,
    };

    /// What is pending at first: one alternative.
    pub fn at_first(book: &Book) -> Self {
        let mut first = Set::EMPTY;
        first.take(&[pending::at_first(book)]);
        first
    }

    pub fn alternatives(&self) -> &[Pending] {
        &self.alternatives[..self.count]
    }

    /// Takes these in place of what it has.
    fn take(&mut self, alternatives: &[Pending]) {
        self.count = alternatives.len();
        self.alternatives[..self.count].copy_from_slice(alternatives);
    }
}

impl PartialEq for Set {
    fn eq(&self, other: &Self) -> bool {
        self.alternatives() == other.alternatives()
    }
}

impl Eq for Set {}

impl Hash for Set {
    fn hash<H: Hasher>(&self, state: &mut H) {
        self.alternatives().hash(state);
    }
}

/// What a book says about sets, found once for each call.
pub struct Rules<'a> {
    pub book: &'a Book,
    /// A bit for each `|` with two timed sides.
    either: u64,
    /// A bit for each node that may give more than one alternative.
    many: u64,
}

impl<'a> Rules<'a> {
    pub fn of(book: &'a Book, either: u64) -> Self {
        Rules {
            book,
            either,
            many: book.many(either),
        }
    }

    fn has_two_timed_sides(&self, node: u8) -> bool {
        self.either >> node & 1 == 1
    }

    fn may_give_many(&self, node: u8) -> bool {
        self.many >> node & 1 == 1
    }
}

/// The room of progression, kept from call to call.
pub struct Progression {
    /// Sets, one behind the other: what is joined, and behind it what is being combined.
    sets: Vec<Pending>,
}

impl Progression {
    pub fn new() -> Self {
        Progression {
            sets: Vec::with_capacity(1_024),
        }
    }

    /// What is pending after leaving a state with these marks by a step of this length, in `after`: no
    /// alternative where the step breaks a rule.
    pub fn after(
        &mut self,
        rules: &Rules,
        old: &Set,
        marks: u16,
        length: u8,
        after: &mut Set,
    ) -> Result<(), OverFull> {
        self.sets.clear();
        let mut step = Step {
            rules,
            one: pending::Step {
                book: rules.book,
                marks,
                length,
                next: NOTHING,
            },
            sets: &mut self.sets,
        };
        for old in old.alternatives() {
            let middle = step.sets.len();
            step.after_one(old)?;
            step.join(0, middle)?;
        }
        self.sets.sort_unstable();
        after.take(&self.sets);
        Ok(())
    }
}

struct Step<'a> {
    rules: &'a Rules<'a>,
    /// The step for one alternative, as under other books.
    one: pending::Step<'a>,
    sets: &'a mut Vec<Pending>,
}

impl Step<'_> {
    /// Writes what an old alternative gives behind the sets: from nothing pending on, its nodes are
    /// combined by their numbers, and then the lines. Each is looked at, also where another has broken.
    fn after_one(&mut self, old: &Pending) -> Result<(), OverFull> {
        let book = self.rules.book;
        let base = self.sets.len();
        self.sets.push(NOTHING);
        for (node, &cell) in old[..book.node_count].iter().enumerate() {
            if cell != 0 {
                self.combine(base, node as u8, cell - 1)?;
            }
        }
        for &line in book.always.numbers() {
            self.combine_new(base, line)?;
        }
        Ok(())
    }

    /// Combines the set from `base` on with what a node with `left` ticks left gives.
    fn combine(&mut self, base: usize, node: u8, left: u8) -> Result<(), OverFull> {
        let middle = self.sets.len();
        if self.rules.may_give_many(node) {
            self.progress(node, left)?;
            return self.combine_sets(base, middle);
        }
        // It gives one alternative at the most, and that goes into each that stands there.
        let mut changed = false;
        for at in base..middle {
            self.one.next = self.sets[at];
            if !self.one.progress(node, left) {
                self.sets.truncate(base);
                return Ok(());
            }
            changed |= self.one.next != self.sets[at];
            self.sets[at] = self.one.next;
        }
        if changed && middle - base > 1 {
            for at in base..middle {
                self.take(middle, self.sets[at]);
            }
            self.sets.drain(base..middle);
        }
        Ok(())
    }

    fn combine_new(&mut self, base: usize, node: u8) -> Result<(), OverFull> {
        self.combine(base, node, self.rules.book.bound(node))
    }

    /// Writes what a node with `left` ticks left gives behind the sets: none where it breaks.
    fn progress(&mut self, node: u8, left: u8) -> Result<(), OverFull> {
        let rules = self.rules;
        let base = self.sets.len();
        if !rules.may_give_many(node) {
            self.sets.push(NOTHING);
            return self.combine(base, node, left);
        }
        match *rules.book.node(node) {
            Node::And(first, second) => {
                self.progress_new(first)?;
                self.combine_new(base, second)
            }
            Node::Or(first, second) if rules.has_two_timed_sides(node) => {
                self.progress_new(first)?;
                let middle = self.sets.len();
                self.progress_new(second)?;
                self.join(base, middle)
            }
            Node::Or(untimed, other) => {
                if self.one.holds(untimed) {
                    self.sets.push(NOTHING);
                    return Ok(());
                }
                self.progress_new(other)
            }
            Node::Always { part, .. } => {
                self.progress_new(part)?;
                if self.one.length <= left {
                    self.add(base, node, left - self.one.length);
                }
                Ok(())
            }
            Node::Until { first, second, .. } => {
                if self.one.holds(second) {
                    self.sets.push(NOTHING);
                } else if self.one.length <= left {
                    self.progress_new(first)?;
                    self.add(base, node, left - self.one.length);
                }
                Ok(())
            }
            _ => unreachable!("a node that gives one alternative at the most"),
        }
    }

    fn progress_new(&mut self, node: u8) -> Result<(), OverFull> {
        self.progress(node, self.rules.book.bound(node))
    }

    /// Makes a node pending in each alternative from `base` on. Its parts have lower numbers, so none
    /// of them has it.
    fn add(&mut self, base: usize, node: u8, left: u8) {
        for one in &mut self.sets[base..] {
            pending::add(self.rules.book, one, node, left);
        }
    }

    /// Combines the set from `base` to `middle` with the one behind it, in their place: each
    /// alternative of one with each of the other.
    fn combine_sets(&mut self, base: usize, middle: usize) -> Result<(), OverFull> {
        if self.sets[middle..] == [NOTHING] {
            self.sets.truncate(middle);
            return Ok(());
        }
        let end = self.sets.len();
        for one in base..middle {
            for other in middle..end {
                let both = self.both(&self.sets[one], &self.sets[other]);
                self.take(end, both);
            }
        }
        self.sets.drain(base..end);
        self.count(base)
    }

    /// Joins the set from `base` to `middle` with the one behind it, in their place.
    fn join(&mut self, base: usize, middle: usize) -> Result<(), OverFull> {
        for at in base..middle {
            self.take(middle, self.sets[at]);
        }
        self.sets.drain(base..middle);
        self.count(base)
    }

    /// Takes an alternative into the set that begins at `from`, unless one is there that asks no more,
    /// and drops those that ask no less.
    fn take(&mut self, from: usize, new: Pending) {
        let mut at = from;
        while let Some(known) = self.sets.get(at) {
            if self.asks_no_more(known, &new) {
                return;
            }
            if self.asks_no_more(&new, known) {
                self.sets.swap_remove(at);
            } else {
                at += 1;
            }
        }
        self.sets.push(new);
    }

    /// Counts the set that begins at `from`.
    fn count(&self, from: usize) -> Result<(), OverFull> {
        if self.sets.len() - from > MOST {
            return Err(OverFull);
        }
        Ok(())
    }

    /// What is pending in either.
    fn both(&self, one: &Pending, other: &Pending) -> Pending {
        let mut both = *one;
        for (node, &cell) in other.iter().enumerate() {
            if cell != 0 {
                pending::add(self.rules.book, &mut both, node as u8, cell - 1);
            }
        }
        both
    }

    /// Whether `one` asks no more than `other` at any node: nothing asks least, then the smaller number,
    /// but with U the larger.
    fn asks_no_more(&self, one: &Pending, other: &Pending) -> bool {
        let cells = one.iter().zip(other).enumerate();
        let mut asked = cells.map(|(node, (&one, &other))| match (one, other) {
            (0, _) => true,
            (_, 0) => false,
            _ => match self.rules.book.node(node as u8) {
                Node::Until { .. } => one >= other,
                _ => one <= other,
            },
        });
        asked.all(|no_more| no_more)
    }
}
