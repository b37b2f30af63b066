//! What is pending under a book in which both sides of `|` are timed somewhere: a set of alternatives,
//! and its progression along one step.

use crate::plain::book::{Book, Node};
use crate::plain::MOST_NODES;
use std::cmp::Ordering;
use std::ops::Range;

/// The most alternatives after a combination and its dropping.
const MOST: usize = 16;

/// Bytes of an alternative: one for each node, and some more for whole words.
const BYTES: usize = 64;

/// A combination leaves over 16 alternatives.
pub struct OverFull;

/// For each node 0 for nothing, or a number that is the larger the more is asked: for A one more than
/// the ticks left, for U 255 less them, for any other node 1. So two alternatives ask together the
/// larger number at each node, and one asks no more than another where no number of it is larger.
#[derive(Clone, Copy, PartialEq, Eq)]
#[repr(align(64))]
pub struct Alternative([u8; BYTES]);

impl Alternative {
    const NOTHING: Alternative = Alternative([0; BYTES]);

    fn add(&mut self, node: u8, number: u8) {
        let cell = &mut self.0[usize::from(node)];
        *cell = number.max(*cell);
    }

    /// What both ask.
    fn with(&self, other: &Alternative) -> Alternative {
        let mut both = *self;
        for (cell, number) in both.0.iter_mut().zip(&other.0) {
            *cell = (*cell).max(*number);
        }
        both
    }

    /// `Less` or `Equal` where it asks no more than the other at any node, `Greater` where it asks no
    /// less, nothing where it does neither.
    fn asks(&self, other: &Alternative) -> Option<Ordering> {
        let (mut more, mut less) = (0, 0);
        for (cell, number) in self.0.iter().zip(&other.0) {
            more |= cell.saturating_sub(*number);
            less |= number.saturating_sub(*cell);
        }
        match (more, less) {
            (0, 0) => Some(Ordering::Equal),
            (0, _) => Some(Ordering::Less),
            (_, 0) => Some(Ordering::Greater),
            _ => None,
        }
    }

    /// Words of eight nodes each, the lowest node in the lowest byte.
    pub fn words(&self) -> impl Iterator<Item = u64> + '_ {
        let words = self.0.chunks_exact(8);
        words.map(|word| u64::from_le_bytes(word.try_into().expect("eight bytes")))
    }
}

/// What a book says about sets, found once for each call.
pub struct Rules<'a> {
    book: &'a Book,
    /// A bit for each `|` with two timed sides.
    either: u64,
    /// A bit for each node that may give more than one alternative.
    many: u64,
    /// A bit for each U.
    untils: u64,
}

impl<'a> Rules<'a> {
    #[inline(never)]
    pub fn of(book: &'a Book, either: u64) -> Self {
        let mut untils = 0;
        for node in 0..book.node_count as u8 {
            if let Node::Until { .. } = book.node(node) {
                untils |= 1 << node;
            }
        }
        Rules {
            book,
            either,
            many: book.many(either),
            untils,
        }
    }

    /// What is pending at first: one alternative, with the `start` formulas as they stand.
    pub fn at_first(&self) -> Alternative {
        let mut first = Alternative::NOTHING;
        for &node in self.book.start.numbers() {
            first.add(node, self.number(node, self.book.bound(node)));
        }
        first
    }

    fn may_give_many(&self, node: u8) -> bool {
        self.many >> node & 1 == 1
    }

    /// The number of a node with so many ticks left.
    fn number(&self, node: u8, left: u8) -> u8 {
        match self.book.node(node) {
            Node::Always { .. } => left + 1,
            Node::Until { .. } => 255 - left,
            _ => 1,
        }
    }

    /// The ticks left of a node with this number.
    fn left(&self, node: u8, number: u8) -> u8 {
        match self.book.node(node) {
            Node::Until { .. } => 255 - number,
            _ => number - 1,
        }
    }

    /// The order of sets: by the ticks left from the lowest node up, nothing before a number.
    fn order(&self, one: &Alternative, other: &Alternative) -> Ordering {
        let mut words = one.words().zip(other.words()).enumerate();
        let Some((at, (one, other))) = words.find(|(_, (one, other))| one != other) else {
            return Ordering::Equal;
        };
        let byte = (one ^ other).trailing_zeros() / 8;
        let [one, other] = [one, other].map(|word| (word >> (8 * byte)) as u8);
        let until = self.untils >> (8 * at as u32 + byte) & 1 == 1;
        if until && one != 0 && other != 0 {
            other.cmp(&one)
        } else {
            one.cmp(&other)
        }
    }
}

/// Takes an alternative into the set that begins at `from`, unless one is there that asks no more, and
/// drops those that ask no less.
fn take(sets: &mut Vec<Alternative>, from: usize, new: Alternative) {
    let mut at = from;
    while let Some(known) = sets.get(at) {
        match known.asks(&new) {
            Some(Ordering::Less | Ordering::Equal) => return,
            Some(Ordering::Greater) => {
                sets.swap_remove(at);
            }
            None => at += 1,
        }
    }
    sets.push(new);
}

/// Counts the set that begins at `from`.
fn count(sets: &[Alternative], from: usize) -> Result<(), OverFull> {
    if sets.len() - from > MOST {
        return Err(OverFull);
    }
    Ok(())
}

/// An `always` line that may give more than one alternative.
struct Choice {
    /// What the other lines before it ask, or nothing where one of them breaks.
    before: Option<Alternative>,
    /// Where its alternatives end.
    end: usize,
}

/// The room of progression, kept from call to call.
pub struct Progression {
    /// Sets, one behind the other: those of the lines, and behind them what is being combined.
    sets: Vec<Alternative>,
    choices: Vec<Choice>,
}

impl Progression {
    pub fn new() -> Self {
        Progression {
            sets: Vec::with_capacity(1_024),
            choices: Vec::with_capacity(MOST_NODES),
        }
    }

    /// Writes what is pending after leaving a state with these marks by a step of this length behind
    /// `after`, in the order of sets: nothing where the step breaks a rule.
    pub fn after(
        &mut self,
        rules: &Rules,
        old: &[Alternative],
        marks: u16,
        length: u8,
        after: &mut Vec<Alternative>,
    ) -> Result<(), OverFull> {
        self.sets.clear();
        self.choices.clear();
        let sets = &mut self.sets;
        let mut step = Step {
            rules,
            marks,
            length,
            sets,
        };
        // The lines give the same beside each old alternative.
        let mut lines = Some(Alternative::NOTHING);
        for &line in rules.book.always.numbers() {
            if rules.may_give_many(line) {
                step.progress_many(line, rules.book.bound(line))?;
                self.choices.push(Choice {
                    before: lines,
                    end: step.sets.len(),
                });
            } else if let Some(asked) = &mut lines {
                if !step.progress_new(asked, line) {
                    lines = None;
                }
            }
        }
        let from = after.len();
        for one in old {
            step.join(one, &self.choices, &lines, from, after)?;
        }
        after[from..].sort_unstable_by(|one, other| rules.order(one, other));
        Ok(())
    }
}

struct Step<'a> {
    rules: &'a Rules<'a>,
    marks: u16,
    length: u8,
    sets: &'a mut Vec<Alternative>,
}

impl Step<'_> {
    /// Joins what an old alternative gives to the set that begins at `from`. Its nodes are combined by
    /// their numbers, and then the lines. What gives one alternative at the most makes no set larger:
    /// it waits in `asked` until a set is combined that may have more.
    fn join(
        &mut self,
        old: &Alternative,
        choices: &[Choice],
        lines: &Option<Alternative>,
        from: usize,
        joined: &mut Vec<Alternative>,
    ) -> Result<(), OverFull> {
        let base = self.sets.len();
        let mut asked = Alternative::NOTHING;
        self.sets.push(Alternative::NOTHING);
        for (at, mut word) in old.words().enumerate() {
            while word != 0 {
                let byte = word.trailing_zeros() / 8;
                let node = (8 * at as u32 + byte) as u8;
                let left = self.rules.left(node, (word >> (8 * byte)) as u8);
                word &= !(0xff << (8 * byte));
                if self.rules.may_give_many(node) {
                    let middle = self.sets.len();
                    self.progress_many(node, left)?;
                    self.both(base, middle, middle..self.sets.len(), &asked)?;
                } else if self.sets.len() > base && !self.progress(&mut asked, node, left) {
                    self.sets.truncate(base);
                }
            }
        }
        let mut begin = 0;
        for choice in choices {
            let Some(before) = &choice.before else {
                break;
            };
            let middle = self.sets.len();
            self.both(base, middle, begin..choice.end, &asked.with(before))?;
            begin = choice.end;
        }
        if let Some(lines) = lines {
            let asked = asked.with(lines);
            for one in &self.sets[base..] {
                take(joined, from, one.with(&asked));
            }
        }
        self.sets.truncate(base);
        count(joined, from)
    }

    /// Combines the set from `base` to `middle` with others and with what is asked beside them, in the
    /// place of all that stands from `base` on.
    fn both(
        &mut self,
        base: usize,
        middle: usize,
        others: Range<usize>,
        asked: &Alternative,
    ) -> Result<(), OverFull> {
        let end = self.sets.len();
        for one in base..middle {
            let one = self.sets[one].with(asked);
            for other in others.clone() {
                let new = one.with(&self.sets[other]);
                take(self.sets, end, new);
            }
        }
        self.sets.drain(base..end);
        count(self.sets, base)
    }

    /// Progresses a node with `left` ticks left, and writes its alternatives behind the sets: none
    /// where it breaks.
    fn progress_many(&mut self, node: u8, left: u8) -> Result<(), OverFull> {
        let base = self.sets.len();
        if !self.rules.may_give_many(node) {
            let mut next = Alternative::NOTHING;
            if self.progress(&mut next, node, left) {
                self.sets.push(next);
            }
            return Ok(());
        }
        match *self.rules.book.node(node) {
            Node::And(first, second) => {
                self.progress_new_many(first)?;
                let middle = self.sets.len();
                self.progress_new_many(second)?;
                let end = self.sets.len();
                self.both(base, middle, middle..end, &Alternative::NOTHING)
            }
            Node::Or(first, second) if self.rules.either >> node & 1 == 1 => {
                self.progress_new_many(first)?;
                let middle = self.sets.len();
                self.progress_new_many(second)?;
                for one in base..middle {
                    let one = self.sets[one];
                    take(self.sets, middle, one);
                }
                self.sets.drain(base..middle);
                count(self.sets, base)
            }
            Node::Or(untimed, other) => {
                if self.holds(untimed) {
                    self.sets.push(Alternative::NOTHING);
                    return Ok(());
                }
                self.progress_new_many(other)
            }
            Node::Always { part, .. } => {
                self.progress_new_many(part)?;
                if self.length <= left {
                    self.add(base, node, left - self.length);
                }
                Ok(())
            }
            Node::Until { first, second, .. } => {
                if self.holds(second) {
                    self.sets.push(Alternative::NOTHING);
                } else if self.length <= left {
                    self.progress_new_many(first)?;
                    self.add(base, node, left - self.length);
                }
                Ok(())
            }
            _ => unreachable!("a node that gives one alternative at the most"),
        }
    }

    fn progress_new_many(&mut self, node: u8) -> Result<(), OverFull> {
        self.progress_many(node, self.rules.book.bound(node))
    }

    /// Makes a node pending in each alternative from `base` on. Its parts have lower numbers, so none
    /// of them has it.
    fn add(&mut self, base: usize, node: u8, left: u8) {
        let number = self.rules.number(node, left);
        for one in &mut self.sets[base..] {
            one.add(node, number);
        }
    }

    /// Progresses a node that gives one alternative at the most; false where it breaks.
    fn progress(&self, next: &mut Alternative, node: u8, left: u8) -> bool {
        let rules = self.rules;
        match *rules.book.node(node) {
            Node::Constant(_) | Node::Mark { .. } => self.holds(node),
            Node::And(first, second) => {
                self.progress_new(next, first) && self.progress_new(next, second)
            }
            Node::Or(untimed, other) => self.holds(untimed) || self.progress_new(next, other),
            Node::Next {
                comparison,
                bound,
                part,
            } => {
                if !comparison.holds(self.length, bound) {
                    return false;
                }
                next.add(part, rules.number(part, rules.book.bound(part)));
                true
            }
            Node::Always { part, .. } => {
                if self.length <= left {
                    next.add(node, rules.number(node, left - self.length));
                }
                self.progress_new(next, part)
            }
            Node::Until { first, second, .. } => {
                if self.holds(second) {
                    return true;
                }
                if self.length > left {
                    return false;
                }
                next.add(node, rules.number(node, left - self.length));
                self.progress_new(next, first)
            }
        }
    }

    fn progress_new(&self, next: &mut Alternative, node: u8) -> bool {
        self.progress(next, node, self.rules.book.bound(node))
    }

    /// Whether an untimed formula holds at the state that is left.
    fn holds(&self, node: u8) -> bool {
        match *self.rules.book.node(node) {
            Node::Constant(value) => value,
            Node::Mark { index, negated } => (self.marks >> index & 1 == 1) != negated,
            Node::And(first, second) => self.holds(first) && self.holds(second),
            Node::Or(first, second) => self.holds(first) || self.holds(second),
            _ => unreachable!("a timed formula where the book has none"),
        }
    }
}
