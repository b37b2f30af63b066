//! Item 3 of the change requests: what is pending is a set of alternatives. Their progression along one
//! step.

use crate::book::{Book, Node};
use crate::pending::{self, Pending};
use std::collections::BTreeSet;

/// The most alternatives after a combination and its dropping.
pub const MOST: usize = 16;

/// What is pending: one of these. A set is in the paper's order, which is that of `Vec` and `Option`:
/// compared by their numbers from the lowest node up, nothing before a number.
pub type Alternatives = BTreeSet<Pending>;

/// Some combination leaves over 16 alternatives.
#[derive(Clone, Copy, Debug, PartialEq, Eq)]
pub struct OverFull;

/// What is pending at first: one alternative, with every `start` formula as it stands.
pub fn at_first(book: &Book) -> Alternatives {
    Alternatives::from([pending::at_first(book)])
}

/// What is pending after leaving a state with these marks by a step of this length. No alternative is
/// left where the step breaks a rule.
pub fn after(
    book: &Book,
    old: &Alternatives,
    marks: u16,
    length: u16,
) -> Result<Alternatives, OverFull> {
    let step = Step {
        book,
        marks,
        length,
    };
    let mut joined = Alternatives::new();
    for alternative in old {
        joined = step.either(&joined, &step.after_one(alternative)?)?;
    }
    Ok(joined)
}

struct Step<'a> {
    book: &'a Book,
    marks: u16,
    length: u16,
}

impl Step<'_> {
    /// What one old alternative gives: a chain of combinations that begins with nothing pending, over
    /// its nodes by number and then over the `always` lines. Each is looked at, also where another has
    /// broken.
    fn after_one(&self, old: &Pending) -> Result<Alternatives, OverFull> {
        let mut so_far = self.nothing();
        for (node, left) in old.iter().enumerate() {
            if let Some(left) = *left {
                so_far = self.both(&so_far, &self.progress(node, left)?)?;
            }
        }
        for line in self.book.lines.iter().filter(|line| line.always) {
            so_far = self.both(&so_far, &self.progress_new(line.root)?)?;
        }
        Ok(so_far)
    }

    /// What a node with `left` ticks left gives: none where it breaks. Operands come before their
    /// parent.
    fn progress(&self, node: usize, left: u16) -> Result<Alternatives, OverFull> {
        match self.book.nodes[node] {
            Node::Constant(_) | Node::Mark { .. } => Ok(self.nothing_if(self.holds(node))),
            Node::And(first, second) => {
                self.both(&self.progress_new(first)?, &self.progress_new(second)?)
            }
            Node::Or(first, second) => {
                let (untimed, other) = match (self.book.timed[first], self.book.timed[second]) {
                    (true, true) => {
                        return self
                            .either(&self.progress_new(first)?, &self.progress_new(second)?);
                    }
                    (true, false) => (second, first),
                    (false, _) => (first, second),
                };
                if self.holds(untimed) {
                    return Ok(self.nothing());
                }
                self.progress_new(other)
            }
            Node::Next {
                comparison,
                bound,
                part,
            } => {
                if !comparison.holds(self.length, bound) {
                    return Ok(Alternatives::new());
                }
                Ok(self.one(part, pending::bound(self.book, part)))
            }
            Node::Always { part, .. } => {
                let part = self.progress_new(part)?;
                if self.length > left {
                    return Ok(part);
                }
                self.both(&part, &self.one(node, left - self.length))
            }
            Node::Until { first, second, .. } => {
                if self.holds(second) {
                    return Ok(self.nothing());
                }
                if self.length > left {
                    return Ok(Alternatives::new());
                }
                let first = self.progress_new(first)?;
                self.both(&first, &self.one(node, left - self.length))
            }
        }
    }

    fn progress_new(&self, node: usize) -> Result<Alternatives, OverFull> {
        self.progress(node, pending::bound(self.book, node))
    }

    /// Whether an untimed formula holds at the state that is left.
    fn holds(&self, node: usize) -> bool {
        pending::holds(self.book, self.marks, node)
    }

    /// One alternative, with nothing pending.
    fn nothing(&self) -> Alternatives {
        Alternatives::from([vec![None; self.book.nodes.len()]])
    }

    /// Nothing pending, or no alternative.
    fn nothing_if(&self, kept: bool) -> Alternatives {
        if kept {
            self.nothing()
        } else {
            Alternatives::new()
        }
    }

    /// One alternative, with this node alone.
    fn one(&self, node: usize, left: u16) -> Alternatives {
        let mut pending = vec![None; self.book.nodes.len()];
        pending[node] = Some(left);
        Alternatives::from([pending])
    }

    /// Combines two sets of which both are asked: each alternative of one with each of the other.
    fn both(&self, one: &Alternatives, other: &Alternatives) -> Result<Alternatives, OverFull> {
        let with_each = |one| other.iter().map(move |other| self.merged(one, other));
        self.dropped(one.iter().flat_map(with_each).collect())
    }

    /// Joins two sets of which either is asked.
    fn either(&self, one: &Alternatives, other: &Alternatives) -> Result<Alternatives, OverFull> {
        self.dropped(one | other)
    }

    /// What is pending in either. Where a node comes up twice, A keeps the larger number, U the smaller.
    fn merged(&self, one: &Pending, other: &Pending) -> Pending {
        let mut merged = one.clone();
        for (node, left) in other.iter().enumerate() {
            if let Some(left) = *left {
                pending::add(self.book, &mut merged, node, left);
            }
        }
        merged
    }

    /// Drops each alternative for which there is another that asks no more at any node, and counts the
    /// others.
    fn dropped(&self, all: Alternatives) -> Result<Alternatives, OverFull> {
        if all.len() < 2 {
            return Ok(all);
        }
        let idle = |one: &Pending| {
            let mut others = all.iter().filter(|other| *other != one);
            others.any(|other| self.asks_no_more(other, one))
        };
        let kept: Alternatives = all.iter().filter(|one| !idle(one)).cloned().collect();
        if kept.len() > MOST {
            return Err(OverFull);
        }
        Ok(kept)
    }

    /// Whether `one` asks no more than `other` at any node: the larger A and the smaller U number ask
    /// more, and nothing asks least.
    fn asks_no_more(&self, one: &Pending, other: &Pending) -> bool {
        let at_node = |node: usize| match (one[node], other[node]) {
            (None, _) => true,
            (Some(_), None) => false,
            (Some(one), Some(other)) => match self.book.nodes[node] {
                Node::Always { .. } => one <= other,
                Node::Until { .. } => one >= other,
                _ => one == other,
            },
        };
        (0..one.len()).all(at_node)
    }
}
