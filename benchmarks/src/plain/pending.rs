//! What is pending, and its progression along one step.

use super::book::{Book, Node};
use super::{MOST_ACTIONS, MOST_NODES};

/// For each node 0 for nothing, or one more than the ticks left.
pub type Pending = [u8; MOST_NODES];

/// What is pending at first: the `start` formulas.
pub fn at_first(book: &Book) -> Pending {
    let mut pending = [0; MOST_NODES];
    for &node in book.start.numbers() {
        add(book, &mut pending, node, book.bound(node));
    }
    pending
}

/// What is pending after the steps out of one pair, by their lengths. It depends on the pair and the
/// length of the step, not on the action, so progression is asked once for each length.
pub struct Onward {
    count: usize,
    lengths: [u8; MOST_ACTIONS],
    after: [Option<Pending>; MOST_ACTIONS],
}

impl Onward {
    pub fn new() -> Self {
        Onward {
            count: 0,
            lengths: [0; MOST_ACTIONS],
            after: [None; MOST_ACTIONS],
        }
    }

    /// Begins with another pair.
    pub fn clear(&mut self) {
        self.count = 0;
    }

    /// What is pending after a step of this length out of the pair, whose marks these are.
    pub fn after(
        &mut self,
        book: &Book,
        pending: &Pending,
        marks: u16,
        length: u8,
    ) -> &Option<Pending> {
        let mut known = self.lengths[..self.count].iter();
        let place = known.position(|known| *known == length);
        let place = place.unwrap_or_else(|| {
            let place = self.count;
            self.lengths[place] = length;
            self.after[place] = after(book, pending, marks, length);
            self.count += 1;
            place
        });
        &self.after[place]
    }
}

/// What is pending after leaving a state with these marks by a step of this length, or nothing where
/// the step breaks a rule.
fn after(book: &Book, pending: &Pending, marks: u16, length: u8) -> Option<Pending> {
    let mut step = Step {
        book,
        marks,
        length,
        next: [0; MOST_NODES],
    };
    for (node, &cell) in pending[..book.node_count].iter().enumerate() {
        if cell != 0 && !step.progress(node as u8, cell - 1) {
            return None;
        }
    }
    for &node in book.always.numbers() {
        if !step.progress_new(node) {
            return None;
        }
    }
    Some(step.next)
}

/// Makes a node pending. Where it is so already, A keeps the larger number and U the smaller.
pub fn add(book: &Book, pending: &mut Pending, node: u8, left: u8) {
    let cell = &mut pending[usize::from(node)];
    let new = left + 1;
    *cell = match (*cell, book.node(node)) {
        (0, _) => new,
        (other, Node::Always { .. }) => new.max(other),
        (other, Node::Until { .. }) => new.min(other),
        _ => new,
    };
}

pub struct Step<'a> {
    pub book: &'a Book,
    pub marks: u16,
    pub length: u8,
    pub next: Pending,
}

impl Step<'_> {
    /// Progresses a node with `left` ticks left; false where it breaks.
    pub fn progress(&mut self, node: u8, left: u8) -> bool {
        match *self.book.node(node) {
            Node::Constant(_) | Node::Mark { .. } => self.holds(node),
            Node::And(first, second) => self.progress_new(first) && self.progress_new(second),
            Node::Or(untimed, other) => self.holds(untimed) || self.progress_new(other),
            Node::Next {
                comparison,
                bound,
                part,
            } => {
                if !comparison.holds(self.length, bound) {
                    return false;
                }
                add(self.book, &mut self.next, part, self.book.bound(part));
                true
            }
            Node::Always { part, .. } => {
                if self.length <= left {
                    add(self.book, &mut self.next, node, left - self.length);
                }
                self.progress_new(part)
            }
            Node::Until { first, second, .. } => {
                if self.holds(second) {
                    return true;
                }
                if self.length > left {
                    return false;
                }
                add(self.book, &mut self.next, node, left - self.length);
                self.progress_new(first)
            }
        }
    }

    fn progress_new(&mut self, node: u8) -> bool {
        self.progress(node, self.book.bound(node))
    }

    /// Whether an untimed formula holds at the state that is left.
    pub fn holds(&self, node: u8) -> bool {
        match *self.book.node(node) {
            Node::Constant(value) => value,
            Node::Mark { index, negated } => (self.marks >> index & 1 == 1) != negated,
            Node::And(first, second) => self.holds(first) && self.holds(second),
            Node::Or(first, second) => self.holds(first) || self.holds(second),
            _ => unreachable!("a timed formula where the book has none"),
        }
    }
}
