//! Section 'What is pending': one alternative, and what holds at a state.

use crate::book::{Book, Node};

/// For each node nothing, or a number of ticks left.
pub type Pending = Vec<Option<u16>>;

/// What is pending at first: the `start` formulas.
pub fn at_first(book: &Book) -> Pending {
    let mut pending = vec![None; book.nodes.len()];
    for line in book.lines.iter().filter(|line| !line.always) {
        add(book, &mut pending, line.root, bound(book, line.root));
    }
    pending
}

/// The number that a new node starts with.
pub fn bound(book: &Book, node: usize) -> u16 {
    match book.nodes[node] {
        Node::Next { bound, .. } | Node::Always { bound, .. } | Node::Until { bound, .. } => bound,
        _ => 0,
    }
}

/// Makes a node pending. Where it is so already, A keeps the larger number and U the smaller.
pub fn add(book: &Book, pending: &mut Pending, node: usize, left: u16) {
    let merged = match (pending[node], book.nodes[node]) {
        (Some(other), Node::Always { .. }) => left.max(other),
        (Some(other), Node::Until { .. }) => left.min(other),
        _ => left,
    };
    pending[node] = Some(merged);
}

/// Whether an untimed formula holds at a state with these marks.
pub fn holds(book: &Book, marks: u16, node: usize) -> bool {
    match book.nodes[node] {
        Node::Constant(value) => value,
        Node::Mark { index, negated } => (marks >> index & 1 == 1) != negated,
        Node::And(left, right) => holds(book, marks, left) && holds(book, marks, right),
        Node::Or(left, right) => holds(book, marks, left) || holds(book, marks, right),
        _ => unreachable!("a timed formula where the book has none"),
    }
}
