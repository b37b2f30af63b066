//! Section 'Runs and broken rules': runs judged from the definition, without progression.

use crate::book::{Book, Line, Node};
use crate::tower::Tower;

/// A run: its actions, and what holds at its positions 0 to n.
pub struct Run {
    /// The length of each step.
    lengths: Vec<u16>,
    /// The marks of the state at each position.
    marks: Vec<u16>,
    /// T(i): the sum of the lengths of the first i steps.
    times: Vec<u64>,
}

/// A rule that a run does not keep.
#[derive(Clone, Copy, Debug, PartialEq, Eq)]
pub struct BrokenRule {
    /// The line of the book.
    pub line: usize,
    /// The lowest position where its formula is not kept.
    pub position: usize,
}

impl Run {
    /// The run of these actions from the tower's start state, where each is enabled.
    pub fn new(tower: &Tower, actions: &[usize]) -> Option<Run> {
        let mut state = tower.start;
        let mut run = Run {
            lengths: Vec::new(),
            marks: vec![tower.states[state].marks],
            times: vec![0],
        };
        let mut time = 0;
        for &action in actions {
            let length = tower.step_length(state, action);
            state = tower.target(state, action)?;
            time += u64::from(length);
            run.lengths.push(length);
            run.marks.push(tower.states[state].marks);
            run.times.push(time);
        }
        Some(run)
    }

    /// Whether some rule of the book is not kept.
    pub fn is_broken(&self, book: &Book) -> bool {
        self.broken_rule(book).is_some()
    }

    /// The lowest line that is not kept, where there is one, and the lowest position where its formula is
    /// not: for a `start` line 0.
    pub fn broken_rule(&self, book: &Book) -> Option<BrokenRule> {
        let kept = self.kept(book);
        let broken = |(number, line): (usize, &Line)| {
            let last = if line.always { self.lengths.len() } else { 0 };
            let position = (0..=last).find(|i| !kept[line.root][*i])?;
            Some(BrokenRule {
                line: number,
                position,
            })
        };
        book.lines.iter().enumerate().find_map(broken)
    }

    /// Whether each node is kept at each position from 0 to n.
    fn kept(&self, book: &Book) -> Vec<Vec<bool>> {
        let n = self.lengths.len();
        let mut kept = Vec::<Vec<bool>>::new();
        for node in &book.nodes {
            let at = (0..=n).map(|i| i == n || self.kept_at(node, i, &kept));
            let at = at.collect();
            kept.push(at);
        }
        kept
    }

    /// Whether a node is kept at the judged position `i`, where `kept` has the nodes below it.
    fn kept_at(&self, node: &Node, i: usize, kept: &[Vec<bool>]) -> bool {
        let n = self.lengths.len();
        let in_time = |j: usize, bound: u16| self.times[j] <= self.times[i] + u64::from(bound);
        match *node {
            Node::Constant(value) => value,
            Node::Mark { index, negated } => (self.marks[i] >> index & 1 == 1) != negated,
            Node::And(left, right) => kept[left][i] && kept[right][i],
            Node::Or(left, right) => kept[left][i] || kept[right][i],
            Node::Next {
                comparison,
                bound,
                part,
            } => comparison.holds(self.lengths[i], bound) && kept[part][i + 1],
            Node::Always { bound, part } => (i..n).all(|j| !in_time(j, bound) || kept[part][j]),
            Node::Until {
                bound,
                first,
                second,
            } => {
                let first_kept = |until: usize| (i..until).all(|j| kept[first][j]);
                (i..n).any(|j| kept[second][j] && in_time(j, bound) && first_kept(j))
                    || (first_kept(n) && in_time(n, bound))
            }
        }
    }
}
