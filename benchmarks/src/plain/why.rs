//! Judges a table, and shows why an allowed run is broken: the run, the line and the position.

use super::book::{Book, Node};
use super::check::judge_rows;
use super::hash::Fast;
use super::pairs::Pairs;
use super::pending::{self, Onward, Pending};
use super::search::{Number, Search, Tried};
use super::table::Table;
use super::tower::Tower;
use super::{Refusal, MOST_NODES, MOST_PAIRS};
use std::collections::HashSet;

/// A row with what is pending there.
#[derive(Clone, Copy, PartialEq, Eq, Hash)]
struct Item {
    row: u16,
    pending: Pending,
}

/// A step out of a row with what is pending there: the one by which another was first met, or one that is
/// broken.
#[derive(Clone, Copy)]
struct Step {
    from: Number,
    action: u8,
}

/// What is shown of a table that allows a broken run.
#[derive(Clone, Copy, Debug, PartialEq, Eq)]
pub struct Shown {
    pub length: usize,
    pub line: usize,
    pub position: usize,
}

/// The room of a search and of a judgement, kept from call to call.
pub struct Explainer {
    known: HashSet<Item, Fast>,
    met: Vec<Item>,
    onward: Onward,
    /// The rows with what is pending under a book with two timed sides of `|`.
    with_sets: Pairs,
    /// How each but the first was met.
    came: Vec<Step>,
    run: Run,
}

impl Explainer {
    pub fn new() -> Self {
        Explainer {
            known: HashSet::with_capacity_and_hasher(MOST_PAIRS + 1, Fast::default()),
            met: Vec::with_capacity(MOST_PAIRS + 1),
            onward: Onward::new(),
            with_sets: Pairs::new(),
            came: Vec::with_capacity(MOST_PAIRS),
            run: Run::new(),
        }
    }

    /// How many rows with what is pending the last call has met.
    pub fn met(&self) -> usize {
        1 + self.came.len()
    }

    /// Nothing where the table is good for the tower and the book; and where it is not since an allowed run
    /// is broken, the first such run among the shortest, at the front of the list.
    pub fn why(
        &mut self,
        tower: &[u8],
        book: &[u8],
        table: &[u8],
        list: &mut [u8],
    ) -> Result<Option<Shown>, Refusal> {
        let tower = Tower::read(tower)?;
        let book = Book::read(tower.marks, book)?;
        let table = Table::read(table)?;
        judge_rows(&tower, &table)?;
        let broken = match book.either() {
            0 => self.first_broken(&tower, &book, &table)?,
            either => self.first_broken_of_sets(&tower, &book, either, &table)?,
        };
        let Some(broken) = broken else {
            return Ok(None);
        };
        self.run.actions.clear();
        self.run.actions.push(broken.action);
        let mut at = usize::from(broken.from);
        while at > 0 {
            let step = self.came[at - 1];
            self.run.actions.push(step.action);
            at = usize::from(step.from);
        }
        self.run.actions.reverse();
        let length = self.run.actions.len();
        let list = list.get_mut(..length).ok_or(Refusal::new(16))?;
        list.copy_from_slice(&self.run.actions);
        self.run.follow(&tower);
        let (line, position) = self.run.broken_rule(&book);
        Ok(Some(Shown {
            length,
            line,
            position,
        }))
    }

    /// The first broken step; 11 where there is too much to count. Rows with what is pending are met in
    /// the order of the runs that lead there, so that it ends the first run. Counting goes on after it.
    fn first_broken(
        &mut self,
        tower: &Tower,
        book: &Book,
        table: &Table,
    ) -> Result<Option<Step>, Refusal> {
        self.known.clear();
        self.met.clear();
        self.came.clear();
        let first = Item {
            row: 0,
            pending: pending::at_first(book),
        };
        self.known.insert(first);
        self.met.push(first);
        let mut broken = None;
        let mut next = 0;
        while let Some(&item) = self.met.get(next) {
            let row = usize::from(item.row);
            let state = table.state(row);
            let marks = tower.mask(state);
            self.onward.clear();
            for step in table.steps(row) {
                let length = tower.step_length(state, step.action);
                let after = self.onward.after(book, &item.pending, marks, length);
                let taken = Step {
                    from: next as Number,
                    action: step.action as u8,
                };
                let Some(pending) = *after else {
                    broken = broken.or(Some(taken));
                    continue;
                };
                let reached = Item {
                    row: step.target as u16,
                    pending,
                };
                if self.known.insert(reached) {
                    if self.met.len() == MOST_PAIRS {
                        return Err(Refusal::new(11));
                    }
                    self.met.push(reached);
                    self.came.push(taken);
                }
            }
            next += 1;
        }
        Ok(broken)
    }

    /// The same under a book with two timed sides of `|`; 20 after 11, where some row with what is
    /// pending gives too many alternatives by an allowed action.
    #[inline(never)]
    fn first_broken_of_sets(
        &mut self,
        tower: &Tower,
        book: &Book,
        either: u64,
        table: &Table,
    ) -> Result<Option<Step>, Refusal> {
        let rules = Pairs::rules(book, either);
        self.with_sets.begin(&rules, 0);
        self.came.clear();
        let (mut broken, mut over_full) = (None, false);
        let mut next = 0;
        while let Some(row) = self.with_sets.at(next) {
            let state = table.state(row);
            let tried = table.steps(row).map(|step| Tried {
                action: step.action,
                length: tower.step_length(state, step.action),
                target: step.target,
            });
            let lead = |action: usize, pair: Option<Number>| {
                let taken = Step {
                    from: next as Number,
                    action: action as u8,
                };
                match pair {
                    None => broken = broken.or(Some(taken)),
                    // One that was not met before.
                    Some(pair) if usize::from(pair) > self.came.len() => self.came.push(taken),
                    Some(_) => {}
                }
            };
            let marks = tower.mask(state);
            over_full |= self.with_sets.step(&rules, next, marks, tried, lead)?;
            next += 1;
        }
        if over_full {
            return Err(Refusal::new(20));
        }
        Ok(broken)
    }
}

/// The most positions of a run.
const MOST_POSITIONS: usize = MOST_PAIRS + 1;

/// A run, and which nodes it keeps.
struct Run {
    actions: Vec<u8>,
    /// The length of each action, and the marks at its position.
    lengths: Vec<u8>,
    marks: Vec<u16>,
    /// The time of each position, also the last.
    times: Vec<u32>,
    /// For each node whether it is kept at each position, also the last.
    kept: Vec<bool>,
    /// The node of each line, and whether it is an `always` line.
    lines: Vec<(u8, bool)>,
}

impl Run {
    fn new() -> Self {
        Run {
            actions: Vec::with_capacity(MOST_PAIRS),
            lengths: Vec::with_capacity(MOST_PAIRS),
            marks: Vec::with_capacity(MOST_PAIRS),
            times: Vec::with_capacity(MOST_POSITIONS),
            kept: vec![false; MOST_NODES * MOST_POSITIONS],
            lines: Vec::with_capacity(MOST_NODES),
        }
    }

    /// Follows the actions, which are enabled, from the start of the tower.
    fn follow(&mut self, tower: &Tower) {
        self.lengths.clear();
        self.marks.clear();
        self.times.clear();
        let (mut state, mut time) = (tower.start, 0);
        for action in self.actions.iter().map(|action| usize::from(*action)) {
            let length = tower.step_length(state, action);
            self.lengths.push(length);
            self.marks.push(tower.mask(state));
            self.times.push(time);
            time += u32::from(length);
            state = tower.target(state, action).expect("an enabled action");
        }
        self.times.push(time);
    }

    /// The lowest line that the run does not keep, and the lowest position where its formula is not kept;
    /// 0 for a `start` line. The nodes of a line stand before those of the next, and are judged with it.
    fn broken_rule(&mut self, book: &Book) -> (usize, usize) {
        self.lines.clear();
        let (always, start) = (book.always.numbers(), book.start.numbers());
        self.lines.extend(always.iter().map(|node| (*node, true)));
        self.lines.extend(start.iter().map(|node| (*node, false)));
        self.lines.sort_unstable();
        let positions = self.actions.len() + 1;
        let mut judged = 0;
        for line in 0..self.lines.len() {
            let (root, always) = self.lines[line];
            while judged <= root {
                self.judge(book, judged);
                judged += 1;
            }
            let kept = &self.kept[positions * usize::from(root)..][..positions];
            let kept = if always { kept } else { &kept[..1] };
            if let Some(position) = kept.iter().position(|kept| !kept) {
                return (line, position);
            }
        }
        unreachable!("a broken run keeps every line")
    }

    /// Judges a node at every position, its parts having been judged. The last one keeps everything.
    fn judge(&mut self, book: &Book, node: u8) {
        let last = self.actions.len();
        let positions = last + 1;
        let (parts, kept) = self.kept.split_at_mut(positions * usize::from(node));
        let part = |node: u8| &parts[positions * usize::from(node)..][..positions];
        let kept = &mut kept[..positions];
        let times = &self.times[..positions];
        kept[last] = true;
        match *book.node(node) {
            Node::Constant(value) => kept[..last].fill(value),
            Node::Mark { index, negated } => {
                for (kept, marks) in kept.iter_mut().zip(&self.marks) {
                    *kept = (marks >> index & 1 == 1) != negated;
                }
            }
            Node::And(first, second) => {
                let parts = part(first).iter().zip(part(second));
                for (kept, (first, second)) in kept.iter_mut().zip(parts) {
                    *kept = first & second;
                }
            }
            Node::Or(first, second) => {
                let parts = part(first).iter().zip(part(second));
                for (kept, (first, second)) in kept.iter_mut().zip(parts) {
                    *kept = first | second;
                }
            }
            Node::Next {
                comparison,
                bound,
                part: next,
            } => {
                let next = &part(next)[1..];
                for (kept, (length, next)) in kept.iter_mut().zip(self.lengths.iter().zip(next)) {
                    *kept = comparison.holds(*length, bound) & next;
                }
            }
            Node::Always { bound, part: each } => {
                let each = part(each);
                // When it is next not kept.
                let mut fails = u32::MAX;
                for i in (0..last).rev() {
                    if !each[i] {
                        fails = times[i];
                    }
                    kept[i] = fails > times[i] + u32::from(bound);
                }
            }
            Node::Until {
                bound,
                first,
                second,
            } => {
                let (first, second) = (part(first), part(second));
                // When the second part or the end is reached along the first.
                let mut ends = times[last];
                for i in (0..last).rev() {
                    if second[i] {
                        ends = times[i];
                    } else if !first[i] {
                        ends = u32::MAX;
                    }
                    kept[i] = ends <= times[i] + u32::from(bound);
                }
            }
        }
    }
}
