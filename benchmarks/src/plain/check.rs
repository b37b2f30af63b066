//! Judges a table.

use super::book::Book;
use super::hash::Fast;
use super::pairs::Pairs;
use super::pending::{self, Onward, Pending};
use super::search::{Search, Tried};
use super::table::Table;
use super::tower::Tower;
use super::{Refusal, MOST_PAIRS};
use std::collections::HashSet;

/// A row with what is pending there.
#[derive(Clone, Copy, PartialEq, Eq, Hash)]
struct Item {
    row: u16,
    pending: Pending,
}

/// The room of a checker, kept from call to call, with a search over pairs of sets: the plain one, or
/// another.
pub struct Checker<S = Pairs> {
    known: HashSet<Item, Fast>,
    met: Vec<Item>,
    onward: Onward,
    /// The rows with what is pending under a book with two timed sides of `|`.
    with_sets: S,
}

impl Checker {
    pub fn new() -> Self {
        Checker::with_room()
    }
}

impl<S: Search> Checker<S> {
    /// With room for the most rows with what is pending.
    pub fn with_room() -> Self {
        Checker {
            known: HashSet::with_capacity_and_hasher(MOST_PAIRS + 1, Fast::default()),
            met: Vec::with_capacity(MOST_PAIRS + 1),
            onward: Onward::new(),
            with_sets: S::new(),
        }
    }

    /// How many rows with what is pending the last call has met.
    pub fn met(&self) -> usize {
        self.met.len()
    }

    /// How many of them the last call under a book with two timed sides of `|` has met, and how many
    /// alternatives they have.
    pub fn met_sets(&self) -> [usize; 2] {
        self.with_sets.counts()
    }

    /// Whether the table is good for the tower and the book.
    pub fn check(&mut self, tower: &[u8], book: &[u8], table: &[u8]) -> Result<(), Refusal> {
        let tower = Tower::read(tower)?;
        let book = Book::read(tower.marks, book)?;
        let table = Table::read(table)?;
        judge_rows(&tower, &table)?;
        let broken = match book.either() {
            0 => self.allows_a_broken_run(&tower, &book, &table)?,
            either => {
                let rules = S::rules(&book, either);
                self.allows_a_broken_run_of_sets(&tower, &rules, &table)?
            }
        };
        if broken {
            return Err(Refusal::not_good(b'e', 0));
        }
        Ok(())
    }

    /// Whether some allowed run is broken; 11 where there is too much to count. Counting goes on
    /// after a broken step.
    fn allows_a_broken_run(
        &mut self,
        tower: &Tower,
        book: &Book,
        table: &Table,
    ) -> Result<bool, Refusal> {
        self.known.clear();
        self.met.clear();
        let first = Item {
            row: 0,
            pending: pending::at_first(book),
        };
        self.known.insert(first);
        self.met.push(first);
        let mut broken = false;
        let mut next = 0;
        while let Some(&item) = self.met.get(next) {
            next += 1;
            let row = usize::from(item.row);
            let state = table.state(row);
            let marks = tower.mask(state);
            self.onward.clear();
            for step in table.steps(row) {
                let length = tower.step_length(state, step.action);
                let after = self.onward.after(book, &item.pending, marks, length);
                let Some(pending) = *after else {
                    broken = true;
                    continue;
                };
                let reached = Item {
                    row: step.target as u16,
                    pending,
                };
                if self.known.insert(reached) {
                    if self.met.len() == MOST_PAIRS {
                        return Err(Refusal::new(11));
                    }
                    self.met.push(reached);
                }
            }
        }
        Ok(broken)
    }

    /// The same under a book with two timed sides of `|`; 20 after 11, where some row with what is
    /// pending gives too many alternatives by an allowed action.
    #[inline(never)]
    fn allows_a_broken_run_of_sets(
        &mut self,
        tower: &Tower,
        rules: &S::Rules<'_>,
        table: &Table,
    ) -> Result<bool, Refusal> {
        self.with_sets.begin(rules, 0);
        let (mut broken, mut over_full) = (false, false);
        let mut next = 0;
        while let Some(row) = self.with_sets.at(next) {
            let state = table.state(row);
            let tried = table.steps(row).map(|step| Tried {
                action: step.action,
                length: tower.step_length(state, step.action),
                target: step.target,
            });
            let lead = |_, pair: Option<u16>| broken |= pair.is_none();
            let marks = tower.mask(state);
            over_full |= self.with_sets.step(rules, next, marks, tried, lead)?;
            next += 1;
        }
        if over_full {
            return Err(Refusal::new(20));
        }
        Ok(broken)
    }
}

/// 13 where the table is for towers of another size, and the reasons a to d.
pub fn judge_rows(tower: &Tower, table: &Table) -> Result<(), Refusal> {
    if table.states != tower.states || table.actions != tower.actions {
        return Err(Refusal::new(13));
    }
    if table.state(0) != tower.start {
        return Err(Refusal::not_good(b'a', 0));
    }
    (0..table.rows).try_for_each(|row| judge_row(tower, table, row))
}

/// The reasons b, c and d.
fn judge_row(tower: &Tower, table: &Table, row: usize) -> Result<(), Refusal> {
    let state = table.state(row);
    let mut allowed = 0u16;
    let mut led_astray = false;
    let mut goes_on = false;
    for step in table.steps(row) {
        allowed |= 1 << step.action;
        goes_on |= tower.goes_on(step.action);
        led_astray |= tower.target(state, step.action) != Some(table.state(step.target));
    }
    for (action, target) in tower.targets(state).enumerate() {
        if target.is_some() && allowed >> action & 1 == 0 && tower.is_forced(action) {
            return Err(Refusal::not_good(b'b', row));
        }
    }
    if led_astray {
        return Err(Refusal::not_good(b'c', row));
    }
    if !goes_on {
        return Err(Refusal::not_good(b'd', row));
    }
    Ok(())
}
