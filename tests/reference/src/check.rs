//! Judges a table, whoever made it.

use crate::alternatives::{self, Alternatives, OverFull};
use crate::book::{self, Book};
use crate::judge::{self, Reason};
use crate::table::{self, Row, Step, Table};
use crate::tower::{self, Tower};
use crate::{Refusal, MOST_PAIRS};
use std::collections::HashSet;
use std::fmt;

#[derive(Clone, Copy, Debug, PartialEq, Eq)]
pub enum Answer {
    Good,
    /// Refusal 14, with its reason and its place.
    NotGood(Reason, usize),
    Refused(Refusal),
}

impl fmt::Display for Answer {
    fn fmt(&self, f: &mut fmt::Formatter) -> fmt::Result {
        match self {
            Answer::Good => write!(f, "good"),
            Answer::NotGood(reason, place) => write!(f, "{}", reason.said_at(*place)),
            Answer::Refused(refusal) => write!(f, "{refusal}"),
        }
    }
}

/// The checker's entry.
pub fn check(tower: &[u8], book: &[u8], table: &[u8]) -> Answer {
    let read = || {
        let tower = tower::parse(tower)?;
        let book = book::read(tower.marks, book)?;
        let table = table::decode_for(&tower, table)?;
        Ok((tower, book, table))
    };
    match read() {
        Ok((tower, book, table)) => check_table(&tower, &book, &table),
        Err(refusal) => Answer::Refused(refusal),
    }
}

/// Judges a table whose S and A are the tower's.
pub fn check_table(tower: &Tower, book: &Book, table: &Table) -> Answer {
    if let Some((reason, place)) = judge::first_fault(tower, table) {
        return Answer::NotGood(reason, place);
    }
    match allows_a_broken_run(tower, book, table) {
        Err(refusal) => Answer::Refused(refusal),
        Ok(true) => Answer::NotGood(Reason::Broken, 0),
        Ok(false) => Answer::Good,
    }
}

/// Whether some allowed run is broken; 11 where rows with what is pending, each counted once for each of
/// its alternatives, are over 1,000, and then 20 where one of them gives over 16 alternatives by an
/// allowed action. The rows are fit by b, c and d. Counting goes on after a broken step.
fn allows_a_broken_run(tower: &Tower, book: &Book, table: &Table) -> Result<bool, Refusal> {
    let first = (0, alternatives::at_first(book));
    let mut count = first.1.len();
    let mut met = HashSet::from([first.clone()]);
    let mut to_visit = vec![first];
    let mut over_full = false;
    let mut broken = false;
    while let Some((row, waiting)) = to_visit.pop() {
        let Ok(reached) = reached(tower, book, &table.rows[row], &waiting) else {
            over_full = true;
            continue;
        };
        for (target, after) in reached {
            if after.is_empty() {
                broken = true;
                continue;
            }
            let pair = (target, after);
            if met.insert(pair.clone()) {
                count += pair.1.len();
                to_visit.push(pair);
            }
            if count > MOST_PAIRS {
                return Err(Refusal::new(11));
            }
        }
    }
    if over_full {
        return Err(Refusal::new(20));
    }
    Ok(broken)
}

/// The row that each allowed action leads to, and what is pending there: no alternative where the step
/// is broken.
fn reached(
    tower: &Tower,
    book: &Book,
    row: &Row,
    waiting: &Alternatives,
) -> Result<Vec<(usize, Alternatives)>, OverFull> {
    let marks = tower.states[row.state].marks;
    let after = |step: &Step| {
        let length = tower.step_length(row.state, step.action);
        let after = alternatives::after(book, waiting, marks, length)?;
        Ok((step.target, after))
    };
    row.steps.iter().map(after).collect()
}
