//! Item 4 of the change requests: the run that shows why a table is turned down with 14 e.

use crate::alternatives;
use crate::book::{self, Book};
use crate::check;
use crate::judge::Reason;
use crate::runs::{BrokenRule, Run};
use crate::table::{self, Table};
use crate::tower::{self, Tower};
use crate::Refusal;
use std::collections::HashSet;
use std::fmt;

#[derive(Clone, Debug, PartialEq, Eq)]
pub enum Answer {
    /// For a 14 e.
    Run(Shown),
    /// The checker's own answer, or 16 for a list that is shorter than the run.
    Checked(check::Answer),
}

impl fmt::Display for Answer {
    fn fmt(&self, f: &mut fmt::Formatter) -> fmt::Result {
        let Shown { actions, rule } = match self {
            Answer::Run(shown) => shown,
            Answer::Checked(answer) => return write!(f, "{answer}"),
        };
        let run: String = actions.iter().map(|a| format!("{a:02x}")).collect();
        let (line, position) = (rule.line, rule.position);
        write!(f, "run {} {run} {line} {position}", actions.len())
    }
}

/// A run that is broken, and what it breaks.
#[derive(Clone, Debug, PartialEq, Eq)]
pub struct Shown {
    /// One byte for each action.
    pub actions: Vec<u8>,
    pub rule: BrokenRule,
}

/// The entry, with a list of this length.
pub fn why(tower: &[u8], book: &[u8], table: &[u8], list_length: usize) -> Answer {
    let checked = check::check(tower, book, table);
    let check::Answer::NotGood(Reason::Broken, _) = checked else {
        return Answer::Checked(checked);
    };
    let tower = tower::parse(tower).expect("a tower that was checked");
    let book = book::read(tower.marks, book).expect("a book that was checked");
    let table = table::decode_for(&tower, table).expect("a table that was checked");
    let shown = show(&tower, &book, &table);
    if shown.actions.len() > list_length {
        return Answer::Checked(check::Answer::Refused(Refusal::new(16)));
    }
    Answer::Run(shown)
}

/// The run for a table that the checker turns down with 14 e: what it breaks is judged by the definition.
pub fn show(tower: &Tower, book: &Book, table: &Table) -> Shown {
    let actions = first_broken_run(tower, book, table);
    let run = Run::new(tower, &actions).expect("an allowed run");
    let rule = run.broken_rule(book).expect("a broken run");
    let byte = |action: usize| u8::try_from(action).expect("an action");
    Shown {
        actions: actions.into_iter().map(byte).collect(),
        rule,
    }
}

/// The first broken run among the shortest that are allowed, by action numbers compared from the left.
///
/// Runs are looked at by their length, and those of one length from the first on. Of runs that lead to one
/// row with the same pending, only the first is continued: what breaks one behind there breaks the others.
fn first_broken_run(tower: &Tower, book: &Book, table: &Table) -> Vec<usize> {
    let mut runs = vec![(Vec::new(), 0, alternatives::at_first(book))];
    let mut met = HashSet::new();
    while !runs.is_empty() {
        let mut longer = Vec::new();
        for (run, row, waiting) in runs {
            if !met.insert((row, waiting.clone())) {
                continue;
            }
            let state = table.rows[row].state;
            let marks = tower.states[state].marks;
            for step in &table.rows[row].steps {
                let further = [&run[..], &[step.action]].concat();
                let length = tower.step_length(state, step.action);
                let after = alternatives::after(book, &waiting, marks, length);
                let after = after.expect("16 alternatives at most");
                if after.is_empty() {
                    return further;
                }
                longer.push((further, step.target, after));
            }
        }
        runs = longer;
    }
    panic!("no allowed run is broken");
}
