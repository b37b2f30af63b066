//! The reasons for which a table is not good, and those that are seen without a book.

use crate::table::{Step, Table};
use crate::tower::Tower;
use crate::Refusal;

/// Why a table is not good.
#[derive(Clone, Copy, Debug, PartialEq, Eq)]
pub enum Reason {
    /// a: row 0 has another state than the start.
    Start,
    /// b: an enabled action that may not be withheld is not allowed.
    Withheld,
    /// c: an allowed action is not enabled, or its target row has another state than the one reached.
    Misled,
    /// d: no action is allowed that goes on.
    Stopped,
    /// e: an allowed run is broken.
    Broken,
}

impl Reason {
    pub fn letter(self) -> char {
        match self {
            Reason::Start => 'a',
            Reason::Withheld => 'b',
            Reason::Misled => 'c',
            Reason::Stopped => 'd',
            Reason::Broken => 'e',
        }
    }

    /// Refusal 14 with its place and this reason, as it is printed.
    pub fn said_at(self, place: usize) -> String {
        format!("{} {}", Refusal::at(14, place), self.letter())
    }
}

/// The first of the reasons a to d that holds of a table whose S and A are the tower's, with its place:
/// a, then b to d by row.
pub fn first_fault(tower: &Tower, table: &Table) -> Option<(Reason, usize)> {
    if table.rows[0].state != tower.start {
        return Some((Reason::Start, 0));
    }
    let fault = |row: usize| Some((fault_of_row(tower, table, row)?, row));
    (0..table.rows.len()).find_map(fault)
}

/// The first of the reasons b, c and d that holds of a row.
fn fault_of_row(tower: &Tower, table: &Table, row: usize) -> Option<Reason> {
    let row = &table.rows[row];
    let targets = &tower.states[row.state].targets;
    let withheld = |action: usize| {
        !tower.kind(action).controllable()
            && targets[action].is_some()
            && row.target(action).is_none()
    };
    if (0..tower.actions.len()).any(withheld) {
        return Some(Reason::Withheld);
    }
    let led_well = |step: &Step| targets[step.action] == Some(table.rows[step.target].state);
    if !row.steps.iter().all(led_well) {
        return Some(Reason::Misled);
    }
    let goes_on = |step: &Step| tower.kind(step.action).goes_on();
    (!row.steps.iter().any(goes_on)).then_some(Reason::Stopped)
}
