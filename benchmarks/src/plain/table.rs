//! The table file.

use super::tower::STATE_WIDTH;
use super::{two_bytes, Refusal, MOST_ACTIONS, MOST_PAIRS};

/// Bytes of the header.
pub const HEADER: usize = 12;

/// Bytes of a row: its state, the number of its steps, and the first of them.
pub const ROW: usize = FIRST + 2;

/// Bytes of a step: its action and its target row.
pub const STEP: usize = 3;

/// Where in a row the number of its steps stands, and the first of them.
pub const COUNT: usize = STATE_WIDTH;
pub const FIRST: usize = COUNT + 1;

/// The most bytes of a table: 1,000 rows of 16 steps.
pub const MOST_BYTES: usize = HEADER + MOST_PAIRS * (ROW + MOST_ACTIONS * STEP);

const MOST_STATES: usize = 200;

/// A table that is laid out as it should be, in its file.
#[derive(Clone, Copy)]
pub struct Table<'a> {
    pub rows: usize,
    pub states: usize,
    pub actions: usize,
    row_bytes: &'a [u8],
    step_bytes: &'a [u8],
}

#[derive(Clone, Copy)]
pub struct Step {
    pub action: usize,
    pub target: usize,
}

fn step(bytes: &[u8]) -> Step {
    Step {
        action: usize::from(bytes[0]),
        target: two_bytes(bytes, 1),
    }
}

impl<'a> Table<'a> {
    /// Reads a table by its own header.
    pub fn read(file: &'a [u8]) -> Result<Self, Refusal> {
        Table::laid_out(file).ok_or(Refusal::new(13))
    }

    fn laid_out(file: &'a [u8]) -> Option<Self> {
        if file.len() < HEADER {
            return None;
        }
        let [rows, steps, rows_at, steps_at, states, actions] =
            [0, 2, 4, 6, 8, 10].map(|at| two_bytes(file, at));
        let right = (1..=MOST_PAIRS).contains(&rows)
            && (1..=MOST_STATES).contains(&states)
            && (1..=MOST_ACTIONS).contains(&actions)
            && rows_at == HEADER
            && steps_at == HEADER + ROW * rows
            && file.len() == steps_at + STEP * steps;
        if !right {
            return None;
        }
        let table = Table {
            rows,
            states,
            actions,
            row_bytes: &file[HEADER..steps_at],
            step_bytes: &file[steps_at..],
        };
        table.rows_are_right().then_some(table)
    }

    fn rows_are_right(&self) -> bool {
        let mut rest = self.step_bytes;
        let mut first = 0;
        for row in self.row_bytes.chunks_exact(ROW) {
            let count = usize::from(row[COUNT]);
            if usize::from(row[0]) >= self.states
                || two_bytes(row, FIRST) != first
                || rest.len() < STEP * count
            {
                return false;
            }
            let (steps, others) = rest.split_at(STEP * count);
            let mut least = 0;
            for step in steps.chunks_exact(STEP).map(step) {
                if step.action < least || step.action >= self.actions || step.target >= self.rows {
                    return false;
                }
                least = step.action + 1;
            }
            rest = others;
            first += count;
        }
        rest.is_empty()
    }

    pub fn state(&self, row: usize) -> usize {
        usize::from(self.row_bytes[ROW * row])
    }

    /// The steps of a row.
    pub fn steps(&self, row: usize) -> impl Iterator<Item = Step> + 'a {
        let row = &self.row_bytes[ROW * row..ROW * (row + 1)];
        let first = STEP * two_bytes(row, FIRST);
        let steps = &self.step_bytes[first..first + STEP * usize::from(row[COUNT])];
        steps.chunks_exact(STEP).map(step)
    }

    /// The row that an action leads to, where it is allowed.
    pub fn target(&self, row: usize, action: usize) -> Option<usize> {
        let step = self.steps(row).find(|step| step.action == action);
        step.map(|step| step.target)
    }
}
