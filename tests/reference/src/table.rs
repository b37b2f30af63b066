//! The table file of section 'Good tables'.

use crate::tower::{self, Tower, STATE_WIDTH};
use crate::{number_at, put_number, two_bytes, Refusal, MOST_PAIRS};

/// Bytes of the header.
pub const HEADER: usize = 12;

/// Bytes of a row: its state, the number of its steps, and the first of them.
const ROW: usize = STATE_WIDTH + 1 + 2;

/// Bytes of a step: its action and its target row.
const STEP: usize = 1 + 2;

/// Where the state of a row is written.
pub fn state_at(row: usize) -> usize {
    HEADER + ROW * row
}

/// Where the number of steps of a row is written.
pub fn count_at(row: usize) -> usize {
    state_at(row) + STATE_WIDTH
}

/// Where the first step of a row is written.
pub fn first_at(row: usize) -> usize {
    count_at(row) + 1
}

/// Where the action of a step is written, in a table of so many rows.
pub fn action_at(rows: usize, step: usize) -> usize {
    state_at(rows) + STEP * step
}

/// Where the target row of a step is written.
pub fn target_at(rows: usize, step: usize) -> usize {
    action_at(rows, step) + 1
}

/// The bytes of a table of so many rows and steps.
pub fn file_length(rows: usize, steps: usize) -> usize {
    action_at(rows, steps)
}

/// The most bytes of a table: all rows, with all actions in each.
pub fn most_bytes() -> usize {
    file_length(MOST_PAIRS, MOST_PAIRS * tower::ACTIONS.end())
}

#[derive(Clone, Copy, Debug, PartialEq, Eq)]
pub struct Step {
    pub action: usize,
    pub target: usize,
}

#[derive(Clone, Debug, PartialEq, Eq)]
pub struct Row {
    pub state: usize,
    /// With actions strictly ascending.
    pub steps: Vec<Step>,
}

impl Row {
    /// The row that an action leads to, where it is allowed.
    pub fn target(&self, action: usize) -> Option<usize> {
        let step = self.steps.iter().find(|step| step.action == action);
        step.map(|step| step.target)
    }
}

#[derive(Clone, Debug, PartialEq, Eq)]
pub struct Table {
    /// S and A of the tower that it is for.
    pub states: usize,
    pub actions: usize,
    pub rows: Vec<Row>,
}

impl Table {
    /// A table of these rows, each as its state, and each action with its target row.
    pub fn of_rows(states: usize, actions: usize, rows: &[(usize, &[(usize, usize)])]) -> Self {
        let step = |&(action, target): &(usize, usize)| Step { action, target };
        let row = |&(state, steps): &(usize, &[(usize, usize)])| Row {
            state,
            steps: steps.iter().map(step).collect(),
        };
        Table {
            states,
            actions,
            rows: rows.iter().map(row).collect(),
        }
    }

    pub fn step_count(&self) -> usize {
        self.rows.iter().map(|row| row.steps.len()).sum()
    }

    /// Whether the table allows the run of these actions.
    pub fn allows(&self, actions: &[usize]) -> bool {
        let follow = |row: usize, action: &usize| self.rows[row].target(*action);
        actions.iter().try_fold(0, follow).is_some()
    }

    /// The table file. The table has at most 1,000 rows.
    pub fn encode(&self) -> Vec<u8> {
        let mut file = Vec::new();
        let mut put = |number: usize| {
            let number = u16::try_from(number).expect("a number of two bytes");
            file.extend(number.to_le_bytes());
        };
        put(self.rows.len());
        put(self.step_count());
        put(HEADER);
        put(state_at(self.rows.len()));
        put(self.states);
        put(self.actions);
        let mut first = 0;
        for row in &self.rows {
            put_number(STATE_WIDTH, &mut file, row.state);
            put_number(1, &mut file, row.steps.len());
            put_number(2, &mut file, first);
            first += row.steps.len();
        }
        for step in self.rows.iter().flat_map(|row| &row.steps) {
            put_number(1, &mut file, step.action);
            put_number(2, &mut file, step.target);
        }
        file
    }
}

/// Reads a table file by its own header; 13 where it is not laid out as it should be.
pub fn decode(file: &[u8]) -> Result<Table, Refusal> {
    decode_laid_out(file).ok_or(Refusal::new(13))
}

/// Reads a table file for a tower; 13 also where its S and A are not the tower's.
pub fn decode_for(tower: &Tower, file: &[u8]) -> Result<Table, Refusal> {
    let table = decode(file)?;
    if table.states != tower.states.len() || table.actions != tower.actions.len() {
        return Err(Refusal::new(13));
    }
    Ok(table)
}

fn decode_laid_out(file: &[u8]) -> Option<Table> {
    if file.len() < HEADER {
        return None;
    }
    let [rows, steps, rows_at, steps_at, states, actions] =
        [0, 2, 4, 6, 8, 10].map(|at| two_bytes(file, at));
    let laid_out = (1..=MOST_PAIRS).contains(&rows)
        && rows_at == HEADER
        && steps_at == state_at(rows)
        && tower::STATES.contains(&states)
        && tower::ACTIONS.contains(&actions)
        && file.len() == file_length(rows, steps);
    if !laid_out {
        return None;
    }
    let mut table = Table {
        states,
        actions,
        rows: Vec::new(),
    };
    let mut step_records = file[steps_at..].chunks(STEP);
    let mut met = 0;
    for row in file[rows_at..steps_at].chunks(ROW) {
        let state = number_at(STATE_WIDTH, row, 0);
        let [count, first] = [(1, count_at(0)), (2, first_at(0))]
            .map(|(width, at)| number_at(width, row, at - state_at(0)));
        if state >= states || first != met || met + count > steps {
            return None;
        }
        met += count;
        let steps: Vec<Step> = step_records
            .by_ref()
            .take(count)
            .map(|step| Step {
                action: usize::from(step[0]),
                target: two_bytes(step, 1),
            })
            .collect();
        let fits = |step: &Step| step.action < actions && step.target < rows;
        let ascending = |pair: &[Step]| pair[0].action < pair[1].action;
        if !steps.iter().all(fits) || !steps.windows(2).all(ascending) {
            return None;
        }
        table.rows.push(Row { state, steps });
    }
    (met == steps).then_some(table)
}
