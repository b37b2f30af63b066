//! Section 'Tower file'.

use crate::{number_at, two_bytes, Refusal};
use std::ops::RangeInclusive;

pub const STATES: RangeInclusive<usize> = 1..=200;
pub const ACTIONS: RangeInclusive<usize> = 1..=16;
pub const MARKS: RangeInclusive<usize> = 0..=16;

/// Bytes of a state's number, in towers and in tables.
pub const STATE_WIDTH: usize = 1;

/// The target that says 'not enabled'.
pub const NOT_ENABLED: usize = 255;

/// Bytes of the header, and of an action: its length and its kind.
pub const HEADER: usize = 8;
pub const ACTION: usize = 2;

/// Bytes of a state's mask.
const MASK: usize = 2;

/// Bytes of a state: its mask, and a target for each of so many actions.
pub fn state_size(actions: usize) -> usize {
    MASK + STATE_WIDTH * actions
}

/// Where the states begin, behind so many actions.
pub fn states_at(actions: usize) -> usize {
    HEADER + ACTION * actions
}

/// Whose an action is.
#[derive(Clone, Copy, Debug, PartialEq, Eq)]
pub enum Kind {
    Player,
    Ours,
    /// Uncontrollable, but sure to come, as the clock's train.
    Sure,
}

impl Kind {
    /// All kinds, each at its number in a file.
    pub const ALL: [Kind; 3] = [Kind::Player, Kind::Ours, Kind::Sure];

    /// The kind with this number in a file.
    fn of_number(number: u8) -> Option<Self> {
        Kind::ALL.get(usize::from(number)).copied()
    }

    /// Whether an action of this kind may be withheld.
    pub fn controllable(self) -> bool {
        match self {
            Kind::Player | Kind::Sure => false,
            Kind::Ours => true,
        }
    }

    /// Whether an action of this kind counts as going on: a row that allows one has not stopped.
    pub fn goes_on(self) -> bool {
        match self {
            Kind::Player => false,
            Kind::Ours | Kind::Sure => true,
        }
    }
}

#[derive(Clone, Debug, PartialEq, Eq)]
pub struct Action {
    /// In ticks. What a step takes is `Tower::step_length`.
    length: u16,
    pub kind: Kind,
}

#[derive(Clone, Debug, PartialEq, Eq)]
pub struct State {
    /// Bit k is mark k.
    pub marks: u16,
    /// The state that each action leads to, where it is enabled.
    pub targets: Vec<Option<usize>>,
}

#[derive(Clone, Debug, PartialEq, Eq)]
pub struct Tower {
    pub marks: usize,
    pub start: usize,
    pub actions: Vec<Action>,
    pub states: Vec<State>,
}

impl Tower {
    /// The ticks of the step that leaves a state by an action.
    pub fn step_length(&self, _state: usize, action: usize) -> u16 {
        self.actions[action].length
    }

    /// Gives the steps of every action another length.
    pub fn change_lengths(&mut self, mut changed: impl FnMut(u16) -> u16) {
        for action in &mut self.actions {
            action.length = changed(action.length);
        }
    }

    /// The kind of an action.
    pub fn kind(&self, action: usize) -> Kind {
        self.actions[action].kind
    }

    /// The state that an action leads to from a state, where it is enabled.
    pub fn target(&self, state: usize, action: usize) -> Option<usize> {
        self.states[state].targets[action]
    }
}

/// Reads a tower file. Each refusal is looked for in the whole file before the next.
pub fn parse(file: &[u8]) -> Result<Tower, Refusal> {
    if file.len() < HEADER {
        return Err(Refusal::new(1));
    }
    let [states, actions, marks, start] = [0, 1, 2, 3].map(|at| usize::from(file[at]));
    if !STATES.contains(&states)
        || !ACTIONS.contains(&actions)
        || !MARKS.contains(&marks)
        || start >= states
    {
        return Err(Refusal::new(2));
    }
    let states_at = states_at(actions);
    let state_size = state_size(actions);
    if two_bytes(file, 4) != HEADER
        || two_bytes(file, 6) != states_at
        || file.len() != states_at + states * state_size
    {
        return Err(Refusal::new(1));
    }
    let action_records = || file[HEADER..states_at].chunks(ACTION);
    let state_records = || file[states_at..].chunks(state_size);
    let read_action = |action: &[u8]| {
        Some(Action {
            length: u16::from(action[0]),
            kind: Kind::of_number(action[1])?,
        })
    };
    let fits = |action: &Action| action.length > 0;
    let actions: Option<Vec<Action>> = action_records().map(read_action).collect();
    let Some(actions) = actions.filter(|actions| actions.iter().all(fits)) else {
        return Err(Refusal::new(3));
    };
    let targets = |state: &[u8]| -> Vec<usize> {
        let targets = state[MASK..].chunks(STATE_WIDTH);
        targets
            .map(|target| number_at(STATE_WIDTH, target, 0))
            .collect()
    };
    let fits = |target: &usize| *target < states || *target == NOT_ENABLED;
    if !state_records().all(|state| targets(state).iter().all(fits)) {
        return Err(Refusal::new(4));
    }
    if state_records().any(|state| two_bytes(state, 0) >> marks != 0) {
        return Err(Refusal::new(5));
    }
    let read_target = |target: usize| (target != NOT_ENABLED).then_some(target);
    Ok(Tower {
        marks,
        start,
        actions,
        states: state_records()
            .map(|state| State {
                marks: u16::from_le_bytes([state[0], state[1]]),
                targets: targets(state).into_iter().map(read_target).collect(),
            })
            .collect(),
    })
}
