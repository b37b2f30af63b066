//! The tower file.

use super::{two_bytes, Refusal, MOST_ACTIONS};

/// Bytes of a state's number, in towers and in tables.
pub const STATE_WIDTH: usize = 1;

const HEADER: usize = 8;
const MOST_STATES: usize = 200;
const MOST_MARKS: usize = 16;
const NOT_ENABLED: u8 = 255;

/// The kinds but the player's, 0: ours, and what is sure to come.
const OURS: u8 = 1;
const SURE: u8 = 2;

/// A tower that is fit to use, in its file.
#[derive(Clone, Copy)]
pub struct Tower<'a> {
    pub states: usize,
    pub actions: usize,
    pub marks: usize,
    pub start: usize,
    action_bytes: &'a [u8],
    state_bytes: &'a [u8],
}

impl<'a> Tower<'a> {
    pub fn read(file: &'a [u8]) -> Result<Self, Refusal> {
        if file.len() < HEADER {
            return Err(Refusal::new(1));
        }
        let [states, actions, marks, start] = [0, 1, 2, 3].map(|at| usize::from(file[at]));
        if !(1..=MOST_STATES).contains(&states)
            || !(1..=MOST_ACTIONS).contains(&actions)
            || marks > MOST_MARKS
            || start >= states
        {
            return Err(Refusal::new(2));
        }
        let states_at = HEADER + 2 * actions;
        if two_bytes(file, 4) != HEADER
            || two_bytes(file, 6) != states_at
            || file.len() != states_at + states * (2 + actions)
        {
            return Err(Refusal::new(1));
        }
        let tower = Tower {
            states,
            actions,
            marks,
            start,
            action_bytes: &file[HEADER..states_at],
            state_bytes: &file[states_at..],
        };
        tower.judge_bytes()?;
        Ok(tower)
    }

    /// 3, 4 and 5, each in the whole file before the next.
    fn judge_bytes(&self) -> Result<(), Refusal> {
        let mut actions = self.action_bytes.chunks_exact(2);
        if actions.any(|action| action[0] == 0 || action[1] > SURE) {
            return Err(Refusal::new(3));
        }
        let states = || self.state_bytes.chunks_exact(2 + self.actions);
        let astray = |target: &u8| usize::from(*target) >= self.states && *target != NOT_ENABLED;
        if states().any(|state| state[2..].iter().any(astray)) {
            return Err(Refusal::new(4));
        }
        if states().any(|state| two_bytes(state, 0) >> self.marks != 0) {
            return Err(Refusal::new(5));
        }
        Ok(())
    }

    /// The ticks of the step that leaves a state by an action.
    pub fn step_length(&self, _state: usize, action: usize) -> u8 {
        self.action_bytes[2 * action]
    }

    fn kind(&self, action: usize) -> u8 {
        self.action_bytes[2 * action + 1]
    }

    /// The action may not be withheld.
    pub fn is_forced(&self, action: usize) -> bool {
        self.kind(action) != OURS
    }

    /// The action counts as going on.
    pub fn goes_on(&self, action: usize) -> bool {
        self.kind(action) != 0
    }

    fn state(&self, state: usize) -> &'a [u8] {
        let size = 2 + self.actions;
        &self.state_bytes[size * state..size * (state + 1)]
    }

    pub fn mask(&self, state: usize) -> u16 {
        let bytes = self.state(state);
        u16::from_le_bytes([bytes[0], bytes[1]])
    }

    /// Where the actions lead from a state, in their order.
    pub fn targets(&self, state: usize) -> impl Iterator<Item = Option<usize>> + 'a {
        let targets = self.state(state)[2..].iter();
        targets.map(|target| (*target != NOT_ENABLED).then_some(usize::from(*target)))
    }

    pub fn target(&self, state: usize, action: usize) -> Option<usize> {
        let target = self.state(state)[2 + action];
        (target != NOT_ENABLED).then_some(usize::from(target))
    }
}
