//! The tower reader: its answer, and every field of a fit tower.

use crate::answer::{with_values, Answer};
use crate::common::Random;
use crate::entry::{bytes, stated_number, Entry, File, NOTHING};
use crate::towers;
use reference::tower::{self, Kind};
use succoryvise_sys::Answer as Handed;

extern "C" {
    fn test_read_tower(tower: *const u8, length: usize) -> Handed;
    fn test_tower_field(tower: *const u8, length: usize, which: u32, x: usize, i: usize) -> usize;
}

/// The fields, in the order of `tower.rt` in the crate `testing`.
#[derive(Clone, Copy)]
pub enum Field {
    States,
    Actions,
    Marks,
    Start,
    Kind,
    Length,
    Target,
    Mask,
    Marked,
}

/// Bits of a mask.
const MASK_BITS: usize = 16;

pub fn read(tower: &[u8]) -> Answer {
    with_values(0, unsafe { test_read_tower(tower.as_ptr(), tower.len()) })
}

/// A field; NOTHING where the tower is not fit, the place outside it, or the action not enabled.
pub fn field(tower: &[u8], field: Field, x: usize, i: usize) -> usize {
    unsafe { test_tower_field(tower.as_ptr(), tower.len(), field as u32, x, i) }
}

pub struct Tower;

impl Entry for Tower {
    type Case = File;

    const NAME: &'static str = "tower reader";
    const GENERATED: usize = 100_000;
    const REFUSALS: &'static [u8] = &[1, 2, 3, 4, 5];
    const FILES: &'static [&'static str] = &["make.txt", "check.txt", "log.txt", "why.txt"];

    fn proved(File(file): &File) -> Answer {
        let mut answer = read(file);
        if answer.number == 0 {
            answer.values = fields(file);
        }
        answer
    }

    fn reference(File(file): &File) -> Answer {
        match tower::parse(file) {
            Ok(tower) => Answer::of_values(expected_fields(&tower)),
            Err(refusal) => refusal.into(),
        }
    }

    fn generate(random: &mut Random) -> File {
        File(towers::any(random))
    }

    fn of_line(_: &str, inputs: &[&str]) -> Option<File> {
        Some(File(bytes(inputs.first()?)?))
    }

    /// The tower comes first in the orders of all that have one.
    fn fits_line(_: &str, answer: &Answer, stated: &str) -> bool {
        let stated = stated_number(stated);
        answer.number == if stated <= 5 { stated } else { 0 }
    }
}

/// All fields of a fit tower, each place one past the end with them.
fn fields(file: &[u8]) -> Vec<usize> {
    let header = [Field::States, Field::Actions, Field::Marks, Field::Start];
    let header = header.map(|which| field(file, which, 0, 0));
    let [states, actions, ..] = header;
    let mut values = header.to_vec();
    values.extend((0..=actions).map(|a| field(file, Field::Kind, 0, a)));
    for x in 0..=states {
        values.push(field(file, Field::Mask, x, 0));
        values.extend((0..=MASK_BITS).map(|k| field(file, Field::Marked, x, k)));
        for a in 0..=actions {
            values.push(field(file, Field::Length, x, a));
            values.push(field(file, Field::Target, x, a));
        }
    }
    values
}

/// The same by the reference.
fn expected_fields(tower: &tower::Tower) -> Vec<usize> {
    let (states, actions) = (tower.states.len(), tower.actions.len());
    let mut values = vec![states, actions, tower.marks, tower.start];
    let number = |kind: Kind| Kind::ALL.iter().position(|other| *other == kind);
    values.extend(
        tower
            .actions
            .iter()
            .filter_map(|action| number(action.kind)),
    );
    values.push(NOTHING);
    for (x, state) in tower.states.iter().enumerate() {
        values.push(usize::from(state.marks));
        values.extend((0..MASK_BITS).map(|k| usize::from(state.marks >> k & 1)));
        values.push(NOTHING);
        for (a, target) in state.targets.iter().enumerate() {
            values.push(usize::from(tower.step_length(x, a)));
            values.push(target.unwrap_or(NOTHING));
        }
        values.extend([NOTHING; 2]);
    }
    values.resize(
        values.len() + 1 + MASK_BITS + 1 + 2 * (actions + 1),
        NOTHING,
    );
    values
}
