//! Tower files at random.

use crate::common::{self, Random};
use crate::edits;
use reference::tower::{ACTION, HEADER, NOT_ENABLED};

/// A tower file: fit in about half of the cases, else nearly fit or noise.
pub fn any(random: &mut Random) -> Vec<u8> {
    match random.below(20) {
        0 => edits::noise(random),
        1 => past_limits(random),
        2..=10 => {
            let mut file = fit(random);
            edit(random, &mut file);
            file
        }
        _ => fit(random),
    }
}

/// Changes a few bytes.
pub fn edit(random: &mut Random, file: &mut Vec<u8>) {
    edits::edit(random, file, HEADER);
}

/// Gives each action of a fit tower another length, up to the longest.
pub fn lengthen(random: &mut Random, file: &mut [u8]) {
    for action in 0..usize::from(file[1]) {
        file[HEADER + ACTION * action] = 1 + random.below(255) as u8;
    }
}

/// A fit tower, mostly a small one.
pub fn fit(random: &mut Random) -> Vec<u8> {
    let (most_states, most_actions) = match random.below(1000) {
        0 => (200, 16),
        1..=20 => (40, 16),
        _ => (6, 5),
    };
    let states = up_to(random, most_states);
    let actions = up_to(random, most_actions);
    let marks = random.below(17);
    sized(random, states, actions, marks)
}

/// From 1 to the most, which comes often.
fn up_to(random: &mut Random, most: usize) -> usize {
    if random.once_in(4) {
        most
    } else {
        1 + random.below(most)
    }
}

/// A tower with one count at or past a limit, and all else as it should be.
fn past_limits(random: &mut Random) -> Vec<u8> {
    let past = random.below(6);
    match random.below(5) {
        0 => sized(random, 200 + past, 1, 3),
        1 => sized(random, 2, 16 + past, 3),
        2 => sized(random, 2, 2, 16 + past),
        3 => sized(random, 2, 0, 3),
        _ => {
            let mut file = sized(random, 3, 2, 3);
            file[3] = past as u8;
            file
        }
    }
}

/// A tower of these counts, at most 254 states, 120 actions and 255 marks.
fn sized(random: &mut Random, states: usize, actions: usize, marks: usize) -> Vec<u8> {
    let start = random.below(states) as u8;
    let lengths: Vec<[u8; 2]> = (0..actions)
        .map(|_| [1 + random.below(255) as u8, random.below(3) as u8])
        .collect();
    let masks = 1 << marks.min(16);
    let states: Vec<(u16, Vec<u8>)> = (0..states)
        .map(|_| {
            let mask = random.below(masks) as u16;
            let target = |_| {
                if random.once_in(4) {
                    NOT_ENABLED as u8
                } else {
                    random.below(states) as u8
                }
            };
            (mask, (0..actions).map(target).collect())
        })
        .collect();
    common::tower_file(marks as u8, start, &lengths, &states)
}
