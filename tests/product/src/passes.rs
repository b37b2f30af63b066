//! The maker where it takes many passes to tell the rows of one state apart.

use crate::answer::Answer;
use crate::common::{kind, lines, tower_file, Random};
use crate::entry::Entry;
use crate::make::{file, Call, Make};
use reference::make;
use reference::table::{self, Row};
use reference::tower::NOT_ENABLED;
use std::collections::HashMap;
use std::hash::Hash;

pub struct Passes;

impl Entry for Passes {
    type Case = Call;

    const NAME: &'static str = "maker, in passes";
    const GENERATED: usize = 2_500;
    const REFUSALS: &'static [u8] = &[12];
    const KINDS: &'static [(&'static str, usize)] =
        &[(LATE, 3), (LATER, 8), (LATEST, 50), (FIRST, 8)];
    const FILES: &'static [&'static str] = &[];

    fn proved(call: &Call) -> Answer {
        Make::proved(call)
    }

    fn reference(call: &Call) -> Answer {
        Make::reference(call)
    }

    /// Three of four cases are tried again, a few times, until there is a table that takes 5 passes.
    fn generate(random: &mut Random) -> Call {
        let tries = if random.once_in(4) { 1 } else { 12 };
        for _ in 1..tries {
            let (tower, text) = any(random);
            if let Ok(file) = make::make(&tower, &text, table::most_bytes()) {
                if parting(&file).passes >= 5 {
                    return Call::new(tower, text);
                }
            }
        }
        let (tower, text) = any(random);
        Call::new(tower, text)
    }

    fn kinds(_: &Call, answer: &Answer) -> Vec<&'static str> {
        if answer.number != 0 {
            return Vec::new();
        }
        let Parting { passes, first } = parting(&file(answer));
        let kinds = [
            (passes >= 5, LATE),
            (passes >= 20, LATER),
            (passes >= 100, LATEST),
            (first, FIRST),
        ];
        let came = kinds.into_iter().filter(|(came, _)| *came);
        came.map(|(_, kind)| kind).collect()
    }

    fn of_line(_: &str, _: &[&str]) -> Option<Call> {
        None
    }

    fn fits_line(_: &str, _: &Answer, _: &str) -> bool {
        false
    }
}

const LATE: &str = "a table, told apart in 5 passes or more";
const LATER: &str = "a table, told apart in 20 passes or more";
const LATEST: &str = "a table, told apart in 100 passes or more";
const FIRST: &str = "after pass 5 the first row of some class parts from most others";

/// About how many pairs are wanted: states, and ticks that may be left.
const PAIRS: usize = 300;

/// How the rows of a made table are told apart.
struct Parting {
    /// How many passes part rows, if rows of one state make a class at first.
    passes: usize,
    /// Whether in some pass after the fifth more rows leave a class than stay with its first.
    first: bool,
}

/// Parts the rows of a made table file as the maker parts the pairs that they were made of: pairs that were
/// merged are never parted, so it takes as many passes.
fn parting(file: &[u8]) -> Parting {
    let table = table::decode(file).expect("a made table");
    let mut classes: Vec<usize> = numbered(table.rows.iter().map(|row| row.state));
    let mut so_far = Parting {
        passes: 0,
        first: false,
    };
    loop {
        let seen = |(row, class): (&Row, &usize)| {
            let steps = row.steps.iter();
            let steps = steps.map(|step| (step.action, classes[step.target]));
            (*class, steps.collect::<Vec<_>>())
        };
        let parted = numbered(table.rows.iter().zip(&classes).map(seen));
        if parted == classes {
            // No two rows allow the same onward.
            assert!(classes.iter().enumerate().all(|(row, class)| row == *class));
            return so_far;
        }
        so_far.passes += 1;
        if so_far.passes > 5 {
            let mut leave = vec![0; classes.len()];
            let mut stay = vec![0; classes.len()];
            for (old, new) in classes.iter().zip(&parted) {
                let counts = if old == new { &mut stay } else { &mut leave };
                counts[*old] += 1;
            }
            so_far.first |= leave.iter().zip(&stay).any(|(leave, stay)| leave > stay);
        }
        classes = parted;
    }
}

/// For each thing the place of the first that is the same.
fn numbered<T: Hash + Eq>(things: impl Iterator<Item = T>) -> Vec<usize> {
    let mut first = HashMap::new();
    let places = things.enumerate();
    places
        .map(|(place, thing)| *first.entry(thing).or_insert(place))
        .collect()
}

/// A tower and a book, mostly with some hundred pairs at the most. Without a book there is one pair for
/// each state, and nothing to tell apart.
fn any(random: &mut Random) -> (Vec<u8>, Vec<u8>) {
    let (tower, most) = match random.below(3) {
        0 => {
            let states = 1 + random.below(3);
            (few(random, states), 254)
        }
        1 => {
            let states = 2 + up_to(random, 198);
            (line(random, states), PAIRS / states)
        }
        _ => {
            let states = 4 + up_to(random, 100);
            (alike(random, states), PAIRS / states)
        }
    };
    let text = book(random, most.clamp(3, 254));
    (tower, text)
}

/// From 0 to the most, mostly few.
fn up_to(random: &mut Random, most: usize) -> usize {
    let most = random.below(most + 1);
    let most = random.below(most + 1);
    random.below(most + 1)
}

/// Up to four actions, mostly all of them ours.
fn actions(random: &mut Random) -> Vec<[u8; 2]> {
    let count = 1 + random.below(16).div_ceil(5);
    let longest = [2, 3, 4, 12][random.below(4)];
    let others = random.once_in(4);
    let action = |_| {
        let kind = if others { kind(random) } else { 1 };
        [1 + random.below(longest) as u8, kind]
    };
    (0..count).map(action).collect()
}

/// Any state, or seldom none.
fn anywhere(random: &mut Random, states: usize) -> u8 {
    if random.once_in(8) {
        NOT_ENABLED as u8
    } else {
        random.below(states) as u8
    }
}

/// A tower of few states, so that little but time tells rows apart.
fn few(random: &mut Random, states: usize) -> Vec<u8> {
    let actions = actions(random);
    let states: Vec<(u16, Vec<u8>)> = (0..states)
        .map(|_| {
            let mask = random.below(4) as u16;
            let targets = actions.iter().map(|_| anywhere(random, states));
            (mask, targets.collect())
        })
        .collect();
    tower_file(2, 0, &actions, &states)
}

/// A line or a ring of states, numbered in any order. The last one differs from the others by its mark and
/// in half of the towers also by an action that it lacks; some state has the other mark.
fn line(random: &mut Random, states: usize) -> Vec<u8> {
    let actions = actions(random);
    let mut order: Vec<usize> = (0..states).collect();
    for place in 1..states {
        order.swap(place, random.below(place + 1));
    }
    let last = states - 1;
    let behind_last = [0, last][random.below(2)];
    let ways: Vec<usize> = actions.iter().map(|_| random.below(6)).collect();
    let on = random.below(actions.len());
    let lacking = random.below(2 * actions.len());
    let marked = random.below(states);
    let mut laid = vec![(0, Vec::new()); states];
    for place in 0..states {
        let next = if place == last {
            behind_last
        } else {
            place + 1
        };
        let target = |action: usize| {
            let target = match ways[action] {
                _ if action == on => next,
                0 | 1 => next,
                2 => place.saturating_sub(1),
                3 => place,
                4 => 0,
                _ => random.below(states),
            };
            if place == last && action == lacking {
                NOT_ENABLED as u8
            } else {
                order[target] as u8
            }
        };
        let targets = (0..actions.len()).map(target).collect();
        let mask = u16::from(place == marked) | u16::from(place == last) << 1;
        laid[order[place]] = (mask, targets);
    }
    tower_file(2, order[random.below(states)] as u8, &actions, &laid)
}

/// A tower of which most states have no mark, and all targets are at random.
fn alike(random: &mut Random, states: usize) -> Vec<u8> {
    let actions = actions(random);
    let laid: Vec<(u16, Vec<u8>)> = (0..states)
        .map(|_| {
            let mask = [0, 0, 0, 0, 0, 0, 1, 2][random.below(8)];
            let targets = actions.iter().map(|_| anywhere(random, states));
            (mask, targets.collect())
        })
        .collect();
    tower_file(2, random.below(states) as u8, &actions, &laid)
}

/// A book that leaves something pending up to so many ticks.
fn book(random: &mut Random, most: usize) -> Vec<u8> {
    if random.once_in(20) {
        return Vec::new();
    }
    let mut book = vec![timed(random, most)];
    if random.once_in(3) {
        book.push(timed(random, 4));
    }
    let book: Vec<&str> = book.iter().map(String::as_str).collect();
    lines(&book)
}

/// A line with a bound of at most so many ticks, under which what may come depends on the time.
fn timed(random: &mut Random, most: usize) -> String {
    let bound = 1 + random.below(most);
    let length = 1 + random.below(4);
    let [mark, other] = [["p0", "p1"], ["p1", "p0"]][random.below(2)];
    let compared = random.pick(&["<=", ">="]);
    match random.below(10) {
        0 => format!("start A {bound} !{mark}"),
        1 => format!("start A {bound} N {compared} {length} T"),
        2 => format!("start A {bound} A {length} !{mark}"),
        3 => format!("start E {bound} {mark}"),
        4 => format!("start U {bound} (N {compared} {length} T, {mark})"),
        5 => format!("start A {bound} !{mark} | E {bound} {other}"),
        6 => format!("always !{mark} | A {bound} N {compared} {length} T"),
        7 => format!("always !{mark} | A {bound} !{other}"),
        _ => format!("always !{mark} | E {bound} {other}"),
    }
}
