//! What the tests share: the small tower, the ring, and random towers, books and tables.
#![allow(dead_code)]

use reference::book::{self, Book};
use reference::table::{Row, Step, Table};
use reference::tower::{self, Tower, NOT_ENABLED};

pub const SMALL_TOWER: [u8; 34] = [
    0x03, 0x04, 0x03, 0x00, 0x08, 0x00, 0x10, 0x00, // header
    0x01, 0x01, 0x01, 0x02, 0x01, 0x01, 0x01, 0x02, // actions
    0x01, 0x00, 0x01, 0xFF, 0x02, 0xFF, // state 0
    0x02, 0x00, 0xFF, 0x00, 0xFF, 0xFF, // state 1
    0x04, 0x00, 0xFF, 0xFF, 0xFF, 0x00, // state 2
];

/// The book of these lines.
pub fn lines(lines: &[&str]) -> Vec<u8> {
    let ended = lines.iter().map(|line| format!("{line}\n"));
    ended.collect::<String>().into_bytes()
}

/// A tower file with marks below `marks`: actions as length and kind, states as mask and targets.
pub fn tower_file(marks: u8, start: u8, actions: &[[u8; 2]], states: &[(u16, Vec<u8>)]) -> Vec<u8> {
    let mut file = vec![states.len() as u8, actions.len() as u8, marks, start];
    for offset in [tower::HEADER, tower::states_at(actions.len())] {
        file.extend((offset as u16).to_le_bytes());
    }
    file.extend(actions.concat());
    for (mask, targets) in states {
        file.extend(mask.to_le_bytes());
        file.extend(targets);
    }
    file
}

/// The table of the small tower under book 1, as the paper lists it.
pub fn small_table() -> Table {
    let rows: [(usize, &[(usize, usize)]); 5] = [
        (0, &[(0, 1), (2, 2)]),
        (1, &[(1, 3)]),
        (2, &[(3, 4)]),
        (0, &[(2, 2)]),
        (0, &[(0, 1)]),
    ];
    Table::of_rows(3, 4, &rows)
}

/// A table for the small tower of one row, which has no step.
pub fn stopped_table() -> Table {
    Table::of_rows(3, 4, &[(0, &[])])
}

/// A ring of 200 states with one action of length 1.
pub fn ring() -> Vec<u8> {
    let states: Vec<(u16, Vec<u8>)> = (0..200u8).map(|s| (0, vec![(s + 1) % 200])).collect();
    tower_file(0, 0, &[[1, 1]], &states)
}

/// Numbers by xorshift, the same in every run.
pub struct Random(u64);

impl Random {
    pub fn new(seed: u64) -> Self {
        Random(seed)
    }

    /// A number below `limit`.
    pub fn below(&mut self, limit: usize) -> usize {
        self.0 ^= self.0 << 13;
        self.0 ^= self.0 >> 7;
        self.0 ^= self.0 << 17;
        (self.0 >> 32) as usize % limit
    }

    /// True once in `times`.
    pub fn once_in(&mut self, times: usize) -> bool {
        self.below(times) == 0
    }

    pub fn pick<'a>(&mut self, choices: &[&'a str]) -> &'a str {
        choices[self.below(choices.len())]
    }
}

/// The number of a kind; most actions are ours.
pub fn kind(random: &mut Random) -> u8 {
    [0, 1, 1, 1, 1, 2][random.below(6)]
}

/// A small tower with at most `most_actions` actions.
pub fn random_tower(random: &mut Random, most_actions: usize) -> (Vec<u8>, Tower) {
    let states = 1 + random.below(5);
    let marks = random.below(4);
    let actions: Vec<[u8; 2]> = (0..1 + random.below(most_actions))
        .map(|_| [1 + random.below(4) as u8, kind(random)])
        .collect();
    let states: Vec<(u16, Vec<u8>)> = (0..states)
        .map(|_| {
            let mask = random.below(1 << marks) as u16;
            let target = |_| {
                if random.once_in(4) {
                    NOT_ENABLED as u8
                } else {
                    random.below(states) as u8
                }
            };
            (mask, actions.iter().map(target).collect())
        })
        .collect();
    let start = random.below(states.len()) as u8;
    let file = tower_file(marks as u8, start, &actions, &states);
    let tower = tower::parse(&file).expect("a tower that is fit to use");
    (file, tower)
}

/// A book of up to three lines over these marks.
pub fn random_book(random: &mut Random, marks: usize) -> (Vec<u8>, Book) {
    loop {
        let mut text = String::new();
        for _ in 0..random.below(4) {
            let depth = 1 + random.below(3);
            let line = if random.once_in(3) {
                promise(random, marks)
            } else {
                random.pick(&["always ", "start "]).to_string()
                    + &formula(random, marks, depth, true)
            };
            text += line.trim_end();
            text += "\n";
        }
        match book::read(marks, text.as_bytes()) {
            Ok(book) => return (text.into_bytes(), book),
            Err(refusal) => assert_eq!(refusal.number, 9, "{text}"),
        }
    }
}

/// A book of up to four lines over these marks, in which more than one side of `|` may be timed.
pub fn either_book(random: &mut Random, marks: usize) -> (Vec<u8>, Book) {
    loop {
        let mut text = String::new();
        for _ in 0..1 + random.below(4) {
            text += random.pick(&["always ", "start "]);
            let line = if random.once_in(3) {
                crowd(random, marks)
            } else {
                let depth = random.below(3);
                either(random, marks, depth)
            };
            text += line.trim_end();
            text += "\n";
        }
        match book::read(marks, text.as_bytes()) {
            Ok(book) => return (text.into_bytes(), book),
            Err(refusal) => assert_eq!(refusal.number, 9, "{text}"),
        }
    }
}

/// Up to seven sides, of which most leave something pending.
fn crowd(random: &mut Random, marks: usize) -> String {
    let sides = 2 + random.below(6);
    let side = |_| {
        let lead = random.pick(&["A", "A", "E", "N <="]);
        let bound = 4 + random.below(6);
        let last = match (lead, random.below(4)) {
            (_, 0) => atom(random, marks),
            ("E", _) => "F".to_string(),
            _ => "T".to_string(),
        };
        format!("{lead} {bound} {last}")
    };
    let sides: Vec<String> = (0..sides).map(side).collect();
    sides.join("| ")
}

/// Some sides, of which any may be timed, mostly with `|` between them.
fn either(random: &mut Random, marks: usize, depth: usize) -> String {
    let joint = random.pick(&["| ", "| ", "| ", "| ", "& "]);
    let sides = 2 + random.below(4) / 2;
    let sides: Vec<String> = (0..sides).map(|_| side(random, marks, depth)).collect();
    sides.join(joint)
}

fn side(random: &mut Random, marks: usize, depth: usize) -> String {
    let kind = random.below(if depth == 0 { 6 } else { 11 });
    let bound = random.below(9);
    let last = atom(random, marks);
    match kind {
        0 => last,
        1 => format!("N > {bound} {last}"),
        2 | 3 => format!("A {bound} {last}"),
        4 | 5 => format!("E {bound} {last}"),
        _ => {
            let inside = either(random, marks, depth - 1);
            match kind {
                6 | 7 => format!("N <= {bound} ({inside})"),
                8 | 9 => format!("A {bound} ({inside})"),
                _ => format!("U {bound} ({inside}, {last})"),
            }
        }
    }
}

/// A line that makes a promise again and again, so that its node comes up twice.
pub fn promise(random: &mut Random, marks: usize) -> String {
    let unless = atom(random, marks);
    let promised = atom(random, marks);
    let lead = random.pick(&["A", "E", "N > 1 A", "A 1 E"]);
    let bound = 1 + random.below(6);
    format!("always {unless}| {lead} {bound} {promised}")
}

/// A formula, which is timed only where it may be.
fn formula(random: &mut Random, marks: usize, depth: usize, timed: bool) -> String {
    let sides = 1 + random.below(3) / 2 + random.below(4) / 3;
    let timed_side = random.below(sides);
    let sides: Vec<String> = (0..sides)
        .map(|side| conjunction(random, marks, depth, timed && side == timed_side))
        .collect();
    sides.join(&token(random, "|"))
}

fn conjunction(random: &mut Random, marks: usize, depth: usize, timed: bool) -> String {
    let sides = 1 + random.below(4) / 3;
    let sides: Vec<String> = (0..sides)
        .map(|_| unit(random, marks, depth, timed))
        .collect();
    sides.join(&token(random, "&"))
}

fn unit(random: &mut Random, marks: usize, depth: usize, timed: bool) -> String {
    if depth == 0 || random.once_in(5) {
        return atom(random, marks);
    }
    let depth = depth - 1;
    let kind = if timed { random.below(9) } else { 8 };
    let lead = match kind {
        0 | 1 => {
            let comparison = random.pick(&["<=", "<", ">=", ">"]);
            let bound = random.below(5).to_string();
            token(random, "N") + &token(random, comparison) + &token(random, &bound)
        }
        2 | 3 => token(random, "A") + &number(random),
        4 | 5 => token(random, "E") + &number(random),
        6 | 7 => token(random, "U") + &number(random),
        _ => String::new(),
    };
    lead + &match kind {
        0..=3 => unit(random, marks, depth, true),
        4 | 5 => unit(random, marks, depth, false),
        6 | 7 => {
            let first = formula(random, marks, depth, true);
            let second = formula(random, marks, depth, false);
            token(random, "(") + &first + &token(random, ",") + &second + &token(random, ")")
        }
        _ => token(random, "(") + &formula(random, marks, depth, timed) + &token(random, ")"),
    }
}

/// A constant, or more often a mark.
fn atom(random: &mut Random, marks: usize) -> String {
    if marks == 0 || random.once_in(4) {
        let constant = random.pick(&["T", "T", "F"]);
        return token(random, constant);
    }
    let mark = format!("{}p{}", random.pick(&["", "!"]), random.below(marks));
    token(random, &mark)
}

/// A bound, or nothing where it is left out.
fn number(random: &mut Random) -> String {
    if random.once_in(8) {
        return String::new();
    }
    let bound = random.below(9).to_string();
    token(random, &bound)
}

/// A token with or without a space after it.
fn token(random: &mut Random, token: &str) -> String {
    token.to_string() + random.pick(&["", " "])
}

/// A table whose steps lead to rows of the right state, mostly.
pub fn random_table(random: &mut Random, tower: &Tower) -> Table {
    let mut states = vec![tower.start];
    states.extend((0..random.below(5)).map(|_| random.below(tower.states.len())));
    let row = |&state: &usize| {
        let mut steps = Vec::new();
        for (action, reached) in tower.states[state].targets.iter().enumerate() {
            let fits = |row: &usize| Some(states[*row]) == *reached || random.once_in(60);
            let targets: Vec<usize> = (0..states.len()).filter(fits).collect();
            let times = if tower.kind(action).controllable() {
                3
            } else {
                30
            };
            let withheld = random.once_in(times);
            if !targets.is_empty() && !withheld {
                let target = targets[random.below(targets.len())];
                steps.push(Step { action, target });
            }
        }
        Row { state, steps }
    };
    Table {
        states: tower.states.len(),
        actions: tower.actions.len(),
        rows: states.iter().map(row).collect(),
    }
}
