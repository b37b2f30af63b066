//! Towers, books, tables and logs of stated sizes, the same in every run.

use crate::plain::check::Checker;
use crate::plain::make::{Maker, Size};
use crate::plain::table::{COUNT, FIRST, HEADER, MOST_BYTES, ROW, STEP};
use crate::vectors;

/// The most bytes of a book.
const MOST_BOOK: usize = 4_096;

const NOT_ENABLED: u8 = 255;

/// Numbers by xorshift.
struct Random(u64);

impl Random {
    /// Numbers that depend on all of the seed, which is not 0.
    fn new(seed: u64) -> Self {
        let mut random = Random(seed.wrapping_mul(0x9E37_79B9_7F4A_7C15));
        for _ in 0..8 {
            random.below(1);
        }
        random
    }

    fn below(&mut self, limit: usize) -> usize {
        self.0 ^= self.0 << 13;
        self.0 ^= self.0 >> 7;
        self.0 ^= self.0 << 17;
        (self.0 >> 32) as usize % limit
    }

    fn once_in(&mut self, times: usize) -> bool {
        self.below(times) == 0
    }
}

/// A tower file whose start is state 0: actions as length and kind, states as mask and targets.
fn tower_file(marks: u8, actions: &[[u8; 2]], states: &[(u16, Vec<u8>)]) -> Vec<u8> {
    let states_at = 8 + 2 * actions.len() as u8;
    let mut file = vec![states.len() as u8, actions.len() as u8, marks, 0];
    file.extend([8, 0, states_at, 0]);
    file.extend(actions.concat());
    for (mask, targets) in states {
        file.extend(mask.to_le_bytes());
        file.extend(targets);
    }
    file
}

/// The stages of a round, each with a mark of its own.
const STAGES: usize = 8;

/// A tower of rounds: every action leads from a stage to the next, to one of its states at random.
/// An action takes 2 or 3 ticks; the first is the player's; one in eight is not enabled. Where there
/// are `clashes`, a step can break a rule by the state that it leads to.
fn round_tower(states: usize, seed: u64, clashes: bool) -> Vec<u8> {
    let mut random = Random::new(seed);
    let actions: Vec<[u8; 2]> = (0..16)
        .map(|action| {
            [
                2 + u8::from(action >= 2 && action % 2 == 1),
                u8::from(action > 0),
            ]
        })
        .collect();
    let state = |x: usize| {
        let mut mask = 1 << (x % STAGES);
        for mark in STAGES..STAGES + 3 {
            mask |= u16::from(random.once_in(4)) << mark;
        }
        match random.below(6) {
            0 => mask |= 1 << 11,
            1 if clashes => mask |= 1 << 12,
            _ => {}
        }
        let target = |_| {
            if random.once_in(8) {
                return NOT_ENABLED;
            }
            ((x + 1 + STAGES * random.below(states / STAGES)) % states) as u8
        };
        (mask, (0..16).map(target).collect())
    };
    let states: Vec<(u16, Vec<u8>)> = (0..states).map(state).collect();
    tower_file(16, &actions, &states)
}

/// A book of 60 nodes for towers of rounds. Up to five of them are pending at one time.
pub const ROUND_BOOK: &str = "\
always !p0 | E 8 p3
always !p1 | E 8 p4
always !p2 | E 5 (p4 | p5)
always !p3 | U 8 (!p1, p6)
always !p4 | A 4 (!p8 | !p0)
always !p5 | (A 3 !p2 & E 5 p7)
always !p6 | N <= 3 N <= 3 !p4
always !p7 | A 3 (!p9 | N <= 2 N <= 3 T)
always !p10 | A 3 T
always !p11 | A 2 !p12
start E 9 p3
";

/// A tower and a book.
pub struct Ruled {
    pub tower: Vec<u8>,
    pub book: Vec<u8>,
    pub size: Size,
    /// The table that they make.
    pub table: Vec<u8>,
    /// How many rows with what is pending the checker meets in it.
    pub items: usize,
}

impl Ruled {
    /// Where a table can be made of them.
    fn of(tower: Vec<u8>, book: Vec<u8>) -> Option<Self> {
        let mut table = vec![0; MOST_BYTES];
        let mut maker = Maker::new();
        let length = maker.make(&tower, &book, &mut table).ok()?;
        table.truncate(length);
        let mut checker = Checker::new();
        checker.check(&tower, &book, &table).ok()?;
        Some(Ruled {
            size: maker.size(&tower).ok()?,
            items: checker.met(),
            tower,
            book,
            table,
        })
    }

    pub fn states(&self) -> usize {
        usize::from(self.tower[0])
    }
}

/// How many seeds are tried before a search fails.
const MOST_SEEDS: u64 = 2_000;

/// The first tower of rounds about as large as `wanted`, by a search over the seeds from `from` on,
/// that is `right`.
fn search(wanted: usize, clashes: bool, from: u64, right: impl Fn(&Ruled) -> bool) -> Ruled {
    for seed in from..from + MOST_SEEDS {
        for states in (wanted / 16..=wanted / 10).filter(|states| states % STAGES == 0) {
            let tower = round_tower(states, seed, clashes);
            let ruled = Ruled::of(tower, ROUND_BOOK.into());
            if let Some(ruled) = ruled.filter(&right) {
                return ruled;
            }
        }
    }
    panic!("no seed gives a tower of size {wanted}")
}

/// A seed to begin the search with, so that it is short.
fn first_seed(seeds: [(usize, u64); 3], count: usize) -> u64 {
    let seed = seeds.into_iter().find(|(size, _)| *size == count);
    seed.map_or(1, |(_, seed)| seed)
}

/// A tower and a book with so many rows with what is pending, for the checker.
pub fn with_items(count: usize) -> Ruled {
    let from = first_seed([(250, 46), (500, 34), (1_000, 4)], count);
    search(count, false, from, |ruled| ruled.items == count)
}

/// Whether the same table is made where the player is sure to come: then none of it hangs on pairs that
/// wait for the player alone, and a library that kept those makes it, too.
fn never_waits(ruled: &Ruled) -> bool {
    let mut tower = ruled.tower.clone();
    for kind in tower[8..8 + 2 * 16].iter_mut().skip(1).step_by(2) {
        if *kind == 0 {
            *kind = 2;
        }
    }
    let sure = Ruled::of(tower, ruled.book.clone());
    sure.is_some_and(|sure| sure.table == ruled.table)
}

/// A tower and a book with so many pairs, for the maker. From a tenth to a quarter are removed.
pub fn with_pairs(count: usize) -> Ruled {
    let from = first_seed([(250, 671), (500, 103), (1_000, 1_647)], count);
    let kept = count - count / 4..=count - count / 10;
    search(count, true, from, |ruled| {
        ruled.size.pairs == count && kept.contains(&ruled.size.kept) && never_waits(ruled)
    })
}

/// A book of 60 nodes for towers of rounds, in which six `|` have two timed sides. The first line says:
/// strike the third again within 4, or lift the damper within 6.
pub const EITHER_BOOK: &str = "\
always !p1 | (E 4 p3 | E 6 p8)
always !p2 | (E 8 p6 | E 9 p9 | A 6 !p10)
always !p3 | U 8 (!p1, p6)
always !p4 | (E 6 p7 | E 8 p8)
always !p5 | (E 6 p0 | A 6 !p9)
always !p7 | N <= 3 (E 4 p2 | E 6 p10)
always !p11 | A 2 !p12
start E 9 p3
";

/// A tower of rounds for it, and the table that they make.
pub struct Either {
    pub tower: Vec<u8>,
    pub table: Vec<u8>,
    /// How many pairs the maker meets, and how many alternatives they have.
    pub made: [usize; 2],
    /// How many rows with what is pending the checker meets in the table, and their alternatives.
    pub checked: [usize; 2],
}

/// A tower of 24 states. The maker meets 380 pairs with 994 alternatives: 66 pairs have one, 152 two, 66
/// three, 78 four, 15 six and 3 eight. The table has 45 rows and 472 steps; in it the checker meets 270
/// rows with what is pending, with 725 alternatives.
pub fn either() -> Either {
    let tower = round_tower(24, 45, true);
    let book = EITHER_BOOK.as_bytes();
    let mut table = vec![0; MOST_BYTES];
    let mut maker = Maker::new();
    let made = maker.make(&tower, book, &mut table);
    table.truncate(made.expect("a table"));
    let mut checker = Checker::new();
    let checked = checker.check(&tower, book, &table);
    checked.expect("a good table");
    Either {
        made: maker.met_sets(),
        checked: checker.met_sets(),
        tower,
        table,
    }
}

/// A tower, a book and a table that allows a broken run.
pub struct Broken {
    pub tower: Vec<u8>,
    pub book: Vec<u8>,
    pub table: Vec<u8>,
}

/// A tower whose states every action goes round, with marks 1 to 8 in turn, and mark 0 on the last one.
fn ring_tower(states: usize, actions: &[[u8; 2]]) -> Vec<u8> {
    let state = |x: usize| {
        let mask = u16::from(x + 1 == states) | 2 << (x % STAGES);
        (mask, vec![((x + 1) % states) as u8; actions.len()])
    };
    let states: Vec<(u16, Vec<u8>)> = (0..states).map(state).collect();
    tower_file(10, actions, &states)
}

/// Lines of 42 nodes that are never broken on such a ring by steps of one tick. Up to four nodes are
/// pending at one time.
const RING_LINES: &str = "\
always !p1 | E 8 p4
always !p2 | E 8 p5
always !p3 | E 5 (p5 | p6)
always !p4 | U 8 (!p2, p7)
always !p5 | A 4 (!p9 | !p1)
always !p6 | (A 3 !p3 & E 5 p8)
always !p7 | N <= 3 N <= 3 N <= 3 !p3
";

/// A ring of 200 states with one action, and its table. The last line of the book hands its promise on from
/// lap to lap, so that each row is met with five nodes pending in turn, and breaks it at the end of the
/// fifth lap.
pub fn laps() -> Broken {
    let states = 200;
    let lap = "A 199 (!p0 | N > 0 ".repeat(4);
    let rows: Vec<Row> = (0..states)
        .map(|row| (row, vec![(0, (row + 1) % states)]))
        .collect();
    Broken {
        tower: ring_tower(states, &[[1, 1]]),
        book: format!("{RING_LINES}start {lap}A 199 !p0))))\n").into(),
        table: rows_file(states, 1, &rows),
    }
}

/// A ring of 40 states, and a table of 1,000 rows that go round it 25 times. Actions 0 to 13 lead from a
/// row to the laps before, as far as the second; action 14 leads on; and the last row allows action 15
/// in its place, which takes two ticks and breaks the last line.
pub fn ways_back() -> Broken {
    let (states, rows) = (40, 1_000);
    let mut actions = [[1, 1]; 16];
    actions[15][0] = 2;
    let row = |row: usize| {
        let back = |action: usize| {
            let target = (row + 1).checked_sub(states * (action + 1))?;
            (target >= states).then_some((action, target))
        };
        let on = match row + 1 == rows {
            true => (15, rows - states),
            false => (14, row + 1),
        };
        (row % states, (0..14).filter_map(back).chain([on]).collect())
    };
    let rows: Vec<Row> = (0..rows).map(row).collect();
    let others = "\
always !p8 | E 9 (p2 & !p3)
always !p2 | U 6 (!p1 | !p8, p6)
always A 30 N <= 1 N > 0 T
";
    Broken {
        tower: ring_tower(states, &actions),
        book: format!("{RING_LINES}{others}").into(),
        table: rows_file(states, 16, &rows),
    }
}

/// One state, and a table of 1,000 rows in turn that allow an action of one tick, but for the last, which
/// allows one of two. The book says in 58 promises, one in the other, that no action takes two ticks: all of
/// them are pending at one time.
pub fn nested() -> Broken {
    let rows = 1_000;
    let row = |row: usize| {
        let action = usize::from(row + 1 == rows);
        (0, vec![(action, (row + 1) % rows)])
    };
    let rows: Vec<Row> = (0..rows).map(row).collect();
    Broken {
        tower: tower_file(0, &[[1, 1], [2, 1]], &[(0, vec![0; 2])]),
        book: format!("always {}N <= 1 T\n", "A 254 ".repeat(58)).into(),
        table: rows_file(1, 2, &rows),
    }
}

/// The tower of the vectors whose 500 rows only time tells apart.
pub fn chain() -> Ruled {
    let mut lines = vectors::lines("make.txt").into_iter();
    let ruled = lines.find_map(|line| {
        let [tower, book, _] = &line.inputs[..] else {
            return None;
        };
        // The counts stand first: 500 rows, and 2 states.
        let found = line.answer.starts_with("made f401") && tower.starts_with("02");
        found.then(|| Ruled::of(vectors::bytes(tower), vectors::bytes(book)))?
    });
    ruled.expect("a vector with 500 rows of 2 states")
}

/// A tower and a book most of whose pairs are removed one after the other, each of them only after
/// the one with a tick less left.
///
/// A segment is a ring of states that the last action goes round, a tick each. Mark 1 has to come
/// within some ticks, and is not to be had there; but one state has a way out, to a state with mark 1
/// and on to the segment before, unless that is removed. Each segment is entered from the start by a
/// long and a short step.
struct Rings {
    segments: usize,
    states: usize,
    ticks: usize,
    /// The actions for long steps, and those for short ones.
    long: usize,
    short: usize,
    /// Entered are states so far apart. Those with fewer ticks left are met before those with more,
    /// and the states between them afterwards.
    apart: usize,
}

impl Rings {
    fn ruled(&self) -> Ruled {
        let &Rings { long, short, .. } = self;
        let length_of_long = |i: usize| 1 + self.apart * short * (long - 1 - i);
        let length_of_short = |i: usize| 1 + self.apart * (short - 1 - i);
        let lengths = (0..long).map(length_of_long);
        let lengths = lengths.chain((0..short).map(length_of_short));
        let actions: Vec<[u8; 2]> = lengths.map(|length| [length as u8, 1]).collect();
        let (way_out, round) = (long - 1, long + short - 1);

        // The states: the start, and for each segment its two entries, its ring and its way out.
        let size = 2 + self.states + 1;
        let first_entry = |segment: usize| 1 + size * segment;
        let second_entry = |segment: usize| first_entry(segment) + 1;
        let ring = |segment: usize, i: usize| second_entry(segment) + 1 + i % self.states;
        let outside = |segment: usize| ring(segment, 0) + self.states;
        let mut states = vec![(0, vec![NOT_ENABLED; actions.len()]); 1 + size * self.segments];
        let mut lead = |from: usize, action: usize, to: usize| states[from].1[action] = to as u8;
        lead(0, round, 0);
        for segment in 0..self.segments {
            lead(0, segment, first_entry(segment));
            for i in 0..long {
                lead(first_entry(segment), i, second_entry(segment));
            }
            for i in 0..short {
                let entered = ring(segment, self.apart * (i + 1) - 1);
                lead(second_entry(segment), long + i, entered);
            }
            for i in 0..self.states {
                lead(ring(segment, i + 1), round, ring(segment, i));
            }
            if segment > 0 {
                lead(ring(segment, 1), way_out, outside(segment));
                lead(outside(segment), round, ring(segment - 1, 1));
            }
        }
        states[0].0 = 2;
        for segment in 0..self.segments {
            states[outside(segment)].0 = 2;
        }
        let tower = tower_file(2, &actions, &states);
        let book = format!("always E {} p1\n", self.ticks);
        Ruled::of(tower, book.into()).expect("the start alone makes a table")
    }
}

/// Rings in which nearly every pair is removed only after one that was met before it.
pub fn removed_upwards() -> Ruled {
    let rings = Rings {
        segments: 12,
        states: 8,
        ticks: 65,
        long: 8,
        short: 8,
        apart: 1,
    };
    rings.ruled()
}

/// Rings in which a pair is removed only after one that was met before it, and the next only after
/// one that was met later, in turn.
pub fn removed_to_and_fro() -> Ruled {
    let rings = Rings {
        segments: 7,
        states: 12,
        ticks: 121,
        long: 10,
        short: 6,
        apart: 2,
    };
    rings.ruled()
}

/// The book of rounds with so many spaces between its tokens that it has 4,096 bytes.
pub fn spaced_book() -> Vec<u8> {
    fill(ROUND_BOOK)
}

/// A book of 60 nodes, each a line with 16 brackets open, with as many spaces.
pub fn bracketed_book() -> Vec<u8> {
    let line = |number: usize| {
        let mark = number % 16;
        format!("always {}p{mark}{}\n", "( ".repeat(16), ")".repeat(16))
    };
    fill(&(0..60).map(line).collect::<String>())
}

/// Repeats the spaces of a book in turn until it has 4,096 bytes.
fn fill(text: &str) -> Vec<u8> {
    let spaces = text.bytes().filter(|byte| *byte == b' ').count();
    let missing = MOST_BOOK - text.len();
    let mut book = Vec::new();
    let mut space = 0;
    for byte in text.bytes() {
        book.push(byte);
        if byte == b' ' {
            let more = missing / spaces + usize::from(space < missing % spaces);
            book.extend(std::iter::repeat_n(b' ', more));
            space += 1;
        }
    }
    book
}

/// The two-byte number at `at`.
fn two_bytes(bytes: &[u8], at: usize) -> usize {
    usize::from(u16::from_le_bytes([bytes[at], bytes[at + 1]]))
}

/// The rows and the steps of a table file.
pub fn table_counts(table: &[u8]) -> [usize; 2] {
    [0, 2].map(|at| two_bytes(table, at))
}

/// The small tower, and its table under book 1.
fn small() -> [Vec<u8>; 2] {
    let mut lines = vectors::lines("make.txt").into_iter();
    let line = lines.find(|line| line.answer.starts_with("made 05000600"));
    let line = line.expect("a vector with 5 rows and 6 steps");
    let table = line.answer.strip_prefix("made ").expect("a table");
    [&line.inputs[0], table].map(vectors::bytes)
}

/// The table of the small tower under its book 1.
pub fn small_table() -> Vec<u8> {
    let [_, table] = small();
    table
}

/// A row of a table: its state, and each action with its target row.
type Row = (usize, Vec<(usize, usize)>);

/// The table file of these rows, for so many states and actions.
fn rows_file(states: usize, actions: usize, rows: &[Row]) -> Vec<u8> {
    let steps = || rows.iter().flat_map(|(_, steps)| steps);
    let offset = HEADER + ROW * rows.len();
    let mut file = Vec::new();
    for number in [rows.len(), steps().count(), HEADER, offset, states, actions] {
        file.extend((number as u16).to_le_bytes());
    }
    let mut first = 0;
    for (state, steps) in rows {
        let mut bytes = [0; ROW];
        bytes[0] = *state as u8;
        bytes[COUNT] = steps.len() as u8;
        bytes[FIRST..].copy_from_slice(&(first as u16).to_le_bytes());
        file.extend(bytes);
        first += steps.len();
    }
    for (action, target) in steps() {
        file.push(*action as u8);
        file.extend((*target as u16).to_le_bytes());
    }
    file
}

/// A table of 1,000 rows for 200 states and 16 actions, with so many steps in each row.
pub fn table_file(steps_of_row: usize) -> Vec<u8> {
    let rows = 1_000;
    let mut random = Random::new(1);
    let row = |row: usize| {
        let step = |action: usize| (action, random.below(rows));
        (row % 200, (0..steps_of_row).map(step).collect())
    };
    let rows: Vec<Row> = (0..rows).map(row).collect();
    rows_file(200, 16, &rows)
}

/// One of the steps of a row: its action, and the row that it leads to.
fn some_step(table: &[u8], row: usize, random: &mut Random) -> [usize; 2] {
    let at = HEADER + ROW * row;
    let count = usize::from(table[at + COUNT]);
    let step = two_bytes(table, at + FIRST) + random.below(count);
    let at = two_bytes(table, 6) + STEP * step;
    [usize::from(table[at]), two_bytes(table, at + 1)]
}

/// Actions that a table allows one after the other from row 0 on.
pub fn walk(table: &[u8], length: usize) -> Vec<usize> {
    let mut random = Random::new(2);
    let mut row = 0;
    let step = |_| {
        let [action, target] = some_step(table, row, &mut random);
        row = target;
        action
    };
    (0..length).map(step).collect()
}

/// A tower, a table for it, and a log.
pub struct Logged {
    pub tower: Vec<u8>,
    pub table: Vec<u8>,
    pub log: Vec<u8>,
}

impl Logged {
    fn with_no_log(tower: Vec<u8>, table: Vec<u8>) -> Self {
        let log = Vec::new();
        Logged { tower, table, log }
    }

    /// The small tower.
    pub fn small() -> Self {
        let [tower, table] = small();
        Logged::with_no_log(tower, table)
    }

    /// The rounds with 1,000 rows with what is pending.
    pub fn rounds() -> Self {
        let Ruled { tower, table, .. } = with_items(1_000);
        Logged::with_no_log(tower, table)
    }

    /// A tower of 200 states and 16 actions of 1 to 255 ticks that are all enabled, and a table of 1,000
    /// rows with 16 steps each: five rows have the same state.
    pub fn largest() -> Self {
        let states = 200;
        let mut random = Random::new(4);
        let actions: Vec<[u8; 2]> = (0..16).map(|_| [1 + random.below(255) as u8, 1]).collect();
        let mut table = table_file(16);
        let targets = |state: usize| {
            let target = |_| random.below(states) as u8;
            (state as u16, (0..16).map(target).collect::<Vec<u8>>())
        };
        let states: Vec<(u16, Vec<u8>)> = (0..states).map(targets).collect();
        let [rows, _] = table_counts(&table);
        let steps_at = two_bytes(&table, 6);
        for (step, bytes) in table[steps_at..].chunks_exact_mut(STEP).enumerate() {
            let (row, action) = (step / 16, step % 16);
            let state = usize::from(states[row % states.len()].1[action]);
            let target = state + states.len() * random.below(rows / states.len());
            bytes[1..].copy_from_slice(&(target as u16).to_le_bytes());
        }
        Logged::with_no_log(tower_file(16, &actions, &states), table)
    }

    /// With a log of so many bytes at the most: lines that fit, from this tick on.
    pub fn with_log(mut self, mut tick: usize, bytes: usize) -> Self {
        let mut random = Random::new(3);
        let mut row = 0;
        self.log.reserve(bytes);
        loop {
            let [action, target] = some_step(&self.table, row, &mut random);
            let line = format!("{tick} {action}\n");
            if self.log.len() + line.len() > bytes {
                return self;
            }
            self.log.extend(line.bytes());
            tick += usize::from(self.tower[8 + 2 * action]);
            row = target;
        }
    }

    /// With an action that no table has in this line.
    pub fn wrong_in(mut self, line: usize) -> Self {
        let mut lines = self.log.split_inclusive(|byte| *byte == b'\n');
        let before: usize = lines.by_ref().take(line).map(<[u8]>::len).sum();
        let line = lines.next().expect("a line");
        let end = before + line.len() - 1;
        let space = line.iter().position(|byte| *byte == b' ');
        let action = before + space.expect("a space") + 1;
        self.log.splice(action..end, *b"99");
        self
    }

    pub fn lines(&self) -> usize {
        self.log.iter().filter(|byte| **byte == b'\n').count()
    }
}
