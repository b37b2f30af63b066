//! Table files at random.

use crate::common::{self, Random};
use crate::edits;
use crate::ruled::{self, Ruled};
use reference::judge::Reason;
use reference::table::{Row, Step, Table, HEADER};
use reference::tower::Tower;
use reference::{check, make};

/// A table file: laid out in about half of the cases, else nearly so or noise.
pub fn any(random: &mut Random) -> Vec<u8> {
    match random.below(20) {
        0 => edits::noise(random),
        1 => past_limits(random),
        2..=8 => {
            let mut file = laid_out(random);
            edits::edit(random, &mut file, HEADER);
            file
        }
        _ => laid_out(random),
    }
}

/// A laid out table: made from a tower and a book, or of any rows and steps.
pub fn laid_out(random: &mut Random) -> Vec<u8> {
    if random.once_in(4) {
        let (_, tower) = common::random_tower(random, 4);
        let (_, book) = common::random_book(random, tower.marks);
        if let Ok(table) = make::make_table(&tower, &book) {
            return table.encode();
        }
    }
    let most_rows = match random.below(1000) {
        0 => 1000,
        1..=20 => 60,
        _ => 6,
    };
    let most_actions = if random.once_in(10) { 16 } else { 5 };
    let rows = 1 + random.below(most_rows);
    let states = 1 + random.below(200);
    let actions = 1 + random.below(most_actions);
    sized(random, rows, states, actions)
}

/// A table with one count at or past a limit, and all else as it should be.
fn past_limits(random: &mut Random) -> Vec<u8> {
    let past = random.below(3);
    match random.below(12) {
        0 => sized(random, 1000 + past, 3, 1),
        1 => sized(random, 0, 3, 1),
        2 => sized(random, 3, 5, 0),
        3..=7 => sized(random, 3, 200 + past, 2),
        _ => sized(random, 3, 5, 16 + past),
    }
}

/// A table of these counts, at most 256 states and 255 actions.
fn sized(random: &mut Random, rows: usize, states: usize, actions: usize) -> Vec<u8> {
    let table = Table {
        states,
        actions,
        rows: (0..rows)
            .map(|_| Row {
                state: random.below(states),
                steps: steps(random, rows, actions),
            })
            .collect(),
    };
    table.encode()
}

/// Steps for about half of the actions.
fn steps(random: &mut Random, rows: usize, actions: usize) -> Vec<Step> {
    let mut steps = Vec::new();
    for action in 0..actions {
        if random.once_in(2) {
            let target = random.below(rows);
            steps.push(Step { action, target });
        }
    }
    steps
}

/// A tower with a book, and a table to be judged: about half are good.
pub fn to_judge(random: &mut Random) -> (Ruled, Vec<u8>) {
    match random.below(100) {
        0 => on_a_ring(random),
        1 | 2 => {
            let ruled = ruled::slow(random);
            let table = made(&ruled).or_else(|| made(&ruled.with_book(Vec::new())));
            let table = table.unwrap_or_else(|| common::random_table(random, &ruled.tower));
            (ruled, table.encode())
        }
        3..=8 => {
            let ruled = ruled::either(random);
            let table = made(&ruled.with_book(Vec::new()));
            let table = table.unwrap_or_else(|| common::random_table(random, &ruled.tower));
            (ruled, table.encode())
        }
        9..=20 => {
            let ruled = demanding(random, ruled::either);
            let table = for_ruled(random, &ruled);
            (ruled, table)
        }
        _ => {
            let ruled = demanding(random, ruled::any);
            let table = for_ruled(random, &ruled);
            (ruled, table)
        }
    }
}

/// A tower with a book, and a table to be explained: about half of them allow a broken run.
pub fn to_explain(random: &mut Random) -> (Ruled, Vec<u8>) {
    match random.below(100) {
        0..=2 => with_a_long_run(random),
        3..=12 => to_judge(random),
        share => {
            let any = if share < 50 {
                ruled::either
            } else {
                ruled::any
            };
            let (ruled, mut table) = mostly_broken(random, any);
            if random.once_in(2) {
                unroll(random, &mut table);
            }
            (ruled, table.encode())
        }
    }
}

/// A tower with a book, and a table that does not know the book; in two of three tried again, a few times,
/// until an allowed run is broken.
fn mostly_broken(random: &mut Random, any: fn(&mut Random) -> Ruled) -> (Ruled, Table) {
    let tries = if random.once_in(3) { 1 } else { 6 };
    let mut one = || {
        let ruled = any(random);
        let all = made(&ruled.with_book(Vec::new())).filter(|_| !random.once_in(4));
        let table = all.unwrap_or_else(|| common::random_table(random, &ruled.tower));
        (ruled, table)
    };
    for _ in 1..tries {
        let (ruled, table) = one();
        let answer = check::check_table(&ruled.tower, &ruled.book, &table);
        if answer == check::Answer::NotGood(Reason::Broken, 0) {
            return (ruled, table);
        }
    }
    one()
}

/// One state and up to 1,000 rows in turn, of which the last alone allows the action that breaks a rule.
fn with_a_long_run(random: &mut Random) -> (Ruled, Vec<u8>) {
    let rows = match random.below(4) {
        0 => 1_000,
        _ => 1 + random.below(1_000),
    };
    let row = |row: usize| {
        let action = usize::from(row + 1 == rows);
        let target = (row + 1) % rows;
        Row {
            state: 0,
            steps: vec![Step { action, target }],
        }
    };
    let table = Table {
        states: 1,
        actions: 2,
        rows: (0..rows).map(row).collect(),
    };
    (ruled::slow_to_break(random), table.encode())
}

/// A table for a tower and a book: made from them, nearly so, or another one.
fn for_ruled(random: &mut Random, ruled: &Ruled) -> Vec<u8> {
    let tower = &ruled.tower;
    let made = made(ruled);
    let mut table = match (random.below(16), made) {
        (0, _) => return any(random),
        (1 | 2, _) | (_, None) => common::random_table(random, tower),
        (3 | 4, Some(table)) => {
            let (text, _) = common::random_book(random, tower.marks);
            self::made(&ruled.with_book(text)).unwrap_or(table)
        }
        (5..=9, Some(mut table)) => {
            change(random, tower, &mut table);
            table
        }
        (_, Some(table)) => table,
    };
    if random.once_in(3) {
        unroll(random, &mut table);
    }
    let mut file = table.encode();
    if random.once_in(12) {
        edits::edit(random, &mut file, HEADER);
    }
    file
}

/// A tower with a book; in nine of ten tried again, a few times, until it has a table that is not
/// just the tower itself.
pub fn demanding(random: &mut Random, any: fn(&mut Random) -> Ruled) -> Ruled {
    let tries = if random.once_in(10) { 1 } else { 16 };
    let mut with_table = None;
    for _ in 1..tries {
        let ruled = any(random);
        if let Some(table) = made(&ruled) {
            if withholds(&ruled.tower, &table) || repeats(&table) {
                return ruled;
            }
            with_table = Some(ruled);
        }
    }
    with_table.unwrap_or_else(|| any(random))
}

/// Whether an action that is enabled in some row is not allowed there.
pub fn withholds(tower: &Tower, table: &Table) -> bool {
    table.rows.iter().any(|row| {
        let targets = &tower.states[row.state].targets;
        let enabled = targets.iter().filter(|target| target.is_some());
        row.steps.len() < enabled.count()
    })
}

/// Whether two rows have the same state.
pub fn repeats(table: &Table) -> bool {
    let mut states: Vec<usize> = table.rows.iter().map(|row| row.state).collect();
    states.sort();
    states.windows(2).any(|two| two[0] == two[1])
}

fn made(ruled: &Ruled) -> Option<Table> {
    make::make_table(&ruled.tower, &ruled.book).ok()
}

/// Changes one field, so that the table is still laid out.
fn change(random: &mut Random, tower: &Tower, table: &mut Table) {
    let rows = table.rows.len();
    let states: Vec<usize> = table.rows.iter().map(|row| row.state).collect();
    let at = random.below(rows);
    let row = &mut table.rows[at];
    let count = row.steps.len();
    match random.below(8) {
        0 => row.state = random.below(table.states),
        1 => table.rows[0].state = random.below(table.states),
        2 if count > 0 => row.steps[random.below(count)].target = random.below(rows),
        // Another row of the same state.
        3 if count > 0 => {
            let step = &mut row.steps[random.below(count)];
            let same = |other: &usize| states[*other] == states[step.target];
            let same: Vec<usize> = (0..rows).filter(same).collect();
            step.target = same[random.below(same.len())];
        }
        4 if count > 0 => {
            row.steps.remove(random.below(count));
        }
        5 if count > 0 => {
            let step = &mut row.steps[random.below(count)];
            step.action = random.below(table.actions);
            row.steps.sort_by_key(|step| step.action);
            row.steps.dedup_by_key(|step| step.action);
        }
        // An action that is enabled, mostly with a row of the state reached.
        6 => {
            let action = random.below(table.actions);
            let reached = tower.states[row.state].targets[action];
            let place = states.iter().position(|state| Some(*state) == reached);
            let target = place.unwrap_or(random.below(rows));
            row.steps.retain(|step| step.action != action);
            row.steps.push(Step { action, target });
            row.steps.sort_by_key(|step| step.action);
        }
        // A row that nothing leads to.
        _ => {
            let state = random.below(table.states);
            table.rows.push(Row {
                state,
                steps: Vec::new(),
            });
        }
    }
}

/// Adds a copy of a row, and leads a step there that led to the row. The same runs are allowed.
fn unroll(random: &mut Random, table: &mut Table) {
    let rows = table.rows.len();
    if rows == 1_000 {
        return;
    }
    let copied = random.below(rows);
    table.rows.push(table.rows[copied].clone());
    let steps = table.rows.iter_mut().flat_map(|row| &mut row.steps);
    let mut leading: Vec<&mut Step> = steps.filter(|step| step.target == copied).collect();
    if !leading.is_empty() {
        let at = random.below(leading.len());
        leading[at].target = rows;
    }
}

/// A ring, and rows that go round it a few times: about 1,000 rows with what is pending.
fn on_a_ring(random: &mut Random) -> (Ruled, Vec<u8>) {
    let states = 1 + random.below(200);
    let rows = states * (1 + random.below(1_000 / states));
    let ruled = ruled::ring(random, states, rows);
    (ruled, ring_table(states, rows, 0).encode())
}

/// A table for a ring, of rows that go round it and then on from the row `back`, which has to have
/// the state that is reached.
pub fn ring_table(states: usize, rows: usize, back: usize) -> Table {
    let step = |row: usize| Step {
        action: 0,
        target: if row + 1 == rows { back } else { row + 1 },
    };
    let row = |row: usize| Row {
        state: row % states,
        steps: vec![step(row)],
    };
    Table {
        states,
        actions: 1,
        rows: (0..rows).map(row).collect(),
    }
}
