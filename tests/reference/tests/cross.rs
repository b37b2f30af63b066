//! Random small towers and books, where two ways to the same answer are compared.

mod common;

use common::{
    either_book, lines, promise, random_book, random_table, random_tower, tower_file, Random,
};
use reference::alternatives::{self, Alternatives};
use reference::book::{self, Book, Node};
use reference::check::{check, check_table, Answer};
use reference::judge::Reason;
use reference::make::{make, make_table, pair_count};
use reference::pending::{self, Pending};
use reference::runs::Run;
use reference::table::{self, Table};
use reference::tower::{self, Tower};
use reference::why;
use std::collections::HashSet;

type AnyBook = fn(&mut Random, usize) -> (Vec<u8>, Book);

/// Books of which at most one side of `|` is timed, and a third as often books of which both may be.
const BOOKS: [(AnyBook, usize); 2] = [(random_book, 1), (either_book, 3)];

fn is_broken(tower: &Tower, book: &Book, run: &[usize]) -> bool {
    let run = Run::new(tower, run).expect("each action is enabled");
    run.is_broken(book)
}

fn enabled(tower: &Tower, state: usize) -> Vec<usize> {
    let targets = &tower.states[state].targets;
    (0..targets.len())
        .filter(|a| targets[*a].is_some())
        .collect()
}

/// The state that a run of enabled actions ends in.
fn reached(tower: &Tower, run: &[usize]) -> Option<usize> {
    let step = |state: usize, action: &usize| tower.states[state].targets[*action];
    run.iter().try_fold(tower.start, step)
}

/// Every run of at most `most` actions.
fn all_runs(tower: &Tower, most: usize) -> Vec<Vec<usize>> {
    let mut runs = vec![vec![]];
    let mut at = 0;
    while at < runs.len() {
        let run = runs[at].clone();
        at += 1;
        if run.len() < most {
            let state = reached(tower, &run).expect("each action is enabled");
            let further = |action| [&run[..], &[action]].concat();
            runs.extend(enabled(tower, state).into_iter().map(further));
        }
    }
    runs
}

/// Whether every run that `one` allows is allowed by `other`.
fn allows_no_more(one: &Table, other: &Table) -> bool {
    let mut met = HashSet::from([(0, 0)]);
    let mut to_visit = vec![(0, 0)];
    while let Some((row, other_row)) = to_visit.pop() {
        for step in &one.rows[row].steps {
            let Some(target) = other.rows[other_row].target(step.action) else {
                return false;
            };
            if met.insert((step.target, target)) {
                to_visit.push((step.target, target));
            }
        }
    }
    true
}

/// Walks at random and compares the definition with progression at every position, as long as that is
/// not over-full: how many of the runs are broken, and how many are not.
fn compare_along_a_walk(random: &mut Random, tower: &Tower, book: &Book) -> [usize; 2] {
    let mut counts = [0, 0];
    let mut waiting = alternatives::at_first(book);
    let mut state = tower.start;
    let mut run = Vec::new();
    for _ in 0..=12 {
        let broken = is_broken(tower, book, &run);
        assert_eq!(broken, waiting.is_empty(), "{run:?} {tower:?} {book:?}");
        counts[usize::from(!broken)] += 1;
        let choices = enabled(tower, state);
        if choices.is_empty() {
            break;
        }
        let action = choices[random.below(choices.len())];
        let length = tower.step_length(state, action);
        let marks = tower.states[state].marks;
        let Ok(after) = alternatives::after(book, &waiting, marks, length) else {
            break;
        };
        waiting = after;
        run.push(action);
        state = tower.states[state].targets[action].expect("an enabled action");
    }
    counts
}

#[test]
fn a_run_is_broken_exactly_when_a_step_along_it_breaks() {
    for (any_book, share) in BOOKS {
        let mut random = Random::new(0x5EED_0001);
        let [mut broken, mut unbroken] = [0, 0];
        for _ in 0..30_000 / share {
            let (_, tower) = random_tower(&mut random, 3);
            let (_, book) = any_book(&mut random, tower.marks);
            let counts = compare_along_a_walk(&mut random, &tower, &book);
            broken += counts[0];
            unbroken += counts[1];
        }
        assert!(broken > 20_000 / share && unbroken > 20_000 / share);
    }
}

/// Where a node comes up twice, A keeps the larger number and U the smaller.
#[test]
fn two_promises_meet() {
    let states: Vec<(u16, Vec<u8>)> = [3, 3, 2, 2, 0, 0]
        .into_iter()
        .zip([1, 2, 3, 4, 5, 5])
        .map(|(mask, next)| (mask, vec![next]))
        .collect();
    let tower = tower::parse(&tower_file(2, 0, &[[1, 1]], &states)).expect("a tower");
    let unbroken_runs = |line: &str| {
        let book = book::read(2, &lines(&[line])).expect("a book");
        compare_along_a_walk(&mut Random::new(1), &tower, &book)[1]
    };
    // Marks 0 and 1 at positions 0 and 1, mark 1 at 2 and 3, none from 4 on. Of runs of 0 to 12 actions,
    // so many are not broken:
    assert_eq!(unbroken_runs("always !p0 | A 3 p1"), 5);
    assert_eq!(unbroken_runs("always !p0 | A 2 p1"), 13);
    assert_eq!(unbroken_runs("always !p0 | E 3 !p1"), 4);
    assert_eq!(unbroken_runs("always !p0 | E 4 !p1"), 13);
}

#[test]
fn promises_that_meet_are_kept_as_the_definition_has_it() {
    let mut random = Random::new(0x5EED_0006);
    let [mut broken, mut unbroken] = [0, 0];
    for _ in 0..60_000 {
        let (_, tower) = random_tower(&mut random, 2);
        let text = promise(&mut random, tower.marks);
        let book = book::read(tower.marks, &lines(&[text.trim_end()])).expect("a line");
        let counts = compare_along_a_walk(&mut random, &tower, &book);
        broken += counts[0];
        unbroken += counts[1];
    }
    assert!(broken > 20_000 && unbroken > 20_000);
}

#[test]
fn made_tables_are_good_and_allow_no_broken_run() {
    for (any_book, share) in BOOKS {
        let mut random = Random::new(0x5EED_0002);
        let mut tables = 0;
        for _ in 0..4_000 / share {
            let (tower_file, tower) = random_tower(&mut random, 3);
            let (text, book) = any_book(&mut random, tower.marks);
            let Ok(file) = make(&tower_file, &text, table::most_bytes()) else {
                continue;
            };
            tables += 1;
            let answer = check(&tower_file, &text, &file);
            assert_eq!(answer, Answer::Good);
            let table = table::decode(&file).expect("a table that is well laid out");
            assert_eq!(table.encode(), file);
            for run in all_runs(&tower, 6) {
                assert!(!table.allows(&run) || !is_broken(&tower, &book, &run));
            }
        }
        assert!(tables > 1_000 / share);
    }
}

/// Whether a run is unbroken and can be continued for `rounds` more actions, whatever comes that is not
/// ours and without waiting for the player.
fn can_go_on(tower: &Tower, book: &Book, run: &[usize], rounds: usize) -> bool {
    if is_broken(tower, book, run) {
        return false;
    }
    if rounds == 0 {
        return true;
    }
    let state = reached(tower, run).expect("each action is enabled");
    let goes_on = |action: &usize| {
        let further = [run, &[*action]].concat();
        can_go_on(tower, book, &further, rounds - 1)
    };
    let choices = enabled(tower, state);
    let forced = |action: &&usize| !tower.kind(**action).controllable();
    let onward = |action: &&usize| tower.kind(**action).goes_on();
    choices.iter().filter(forced).all(goes_on) && choices.iter().filter(onward).any(goes_on)
}

/// Good tables allow a run if each part of it from the start can be continued for ever. With k pairs,
/// what can be continued for k actions can be continued for ever.
#[test]
fn a_made_table_allows_what_the_definitions_allow() {
    for (any_book, share) in BOOKS {
        let mut random = Random::new(0x5EED_0003);
        let (mut tables, mut wants) = (0, 0);
        for _ in 0..6_000 / share {
            let (_, tower) = random_tower(&mut random, 2);
            let (_, book) = any_book(&mut random, tower.marks);
            let Some(pairs) = pair_count(&tower, &book).filter(|pairs| *pairs <= 7) else {
                continue;
            };
            let made = make_table(&tower, &book);
            match made {
                Ok(_) => tables += 1,
                Err(refusal) if refusal.number == 20 => continue,
                Err(_) => wants += 1,
            }
            for run in all_runs(&tower, 3) {
                let mut parts = (0..=run.len()).map(|length| &run[..length]);
                let expected = parts.all(|part| can_go_on(&tower, &book, part, pairs));
                let allowed = made.as_ref().is_ok_and(|table| table.allows(&run));
                assert_eq!(allowed, expected, "{run:?} {tower:?} {book:?}");
            }
        }
        assert!(tables > 500 / share && wants > 500 / share);
    }
}

/// Marks pairs of rows that some run tells apart, until no more are found.
fn all_rows_differ(table: &Table) -> bool {
    let count = table.rows.len();
    let mut differ = vec![vec![false; count]; count];
    loop {
        let mut found = false;
        for (a, one) in table.rows.iter().enumerate() {
            for (b, other) in table.rows.iter().enumerate() {
                let apart = one.state != other.state
                    || (0..table.actions).any(|action| {
                        match (one.target(action), other.target(action)) {
                            (Some(one), Some(other)) => differ[one][other],
                            (one, other) => one.is_some() != other.is_some(),
                        }
                    });
                found |= apart && !differ[a][b];
                differ[a][b] |= apart;
            }
        }
        if !found {
            return (0..count).all(|a| (0..a).all(|b| differ[a][b]));
        }
    }
}

/// Whether rows are numbered as first met, rows in order, actions ascending.
fn is_numbered_as_met(table: &Table) -> bool {
    let mut met = 1;
    for step in table.rows.iter().flat_map(|row| &row.steps) {
        if step.target > met {
            return false;
        }
        met = met.max(step.target + 1);
    }
    met == table.rows.len()
}

#[test]
fn made_tables_are_equal_exactly_when_they_allow_the_same_runs() {
    for (any_book, share) in BOOKS {
        let mut random = Random::new(0x5EED_0004);
        let (mut same, mut different) = (0, 0);
        for _ in 0..6_000 / share {
            let (_, tower) = random_tower(&mut random, 3);
            let made = [(); 2].map(|_| {
                let (_, book) = any_book(&mut random, tower.marks);
                make_table(&tower, &book)
            });
            let [Ok(one), Ok(other)] = made else {
                continue;
            };
            assert!(all_rows_differ(&one) && is_numbered_as_met(&one));
            let same_runs = allows_no_more(&one, &other) && allows_no_more(&other, &one);
            assert_eq!(one.encode() == other.encode(), same_runs);
            if same_runs {
                same += 1;
            } else {
                different += 1;
            }
        }
        assert!(same > 500 / share && different > 100 / share);
    }
}

#[test]
fn the_checker_accepts_good_tables_and_no_others() {
    for (any_book, share) in BOOKS {
        let mut random = Random::new(0x5EED_0005);
        let (mut good, mut not_good) = (0, 0);
        for _ in 0..20_000 / share {
            let (_, tower) = random_tower(&mut random, 2);
            let (_, book) = any_book(&mut random, tower.marks);
            let table = random_table(&mut random, &tower);
            let answer = check_table(&tower, &book, &table);
            let runs = || {
                all_runs(&tower, 7)
                    .into_iter()
                    .filter(|run| table.allows(run))
            };
            let some_broken = || runs().any(|run| is_broken(&tower, &book, &run));
            match answer {
                Answer::Good => {
                    good += 1;
                    assert!(!some_broken());
                    let made = match make_table(&tower, &book) {
                        Ok(made) => made,
                        // The maker tries more actions, and meets more pairs.
                        Err(refusal) if share > 1 && [11, 20].contains(&refusal.number) => continue,
                        Err(refusal) => panic!("a good table exists: {refusal}"),
                    };
                    assert!(allows_no_more(&table, &made));
                    let same_runs = allows_no_more(&made, &table);
                    assert!(!same_runs || table.rows.len() >= made.rows.len());
                }
                Answer::NotGood(Reason::Broken, place) => {
                    not_good += 1;
                    assert_eq!(place, 0);
                    let shown = why::show(&tower, &book, &table);
                    let run: Vec<usize> = shown.actions.into_iter().map(usize::from).collect();
                    assert!(table.allows(&run) && is_broken(&tower, &book, &run));
                }
                Answer::NotGood(..) | Answer::Refused(_) => {}
            }
        }
        assert!(good > 1_000 / share && not_good > 1_000 / share);
    }
}

/// What document 01 has pending after leaving a state with these marks by a step of this length, or
/// nothing where the step breaks a rule. Only one side of `|` is timed.
fn after_alone(book: &Book, pending: &Pending, marks: u16, length: u16) -> Option<Pending> {
    let mut step = Alone {
        book,
        marks,
        length,
        next: vec![None; book.nodes.len()],
    };
    let pending = pending.iter().enumerate();
    let waiting = pending.filter_map(|(node, left)| left.map(|left| (node, left)));
    let rules = book.lines.iter().filter(|line| line.always);
    let renewed = rules.map(|line| (line.root, pending::bound(book, line.root)));
    let unbroken = waiting
        .chain(renewed)
        .all(|(node, left)| step.progress(node, left));
    unbroken.then_some(step.next)
}

struct Alone<'a> {
    book: &'a Book,
    marks: u16,
    length: u16,
    next: Pending,
}

impl Alone<'_> {
    /// Progresses a node with `left` ticks left; false where it breaks.
    fn progress(&mut self, node: usize, left: u16) -> bool {
        match self.book.nodes[node] {
            Node::Constant(_) | Node::Mark { .. } => self.holds(node),
            Node::And(first, second) => self.progress_new(first) && self.progress_new(second),
            Node::Or(first, second) => {
                let (untimed, other) = if self.book.timed[first] {
                    (second, first)
                } else {
                    (first, second)
                };
                self.holds(untimed) || self.progress_new(other)
            }
            Node::Next {
                comparison,
                bound: length,
                part,
            } => {
                pending::add(
                    self.book,
                    &mut self.next,
                    part,
                    pending::bound(self.book, part),
                );
                comparison.holds(self.length, length)
            }
            Node::Always { part, .. } => {
                if self.length <= left {
                    pending::add(self.book, &mut self.next, node, left - self.length);
                }
                self.progress_new(part)
            }
            Node::Until { first, second, .. } => {
                if self.holds(second) {
                    return true;
                }
                if self.length > left {
                    return false;
                }
                pending::add(self.book, &mut self.next, node, left - self.length);
                self.progress_new(first)
            }
        }
    }

    fn progress_new(&mut self, node: usize) -> bool {
        self.progress(node, pending::bound(self.book, node))
    }

    /// Whether an untimed formula holds at the state that is left.
    fn holds(&self, node: usize) -> bool {
        pending::holds(self.book, self.marks, node)
    }
}

/// Books without two timed sides are stepped from as before item 3 of the change requests.
#[test]
fn one_timed_side_is_as_before() {
    let mut random = Random::new(0x5EED_000A);
    let [mut broken, mut unbroken] = [0, 0];
    for _ in 0..30_000 {
        let (_, tower) = random_tower(&mut random, 3);
        let (_, book) = random_book(&mut random, tower.marks);
        let mut waiting = pending::at_first(&book);
        let mut state = tower.start;
        for _ in 0..12 {
            let choices = enabled(&tower, state);
            if choices.is_empty() {
                break;
            }
            let action = choices[random.below(choices.len())];
            let marks = tower.states[state].marks;
            let length = tower.step_length(state, action);
            let before = Alternatives::from([waiting.clone()]);
            let found = alternatives::after(&book, &before, marks, length);
            let alone = after_alone(&book, &waiting, marks, length);
            assert_eq!(found, Ok(alone.clone().into_iter().collect()), "{book:?}");
            let Some(after) = alone else {
                broken += 1;
                break;
            };
            unbroken += 1;
            waiting = after;
            state = tower.states[state].targets[action].expect("an enabled action");
        }
    }
    assert!(broken > 5_000 && unbroken > 20_000, "{broken} {unbroken}");
}
