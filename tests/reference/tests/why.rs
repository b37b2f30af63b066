//! The run that shows why: examples, and random tables whose allowed runs are all looked at.

mod common;

use common::{
    either_book, lines, random_book, random_table, random_tower, small_table, stopped_table,
    tower_file, Random, SMALL_TOWER,
};
use reference::alternatives;
use reference::book::{self, Book};
use reference::check::{self, check, check_table};
use reference::judge::Reason;
use reference::runs::{BrokenRule, Run};
use reference::table::{self, Table};
use reference::tower::Tower;
use reference::why::{show, why, Answer, Shown};
use reference::{make, Refusal};

const BOOK_1: [&str; 2] = ["always !p0 | E 3 p1", "always !p0 | E 3 p2"];

/// The small tower's table without rules.
fn table_5() -> Vec<u8> {
    make::make(&SMALL_TOWER, b"", table::most_bytes()).unwrap()
}

/// The answer for that table under a book.
fn small(book: &[&str], list_length: usize) -> Answer {
    why(&SMALL_TOWER, &lines(book), &table_5(), list_length)
}

fn shown(actions: &[u8], line: usize, position: usize) -> Answer {
    Answer::Run(Shown {
        actions: actions.to_vec(),
        rule: BrokenRule { line, position },
    })
}

fn refused(number: u8) -> Answer {
    Answer::Checked(check::Answer::Refused(Refusal::new(number)))
}

/// Outcome 11: the first bell twice, and the other one is late at position 0.
#[test]
fn the_run_of_outcome_11() {
    for length in [4, 5, 1_000] {
        assert_eq!(small(&BOOK_1, length), shown(&[0, 1, 0, 1], 1, 0));
    }
    for length in 0..4 {
        assert_eq!(small(&BOOK_1, length), refused(16));
    }
    let swapped = [BOOK_1[1], BOOK_1[0]];
    assert_eq!(small(&swapped, 4), shown(&[0, 1, 0, 1], 0, 0));
}

/// The shortest comes before one of lower actions, and among the shortest the first by its actions.
#[test]
fn shortest_and_then_first() {
    assert_eq!(small(&["start E 1 p1"], 9), shown(&[2, 3], 0, 0));
    assert_eq!(
        small(&["always !p1", "always !p2"], 9),
        shown(&[0, 1], 0, 1)
    );
    assert_eq!(small(&["always !p2"], 9), shown(&[2, 3], 0, 1));
    assert_eq!(small(&["start F"], 9), shown(&[0], 0, 0));
}

/// Of the lines that the run breaks the lowest is told, wherever each is not kept.
#[test]
fn the_lowest_line() {
    let book = [
        "always T",
        "always !p1",
        "start A 1 p0",
        "always !p0 | N > 0 F",
    ];
    assert_eq!(small(&book, 9), shown(&[0, 1], 1, 1));
    assert_eq!(small(&book[2..], 9), shown(&[0, 1], 0, 0));
    // Another run would break line 0 as soon, but comes later.
    let book = ["always !p2", "always !p1"];
    assert_eq!(small(&book, 9), shown(&[0, 1], 1, 1));
}

/// The position is where the formula is not kept, and not where the run ends.
#[test]
fn the_lowest_position() {
    let book = ["always !p1 | N > 0 N > 0 F"];
    assert_eq!(small(&book, 9), shown(&[0, 1, 0, 1], 0, 1));
    let book = ["always A 2 !p2"];
    assert_eq!(small(&book, 9), shown(&[2, 3], 0, 0));
    let book = ["always U 2 (!p2, p1)"];
    assert_eq!(small(&book, 9), shown(&[2, 3], 0, 0));
    let book = ["always !p2 | E 1 p1"];
    assert_eq!(small(&book, 9), shown(&[2, 3, 0], 0, 1));
}

/// A `start` line has position 0, also where its formula is not kept at others.
#[test]
fn a_start_line_is_told_at_0() {
    let book = ["start N > 0 N > 0 p1"];
    assert_eq!(small(&book, 9), shown(&[0, 1, 0], 0, 0));
    assert_eq!(small(&["start A 3 F"], 9), shown(&[0], 0, 0));
}

/// An action of 3 ticks breaks at once what two of 1 tick keep.
#[test]
fn ticks_count_and_not_actions() {
    let tower = tower_file(1, 0, &[[1, 1], [3, 1]], &[(0, vec![0, 0])]);
    let table = Table::of_rows(1, 2, &[(0, &[(0, 0), (1, 0)])]).encode();
    let answer = |rule: &str| why(&tower, &lines(&[rule]), &table, 9);
    assert_eq!(answer("always E 2 p0"), shown(&[1], 0, 0));
    assert_eq!(answer("start A 3 N <= 1 T"), shown(&[1], 0, 0));
    assert_eq!(answer("start N > 0 E 3 p0"), shown(&[0, 0, 1], 0, 0));
    assert_eq!(answer("start N > 0 A 4 N <= 1 T"), shown(&[0, 1], 0, 0));
}

/// On any other outcome the answer is the checker's, whatever the list.
#[test]
fn the_checker_s_own_answers() {
    let good = (&BOOK_1[..], small_table());
    let stopped = (&BOOK_1[..], stopped_table());
    let mut astray = small_table();
    astray.rows[2].steps[0].target = 1;
    let unread = (&["always T", "always &"][..], small_table());
    let mut other = small_table();
    other.states = 4;
    for ((book, table), said) in [
        (good, "good"),
        (stopped, "refused 14 0 d"),
        ((&BOOK_1[..], astray), "refused 14 2 c"),
        (unread, "refused 6 1"),
        ((&BOOK_1[..], other), "refused 13 0"),
    ] {
        let (book, table) = (lines(book), table.encode());
        for length in [0, 4, 1_000] {
            let checked = check(&SMALL_TOWER, &book, &table);
            assert_eq!(checked.to_string(), said);
            let answer = why(&SMALL_TOWER, &book, &table, length);
            assert_eq!(answer, Answer::Checked(checked));
        }
    }
    let short = why(&SMALL_TOWER[..7], &lines(&BOOK_1), &table_5(), 0);
    assert_eq!(short, refused(1));
}

/// 11 and 20 come before a run that is broken.
#[test]
fn too_large_to_be_judged() {
    let states: Vec<(u16, Vec<u8>)> = (0..200).map(|s| (0, vec![(s + 1) % 200])).collect();
    let tower = tower_file(0, 0, &[[1, 1]], &states);
    let table = make::make(&tower, b"", table::most_bytes()).unwrap();
    let answer = |book: &[&str]| why(&tower, &lines(book), &table, 1_000);
    let over = "start A 250 A 250 A 250 A 250 T";
    assert_eq!(answer(&[over, "start E 3 F"]), shown(&[0; 4], 1, 0));
    assert_eq!(answer(&[over]), refused(11));
    let seventeen = format!("start N > 0 ({})", ["A 9 T"; 17].join(" | "));
    assert_eq!(answer(&[&seventeen, "start E 1 F"]), refused(20));
    assert_eq!(answer(&[&seventeen, "start E 0 F"]), shown(&[0], 1, 0));
}

/// Every allowed run of this length, by action numbers compared from the left.
fn allowed_runs(table: &Table, length: usize) -> Vec<Vec<usize>> {
    let mut runs = vec![(Vec::new(), 0)];
    for _ in 0..length {
        let further = |(run, row): &(Vec<usize>, usize)| -> Vec<(Vec<usize>, usize)> {
            let steps = table.rows[*row].steps.iter();
            let step = |step: &table::Step| ([&run[..], &[step.action]].concat(), step.target);
            steps.map(step).collect()
        };
        runs = runs.iter().flat_map(further).collect();
    }
    runs.into_iter().map(|(run, _)| run).collect()
}

fn is_broken(tower: &Tower, book: &Book, run: &[usize]) -> bool {
    let run = Run::new(tower, run).expect("an allowed run");
    run.is_broken(book)
}

/// Whether each line is broken, and the positions where it is not kept, each by a book of this line
/// alone: a formula is kept at a position where the rest of the run keeps it at its start.
fn not_kept(tower: &Tower, text: &[u8], run: &[usize]) -> Vec<Vec<usize>> {
    let mut rests = vec![(tower.clone(), run)];
    for _ in run {
        let (mut tower, rest) = rests.last().expect("the run").clone();
        tower.start = tower.target(tower.start, rest[0]).expect("enabled");
        rests.push((tower, &rest[1..]));
    }
    let line = |line: &[u8]| {
        let formula = line.strip_prefix(b"always").map(|rest| (rest, run.len()));
        let (formula, last) = formula.unwrap_or_else(|| (&line[b"start".len()..], 0));
        let text = [b"start", formula].concat();
        let book = book::read(tower.marks, &text).expect("a line of the book");
        let broken = |i: &usize| is_broken(&rests[*i].0, &book, rests[*i].1);
        (0..=last).filter(broken).collect()
    };
    text.split_inclusive(|byte| *byte == b'\n')
        .map(line)
        .collect()
}

/// The step at which progression of a line alone leaves no alternative, as long as that is not
/// over-full: the last of the run for each line that it breaks.
fn broken_by_progression(tower: &Tower, book: &Book, run: &[usize]) -> Option<usize> {
    let mut waiting = alternatives::at_first(book);
    let mut state = tower.start;
    for (step, &action) in run.iter().enumerate() {
        let (marks, length) = (tower.states[state].marks, tower.step_length(state, action));
        waiting = alternatives::after(book, &waiting, marks, length).ok()?;
        if waiting.is_empty() {
            return Some(step);
        }
        state = tower.target(state, action)?;
    }
    None
}

/// The runs that are looked at have at most so many actions.
const MOST: usize = 6;

/// Compares what is shown with every allowed run, judged from the definition.
fn compare_with_all_runs(tower: &Tower, text: &[u8], table: &Table, shown: &Shown) {
    let book = book::read(tower.marks, text).expect("a book");
    let length = shown.actions.len();
    let run: Vec<usize> = shown.actions.iter().map(|a| usize::from(*a)).collect();
    let broken = |run: &Vec<usize>| is_broken(tower, &book, run);
    assert!(table.allows(&run) && broken(&run));
    for shorter in 0..length.min(MOST + 1) {
        assert!(!allowed_runs(table, shorter).iter().any(broken));
    }
    if length <= MOST {
        let first = allowed_runs(table, length).into_iter().find(broken);
        assert_eq!(first, Some(run.clone()));
    }
    let not_kept = not_kept(tower, text, &run);
    let line = not_kept.iter().position(|positions| !positions.is_empty());
    let line = line.expect("a line that is broken");
    let position = not_kept[line][0];
    assert_eq!(shown.rule, BrokenRule { line, position });
    for (line, positions) in not_kept.iter().enumerate() {
        let alone = Book {
            lines: vec![book.lines[line]],
            ..book.clone()
        };
        if let Some(step) = broken_by_progression(tower, &alone, &run) {
            assert!(!positions.is_empty() && step + 1 == length);
        }
    }
}

#[test]
fn the_run_is_the_first_of_the_shortest_that_are_broken() {
    type AnyBook = fn(&mut Random, usize) -> (Vec<u8>, Book);
    let books: [(AnyBook, usize); 2] = [(random_book, 1), (either_book, 3)];
    for (any_book, share) in books {
        let mut random = Random::new(0x5EED_000C);
        let [mut all, mut long, mut later_line, mut later_position, mut before_the_end] = [0; 5];
        for _ in 0..40_000 / share {
            let (_, tower) = random_tower(&mut random, 3);
            let (text, book) = any_book(&mut random, tower.marks);
            let table = random_table(&mut random, &tower);
            let checked = check_table(&tower, &book, &table);
            if checked != check::Answer::NotGood(Reason::Broken, 0) {
                continue;
            }
            let shown = show(&tower, &book, &table);
            compare_with_all_runs(&tower, &text, &table, &shown);
            all += 1;
            long += usize::from(shown.actions.len() > MOST);
            later_line += usize::from(shown.rule.line > 0);
            later_position += usize::from(shown.rule.position > 0);
            before_the_end += usize::from(shown.rule.position + 1 < shown.actions.len());
        }
        let counts = [
            all,
            later_line,
            before_the_end,
            10 * later_position,
            10 * long,
        ];
        let enough = counts.iter().all(|count| *count > 450 / share);
        assert!(enough, "{counts:?}");
    }
}

/// A table of 1,000 rows that go round one state, of which the last alone allows the action of 2 ticks.
#[test]
fn a_run_of_1_000_actions() {
    let tower = tower_file(1, 0, &[[1, 1], [2, 1]], &[(0, vec![0, 0])]);
    let row = |row: usize| [(usize::from(row == 999), (row + 1) % 1_000)];
    let steps: Vec<[(usize, usize); 1]> = (0..1_000).map(row).collect();
    let rows: Vec<(usize, &[(usize, usize)])> = steps.iter().map(|row| (0, &row[..])).collect();
    let table = Table::of_rows(1, 2, &rows).encode();
    let book = lines(&["start E 254 T", "always N > 0 T", "always A 2 N <= 1 T"]);
    let mut run = vec![0; 1_000];
    run[999] = 1;
    assert_eq!(why(&tower, &book, &table, 1_000), shown(&run, 2, 997));
    assert_eq!(why(&tower, &book, &table, 999), refused(16));
    let book = lines(&["always N <= 1 T"]);
    assert_eq!(why(&tower, &book, &table, 1_000), shown(&run, 0, 999));
}
