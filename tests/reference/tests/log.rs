//! The log reader: examples, and runs of random tables.

mod common;

use common::{lines, random_table, random_tower, small_table, tower_file, Random, SMALL_TOWER};
use reference::judge::{first_fault, Reason};
use reference::log::{read_log, Answer, MOST_TICK};
use reference::table::Table;
use reference::tower::Tower;
use reference::Refusal;

/// The answer for a log of the small tower under its table of five rows.
fn small(log: &[u8]) -> Answer {
    read_log(&SMALL_TOWER, &small_table().encode(), log)
}

fn malformed(line: usize) -> Answer {
    Answer::Refused(Refusal::at(19, line))
}

#[test]
fn a_log_that_fits_gives_its_final_row() {
    assert_eq!(small(b""), Answer::Row(0));
    assert_eq!(small(b"7 0\n"), Answer::Row(1));
    assert_eq!(small(b"7 0\n8 1\n9 2\n10 3\n"), Answer::Row(4));
    assert_eq!(small(b"0000000007 00\n08 01\n"), Answer::Row(3));
}

#[test]
fn the_first_tick_is_free() {
    for tick in ["0", "0000000000", "1", "65536", "4294967295"] {
        assert_eq!(small(&lines(&[&format!("{tick} 0")])), Answer::Row(1));
    }
}

#[test]
fn the_first_line_that_does_not_fit() {
    for (log, line) in [
        (&["7 1"][..], 0),
        (&["7 0", "8 0", "9 0"], 1),
        (&["7 0", "9 1"], 1),
        (&["7 0", "7 1"], 1),
        (&["7 0", "8 1", "9 2", "10 3", "12 0", "13 0"], 4),
    ] {
        assert_eq!(small(&lines(log)), Answer::Line(line), "{log:?}");
    }
    assert_eq!(Answer::Line(4).to_string(), "line 4");
    assert_eq!(Answer::Row(4).to_string(), "row 4");
}

/// Also those that a table can never have.
#[test]
fn an_action_outside_the_table_is_not_allowed() {
    for action in 4..100 {
        assert_eq!(small(&lines(&[&format!("7 {action}")])), Answer::Line(0));
        let second = format!("8 {action}");
        assert_eq!(small(&lines(&["7 0", &second])), Answer::Line(1));
    }
}

/// One state, action 0 of 3 ticks and action 1 of 200: a line is due the length of the one before later.
#[test]
fn a_tick_is_the_one_before_plus_its_action_s_length() {
    let tower = tower_file(0, 0, &[[3, 1], [200, 1]], &[(0, vec![0, 0])]);
    let table = Table::of_rows(1, 2, &[(0, &[(0, 0), (1, 0)])]).encode();
    let answer = |log: &[&str]| read_log(&tower, &table, &lines(log));
    assert_eq!(
        answer(&["5 0", "8 1", "208 1", "408 0", "411 0"]),
        Answer::Row(0)
    );
    assert_eq!(answer(&["5 0", "205 1"]), Answer::Line(1));
    assert_eq!(answer(&["5 0", "8 1", "11 0"]), Answer::Line(2));
    for tick in [0, 5, 7, 9, 1_000, MOST_TICK] {
        assert_eq!(answer(&["5 0", &format!("{tick} 0")]), Answer::Line(1));
    }
}

/// No tick is a sum above the last one: not what is left over it, and not the last one again.
#[test]
fn sums_do_not_wrap() {
    let near =
        |first: u64, second: u64| small(&lines(&[&format!("{first} 0"), &format!("{second} 1")]));
    assert_eq!(near(MOST_TICK - 1, MOST_TICK), Answer::Row(3));
    for second in [0, 1, MOST_TICK - 1, MOST_TICK] {
        assert_eq!(near(MOST_TICK, second), Answer::Line(1));
    }
    assert_eq!(near(MOST_TICK, MOST_TICK + 1), malformed(1));
}

#[test]
fn lines_that_are_not_of_the_form() {
    for line in [
        "",
        " ",
        "7",
        "7 ",
        " 0",
        " 7 0",
        "7 0 ",
        "7  0",
        "7\t0",
        "7 0\t",
        "7 0\r",
        "7 0\0",
        "\x007 0",
        "+7 0",
        "-7 0",
        "7 +0",
        "7 -0",
        "7,0",
        "7 000",
        "7 100",
        "7 0 0",
        "x 0",
        "7 x",
        "7x 0",
        "0x7 0",
        "7 /",
        "7 :",
        "/ 0",
        ": 0",
        "7.0 0",
        "00000000007 0",
        "42949672950 0",
        "4294967296 0",
        "9999999999 0",
        "\u{661} 0",
    ] {
        for before in 0..3 {
            let log = [&["7 0", "8 1", "9 2"][..before], &[line]].concat();
            assert_eq!(small(&lines(&log)), malformed(before), "{line:?}");
            let with_more = lines(&[&log[..], &["10 0", ""]].concat());
            assert_eq!(small(&with_more), malformed(before), "{line:?}");
        }
    }
    assert_eq!(malformed(2).to_string(), "refused 19 2");
}

#[test]
fn every_line_ends_with_byte_10() {
    for log in [&b"7 0\n8 1"[..], b"7 0\n8 ", b"7 0\n8", b"7 0\n\r"] {
        assert_eq!(small(log), malformed(1));
    }
    assert_eq!(small(b"7 0"), malformed(0));
    assert_eq!(small(b"7 08 1\n"), malformed(0));
    assert_eq!(small(b"7 0\r\n8 1\n"), malformed(0));
    assert_eq!(small(b"\n"), malformed(0));
    assert_eq!(small(b"7 0\n\n"), malformed(1));
    assert_eq!(small(b"\xff 0\n"), malformed(0));
}

#[test]
fn a_line_not_of_the_form_wins_over_one_that_does_not_fit() {
    assert_eq!(small(&lines(&["7 9", "8 1", "x"])), malformed(2));
    assert_eq!(small(&lines(&["7 0", "9 1", "10 2", ""])), malformed(3));
    assert_eq!(small(b"7 9\n8 1"), malformed(1));
}

/// From the last to the first, each change wins over those before it.
#[test]
fn order_of_refusals() {
    let said = |tower: &[u8], table: &Table| read_log(tower, &table.encode(), b"x").to_string();
    let (mut tower, mut table) = (SMALL_TOWER, small_table());
    assert_eq!(said(&tower, &table), "refused 19 0");
    table.rows[4].steps.clear();
    assert_eq!(said(&tower, &table), "refused 14 4 d");
    table.rows[3].steps[0].target = 1;
    assert_eq!(said(&tower, &table), "refused 14 3 c");
    table.rows[2].steps.clear();
    assert_eq!(said(&tower, &table), "refused 14 2 b");
    table.rows[0].state = 1;
    assert_eq!(said(&tower, &table), "refused 14 0 a");
    table.states = 4;
    assert_eq!(said(&tower, &table), "refused 13 0");
    for (at, byte, number) in [(16, 8, 5), (18, 3, 4), (9, 3, 3), (4, 9, 1), (3, 3, 2)] {
        tower[at] = byte;
        assert_eq!(said(&tower, &table), format!("refused {number} 0"));
    }
    assert_eq!(said(&tower[..7], &table), "refused 1 0");
}

/// No book is looked at: a table that is 14 e under some book is as good as any.
#[test]
fn reasons_a_to_d_are_seen() {
    let said = |rows: &[(usize, &[(usize, usize)])]| {
        let table = Table::of_rows(3, 4, rows).encode();
        read_log(&SMALL_TOWER, &table, b"")
    };
    assert_eq!(said(&[(1, &[(1, 0)])]), Answer::NotGood(Reason::Start, 0));
    let withheld = said(&[(0, &[(0, 1)]), (1, &[])]);
    assert_eq!(withheld, Answer::NotGood(Reason::Withheld, 1));
    let misled = said(&[(0, &[(0, 0)])]);
    assert_eq!(misled, Answer::NotGood(Reason::Misled, 0));
    assert_eq!(said(&[(0, &[])]), Answer::NotGood(Reason::Stopped, 0));
    assert_eq!(said(&[(0, &[(0, 1)]), (1, &[(1, 0)])]), Answer::Row(0));
}

/// Line numbers pass 65,535, and so do places.
#[test]
fn a_log_has_no_longest_length() {
    let line = |number: usize| format!("{} {}\n", 100 + number, number % 4);
    let log: String = (0..70_000).map(line).collect();
    let and = |end: &str| small((log.clone() + end).as_bytes());
    assert_eq!(and(""), Answer::Row(4));
    assert_eq!(and("70100 0\n"), Answer::Row(1));
    assert_eq!(and("70101 0\n"), Answer::Line(70_000));
    assert_eq!(and("70100 2\n"), Answer::Line(70_000));
    assert_eq!(and("70100 0"), malformed(70_000));
}

/// A run of a table from row 0, as lines from this tick on, and the row it ends in.
fn run(
    random: &mut Random,
    tower: &Tower,
    table: &Table,
    first: u64,
) -> (Vec<(u64, usize)>, usize) {
    let mut run = Vec::new();
    let (mut row, mut tick) = (0, first);
    for _ in 0..1 + random.below(8) {
        let steps = &table.rows[row].steps;
        let step = steps[random.below(steps.len())];
        run.push((tick, step.action));
        tick += u64::from(tower.step_length(table.rows[row].state, step.action));
        row = step.target;
    }
    (run, row)
}

fn written(run: &[(u64, usize)]) -> Vec<u8> {
    let line = |(tick, action): &(u64, usize)| format!("{tick} {action}\n");
    run.iter().map(line).collect::<String>().into_bytes()
}

/// Runs of a table give the row that they end in. With one line changed and every later one kept, that
/// line is found: another tick, or an action that is not allowed there.
#[test]
fn runs_of_a_table_fit_and_changed_ones_do_not() {
    let mut random = Random::new(0x5EED_0009);
    let mut held = 0;
    for _ in 0..40_000 {
        let (tower_file, tower) = random_tower(&mut random, 4);
        let table = random_table(&mut random, &tower);
        if first_fault(&tower, &table).is_some() {
            continue;
        }
        held += 1;
        let file = table.encode();
        let answer = |run: &[(u64, usize)]| read_log(&tower_file, &file, &written(run));
        let first = [0, 1, random.below(1 << 32) as u64 / 2][random.below(3)];
        let (run, row) = run(&mut random, &tower, &table, first);
        assert_eq!(answer(&run), Answer::Row(row));

        let at = random.below(run.len());
        let mut changed = run.clone();
        changed[at].1 = random.below(100);
        let actions: Vec<usize> = changed[..=at].iter().map(|line| line.1).collect();
        if !table.allows(&actions) {
            assert_eq!(answer(&changed), Answer::Line(at));
        }
        let mut changed = run.clone();
        changed[at].0 += 1 + random.below(5) as u64;
        let late = if at > 0 {
            Some(at)
        } else {
            run.get(1).map(|_| 1)
        };
        assert_eq!(
            answer(&changed),
            late.map_or(Answer::Row(row), Answer::Line)
        );
    }
    assert!(held > 5_000);
}
