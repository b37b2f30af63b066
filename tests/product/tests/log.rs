//! The log reader on the small tower's table of five rows, and the lines of the request that can be
//! taken in two ways. The reference says the same each time.

use product::answer::Answer;
use product::common::{lines, small_table, stopped_table, tower_file, SMALL_TOWER};
use product::log::{expected, line, malformed, read, row};
use reference::log::MOST_TICK;
use reference::table::{target_at, Table};

/// The proved answer, which is the reference's.
fn answer(tower: &[u8], table: &[u8], log: &[u8]) -> Answer {
    let answer = read(tower, table, log);
    assert_eq!(answer, expected(tower, table, log));
    answer
}

fn small(log: &[u8]) -> Answer {
    answer(&SMALL_TOWER, &small_table().encode(), log)
}

#[test]
fn an_empty_log_is_row_0() {
    assert_eq!(small(b""), row(0));
}

#[test]
fn a_log_that_fits_gives_its_final_row() {
    assert_eq!(small(b"7 0\n"), row(1));
    assert_eq!(small(b"7 0\n8 1\n9 2\n10 3\n"), row(4));
    assert_eq!(small(b"0000000007 00\n08 01\n"), row(3));
}

#[test]
fn the_first_line_that_does_not_fit() {
    assert_eq!(small(b"7 1\n"), line(0));
    assert_eq!(small(b"7 0\n9 1\n"), line(1));
    assert_eq!(small(b"7 0\n8 0\n"), line(1));
    for action in 4..100 {
        assert_eq!(small(format!("7 {action}\n").as_bytes()), line(0));
    }
}

#[test]
fn a_line_is_due_after_the_length_of_the_one_before() {
    let tower = tower_file(0, 0, &[[3, 1], [200, 1]], &[(0, vec![0, 0])]);
    let table = Table::of_rows(1, 2, &[(0, &[(0, 0), (1, 0)])]).encode();
    let answer = |log: &[&str]| answer(&tower, &table, &lines(log));
    assert_eq!(answer(&["5 0", "8 1", "208 1", "408 0"]), row(0));
    assert_eq!(answer(&["5 0", "205 1"]), line(1));
    assert_eq!(answer(&["5 0", "8 1", "11 0"]), line(2));
}

#[test]
fn after_the_last_tick_no_line_fits() {
    let near = |first: u64, second: u64| small(format!("{first} 0\n{second} 1\n").as_bytes());
    assert_eq!(near(MOST_TICK - 1, MOST_TICK), row(3));
    for second in [0, 1, MOST_TICK - 1, MOST_TICK] {
        assert_eq!(near(MOST_TICK, second), line(1));
    }
    assert_eq!(near(MOST_TICK, MOST_TICK + 1), malformed(1));
}

#[test]
fn lines_that_are_not_of_the_form_are_19() {
    for line in [
        "",
        "7",
        "7 ",
        " 0",
        "+7 0",
        "7 -0",
        "7\t0",
        "7  0",
        "7 0 ",
        " 7 0",
        "7 000",
        "7 0\r",
        "7 0\0",
        "00000000007 0",
        "4294967296 0",
        "9999999999 0",
    ] {
        assert_eq!(
            small(&lines(&["7 0", line, "9 2"])),
            malformed(1),
            "{line:?}"
        );
    }
    assert_eq!(small(b"7 0\n8 1"), malformed(1));
}

#[test]
fn a_line_not_of_the_form_wins_over_one_that_does_not_fit() {
    assert_eq!(small(b"7 9\n8 1\n9 2\n\n"), malformed(3));
}

#[test]
fn tower_and_table_come_first() {
    let said = |tower: &[u8], table: &[u8]| answer(tower, table, b"x").to_string();
    let mut file = small_table().encode();
    assert_eq!(said(&SMALL_TOWER[..7], &file), "refused 1 0");
    assert_eq!(
        said(&SMALL_TOWER, &stopped_table().encode()),
        "refused 14 0 d"
    );
    assert_eq!(said(&SMALL_TOWER, &file), "refused 19 0");
    file[target_at(5, 0)] = 5;
    assert_eq!(said(&SMALL_TOWER, &file), "refused 13 0");
}

/// Lines and places pass 65,535.
#[test]
fn a_log_has_no_longest_length() {
    let line_of = |number: usize| format!("{} {}\n", 100 + number, number % 4);
    let log: String = (0..200_000).map(line_of).collect();
    let and = |end: &str| small((log.clone() + end).as_bytes());
    assert_eq!(and(""), row(4));
    assert_eq!(and("200101 0\n"), line(200_000));
    assert_eq!(and("200100 0"), malformed(200_000));
}
