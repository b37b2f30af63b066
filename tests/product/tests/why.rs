//! The run that shows why, on the small tower and on long runs. The reference says the same each time.

use product::answer::Answer;
use product::areas;
use product::common::{lines, small_table, stopped_table, tower_file, SMALL_TOWER};
use product::entry::Entry;
use product::why::{shown, why_with, Call, Why};
use reference::table::{self, Table};
use reference::{make, Refusal};

const BOOK_1: [&str; 2] = ["always !p0 | E 3 p1", "always !p0 | E 3 p2"];

/// The proved answer, which is the reference's. The list is changed by a run alone, and behind it stays.
fn answer(tower: &[u8], book: &[&str], table: &[u8], room: usize) -> Answer {
    let call = Call::new(tower, &lines(book), table, room);
    let answer = Why::proved(&call);
    assert_eq!(answer, Why::reference(&call), "{call}");
    answer
}

/// The small tower's table without rules.
fn table_5() -> Vec<u8> {
    make::make(&SMALL_TOWER, b"", table::most_bytes()).expect("outcome 5")
}

/// The answer for that table.
fn small(book: &[&str]) -> Answer {
    answer(&SMALL_TOWER, book, &table_5(), 1_000)
}

fn refused(number: u8) -> Answer {
    Refusal::new(number).into()
}

/// Outcome 11: the first bell twice, and the other one is late at position 0.
#[test]
fn the_run_of_outcome_11() {
    assert_eq!(small(&BOOK_1), shown(&[0, 1, 0, 1], 1, 0));
    for room in 0..10 {
        let answer = answer(&SMALL_TOWER, &BOOK_1, &table_5(), room);
        let fits = if room < 4 {
            refused(16)
        } else {
            small(&BOOK_1)
        };
        assert_eq!(answer, fits);
    }
}

#[test]
fn lines_and_positions() {
    assert_eq!(small(&["start F"]), shown(&[0], 0, 0));
    assert_eq!(small(&["start E 1 p1"]), shown(&[2, 3], 0, 0));
    assert_eq!(small(&["always !p2", "always !p1"]), shown(&[0, 1], 1, 1));
    assert_eq!(small(&["always T", "always F"]), shown(&[0], 1, 0));
    assert_eq!(small(&["always A 2 !p2"]), shown(&[2, 3], 0, 0));
    assert_eq!(small(&["always !p2 | E 1 p1"]), shown(&[2, 3, 0], 0, 1));
    let next = "!p1 | N > 0 N > 0 F";
    let always = format!("always {next}");
    assert_eq!(small(&[&always]), shown(&[0, 1, 0, 1], 0, 1));
    let start = format!("start N > 0 ({next})");
    assert_eq!(small(&[&start]), shown(&[0, 1, 0, 1], 0, 0));
}

#[test]
fn a_good_table_has_nothing_to_show() {
    for room in [0, 9] {
        let answer = answer(&SMALL_TOWER, &BOOK_1, &small_table().encode(), room);
        assert_eq!(answer, shown(&[], 0, 0));
    }
}

/// Whatever the list.
#[test]
fn the_checker_s_own_answers() {
    for room in [0, 9] {
        let table = |table: &[u8]| answer(&SMALL_TOWER, &BOOK_1, table, room).to_string();
        assert_eq!(table(&stopped_table().encode()), "refused 14 0 d");
        assert_eq!(table(&table_5()[1..]), "refused 13 0");
        let book = |line: &str| answer(&SMALL_TOWER, &["start F", line], &table_5(), room);
        assert_eq!(book("always &").to_string(), "refused 6 1");
        let short = answer(&SMALL_TOWER[..7], &BOOK_1, &table_5(), room);
        assert_eq!(short, refused(1));
    }
}

/// Whichever area it is; and nothing changes.
#[test]
fn an_area_of_length_0_is_15() {
    for short in 0..areas::CHECKER_AREAS {
        let mut areas = std::array::from_fn(|i| vec![0xa5; areas::LEAST[i]]);
        areas[short].clear();
        let lent = areas.clone();
        let mut list = [0xa5; 9];
        let book = lines(&BOOK_1);
        let answer = why_with(&SMALL_TOWER, &book, &table_5(), &mut list, &mut areas);
        assert_eq!(answer, refused(15));
        assert_eq!(areas, lent);
        assert_eq!(list, [0xa5; 9]);
    }
}

/// A tower of one state and a table of so many rows that go round it, of which the last alone allows the action of 2 ticks.
fn rows_in_turn(rows: usize) -> (Vec<u8>, Vec<u8>) {
    let row = |row: usize| [(usize::from(row + 1 == rows), (row + 1) % rows)];
    let steps: Vec<[(usize, usize); 1]> = (0..rows).map(row).collect();
    let steps: Vec<(usize, &[(usize, usize)])> = steps.iter().map(|row| (0, &row[..])).collect();
    let tower = tower_file(1, 0, &[[1, 1], [2, 1]], &[(0, vec![0, 0])]);
    (tower, Table::of_rows(1, 2, &steps).encode())
}

#[test]
fn runs_of_up_to_1_000_actions() {
    for rows in [1, 2, 254, 255, 256, 999, 1_000] {
        let (tower, table) = rows_in_turn(rows);
        let mut run = vec![0; rows];
        run[rows - 1] = 1;
        let why = |book: &[&str]| answer(&tower, book, &table, rows);
        let at = |ticks: usize| (rows - 1).saturating_sub(ticks);
        assert_eq!(why(&["always N <= 1 T"]), shown(&run, 0, at(0)));
        let book = ["always T", "always A 254 N <= 1 T"];
        assert_eq!(why(&book), shown(&run, 1, at(254)));
        let deep = format!("always {}N <= 1 T", "A 254 ".repeat(4));
        assert_eq!(why(&[&deep]), shown(&run, 0, 0));
        let start = ["always N > 0 T", "start A 250 A 250 A 250 A 249 N <= 1 T"];
        assert_eq!(why(&start), shown(&run, 1, 0));
        let short = answer(&tower, &["always N <= 1 T"], &table, rows - 1);
        assert_eq!(short, refused(16));
    }
}
