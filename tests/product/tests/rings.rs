//! The ring of 200 states and the limit of 1,000.

use product::answer::Answer;
use product::common::{lines, ring, tower_file};
use product::{check, tables};
use reference::{make, table, Refusal};

/// The answer for a table of rows that go round the ring and then on from the row `back`; the
/// reference's is the same.
fn checked(book: &[&str], rows: usize, back: usize) -> Answer {
    let table = tables::ring_table(200, rows, back).encode();
    let book = lines(book);
    let answer = check::check(&ring(), &book, &table);
    assert_eq!(answer, check::expected(&ring(), &book, &table));
    answer
}

fn too_many() -> Answer {
    Refusal::new(11).into()
}

/// No allowed run is broken, since no rule can be, and the table is good by the definition. Under
/// `start T` row 0 is met with the rule pending, and once more with nothing pending: 1,001 rows
/// with what is pending.
#[test]
fn a_good_table_of_1000_rows_is_11_under_a_rule_that_is_pending_at_first() {
    assert_eq!(checked(&["start T"], 1_000, 0), too_many());
}

/// 1,000 rows with what is pending are not too many: without the rule; where row 0 is met but once;
/// with fewer rows.
#[test]
fn a_good_table_of_1000_rows_is_good_where_1000_are_met() {
    let good = Answer::default();
    assert_eq!(checked(&[], 1_000, 0), good);
    assert_eq!(checked(&["always T"], 1_000, 0), good);
    assert_eq!(checked(&["start T"], 1_000, 200), good);
    assert_eq!(checked(&["start T"], 999, 199), good);
    assert_eq!(checked(&["start T"], 800, 0), good);
}

/// The paper's ring has 1,000 rows with what is pending, and with 200 for 199 one more.
#[test]
fn the_rows_of_the_paper_s_ring_are_just_too_many() {
    let most = "start A 200 A 200 A 200 A 199 T";
    assert_eq!(checked(&[most], 200, 0), Answer::default());
    let over = "start A 200 A 200 A 200 A 200 T";
    assert_eq!(checked(&[over], 200, 0), too_many());
}

/// Also where the broken step is met at once: from each state of a ring of 199, action 0 leads to
/// one that breaks a rule when it is left.
#[test]
fn too_many_comes_before_a_broken_run() {
    let mut states: Vec<(u16, Vec<u8>)> = (0..199).map(|s| (0, vec![199, (s + 1) % 199])).collect();
    states.push((1, vec![199, 255]));
    let tower = tower_file(1, 0, &[[1, 1], [1, 1]], &states);
    let table = make::make(&tower, b"", table::most_bytes()).expect("a table that allows all");
    let answer = |rule: &str| {
        let book = lines(&[rule, "always !p0"]);
        let answer = check::check(&tower, &book, &table);
        assert_eq!(answer, check::expected(&tower, &book, &table));
        answer.to_string()
    };
    assert_eq!(answer("start A 100 T"), "refused 14 0 e");
    assert_eq!(answer("start A 250 A 250 A 250 A 250 T"), "refused 11 0");
}
