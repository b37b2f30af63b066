//! The paper's own examples of refusals, its small table, and runs of the small tower.

use product::answer::Answer;
use product::areas;
use product::common::{self, lines, stopped_table, SMALL_TOWER};
use product::entry::{Entry, NOTHING};
use product::runs::{Case, Runs};
use product::{book, check, follow, table, tower};
use reference::table::target_at;
use reference::{make, Refusal};

/// The small tower with one byte changed.
fn small_tower_with(at: usize, byte: u8) -> Vec<u8> {
    let mut file = SMALL_TOWER.to_vec();
    file[at] = byte;
    file
}

/// Book 1 of the paper's table.
fn small_book() -> Vec<u8> {
    lines(&["always !p0 | E 3 p1", "always !p0 | E 3 p2"])
}

/// Outcome 1 of the paper's table, 50 bytes.
fn small_table() -> Vec<u8> {
    common::small_table().encode()
}

fn refused(number: u8) -> Answer {
    Refusal::new(number).into()
}

#[test]
fn the_small_tower_is_fit() {
    assert_eq!(tower::read(&SMALL_TOWER), Answer::default());
    let header = [
        (tower::Field::States, 3),
        (tower::Field::Actions, 4),
        (tower::Field::Marks, 3),
    ];
    for (field, value) in header {
        assert_eq!(tower::field(&SMALL_TOWER, field, 0, 0), value);
    }
}

#[test]
fn seven_bytes_are_1() {
    assert_eq!(tower::read(&SMALL_TOWER[..7]), refused(1));
}

#[test]
fn no_states_are_2() {
    assert_eq!(tower::read(&small_tower_with(0, 0)), refused(2));
}

#[test]
fn an_action_without_length_is_3() {
    let file = small_tower_with(8, 0);
    assert_eq!(file[8..10], [0x00, 0x01]);
    assert_eq!(tower::read(&file), refused(3));
}

#[test]
fn target_3_of_3_is_4() {
    assert_eq!(tower::read(&small_tower_with(18, 3)), refused(4));
}

#[test]
fn mark_3_of_3_is_5() {
    let file = small_tower_with(16, 8);
    assert_eq!(file[16..18], [0x08, 0x00]);
    assert_eq!(tower::read(&file), refused(5));
}

#[test]
fn target_row_5_of_5_is_13() {
    let mut file = small_table();
    assert!(table::laid_out(&file));
    file[target_at(5, 0)] = 5;
    assert!(!table::laid_out(&file));
    assert_eq!(follow::follow(&file, 0, 0), refused(13));
}

#[test]
fn row_5_of_5_is_17() {
    assert_eq!(follow::follow(&small_table(), 5, 0), refused(17));
}

#[test]
fn action_0_in_row_3_is_18() {
    assert_eq!(follow::follow(&small_table(), 3, 0), refused(18));
}

/// The paper's listing: in each row the actions that are allowed, with their target rows.
#[test]
fn the_small_table_is_followed_as_listed() {
    let file = small_table();
    assert_eq!(file.len(), 50);
    let listing: [&[(usize, usize)]; 5] = [
        &[(0, 1), (2, 2)],
        &[(1, 3)],
        &[(3, 4)],
        &[(2, 2)],
        &[(0, 1)],
    ];
    for (row, steps) in listing.iter().enumerate() {
        for action in 0..4 {
            let expected = match steps.iter().find(|step| step.0 == action) {
                Some((_, target)) => Answer::of_values([*target]),
                None => refused(18),
            };
            assert_eq!(follow::follow(&file, row, action), expected);
        }
    }
}

/// What the checker says of a table for the small tower.
fn checked(book: &[u8], table: &[u8]) -> String {
    check::check(&SMALL_TOWER, book, table).to_string()
}

#[test]
fn the_small_table_is_good() {
    assert_eq!(checked(&small_book(), &small_table()), "");
}

#[test]
fn target_row_5_of_5_is_13_for_the_checker_too() {
    let mut file = small_table();
    file[target_at(5, 0)] = 5;
    assert_eq!(checked(&small_book(), &file), "refused 13 0");
}

#[test]
fn a_row_of_state_0_with_no_step_is_14_d() {
    let file = stopped_table().encode();
    assert_eq!(checked(b"", &file), "refused 14 0 d");
}

/// Outcome 11 of the paper's table.
#[test]
fn the_table_for_no_lines_is_14_e_under_book_1() {
    let file = make::make(&SMALL_TOWER, b"", 36).expect("outcome 5");
    assert_eq!(checked(b"", &file), "");
    assert_eq!(checked(&small_book(), &file), "refused 14 0 e");
}

/// Whichever area it is; and nothing changes.
#[test]
fn an_area_of_length_0_is_15() {
    for short in 0..areas::CHECKER_AREAS {
        let mut areas = std::array::from_fn(|i| vec![0xa5; areas::LEAST[i]]);
        areas[short].clear();
        let lent = areas.clone();
        let answer = check::check_with(&SMALL_TOWER, b"", &small_table(), &mut areas);
        assert_eq!(answer, refused(15));
        assert_eq!(areas, lent);
    }
    assert_eq!(book::read(3, &small_book(), &mut []), refused(15));
}

/// How many actions the first broken beginning of a run has, by the proved progression.
fn first_broken(line: &str, run: &[usize]) -> usize {
    let case = Case {
        tower: reference::tower::parse(&SMALL_TOWER).expect("the small tower"),
        book: reference::book::read(3, &lines(&[line])).expect("a book"),
        run: run.to_vec(),
    };
    Runs::proved(&case).values[0]
}

#[test]
fn the_last_position_is_not_judged() {
    assert_eq!(first_broken("start F", &[]), NOTHING);
    assert_eq!(first_broken("start F", &[0]), 1);
}

#[test]
fn always_for_ends_with_its_bound() {
    assert_eq!(first_broken("start A 0 p0", &[0, 1, 0]), NOTHING);
    assert_eq!(first_broken("start A 1 p0", &[0, 1, 0]), 2);
}

#[test]
fn within_may_end_at_its_bound() {
    assert_eq!(first_broken("start E 1 p1", &[0, 1]), NOTHING);
    assert_eq!(first_broken("start E 1 p1", &[2, 3]), 2);
}

/// Each visit of state 0 makes the promise again, and the first one still counts.
#[test]
fn the_earlier_deadline_is_kept() {
    let line = "always !p0 | E 3 p1";
    assert_eq!(first_broken(line, &[2, 3, 0, 1]), NOTHING);
    assert_eq!(first_broken(line, &[2, 3, 2, 3]), 4);
}
