//! The paper's outcomes of the maker: the small tower's, and the ring's.

use product::answer::Answer;
use product::common::{lines, ring, small_table, SMALL_TOWER};
use product::{areas, check, make, table};
use reference::Refusal;

fn made(book: &[&str]) -> Result<Vec<u8>, Answer> {
    make::make(&SMALL_TOWER, &lines(book))
}

fn refused(number: u8) -> Answer {
    Refusal::new(number).into()
}

/// Bytes, rows and steps.
fn sizes(book: &[&str]) -> [usize; 3] {
    let file = made(book).expect("a table");
    let counts = [table::Field::Rows, table::Field::Steps].map(|f| table::field(&file, f, 0));
    [file.len(), counts[0], counts[1]]
}

const BOOK_1: [&str; 2] = ["always !p0 | E 3 p1", "always !p0 | E 3 p2"];

#[test]
fn the_eleven_outcomes_of_the_small_tower() {
    assert_eq!(made(&BOOK_1), Ok(small_table().encode()));
    let later = ["always !p0 | E 4 p1", "always !p0 | E 4 p2"];
    assert_eq!(made(&later), made(&BOOK_1));
    let one_line = ["always !p0 | (E 3 p1 & E 3 p2)"];
    assert_eq!(made(&one_line), made(&BOOK_1));
    let sooner = ["always !p0 | E 2 p1", "always !p0 | E 2 p2"];
    assert_eq!(made(&sooner), Err(refused(12)));
    assert_eq!(sizes(&[]), [36, 3, 4]);
    assert_eq!(sizes(&["always !p1"]), [26, 2, 2]);
    assert_eq!(sizes(&["start E 1 p1"]), [43, 4, 5]);
    assert_eq!(made(&["start A 0 p0"]), made(&[]));
    assert_eq!(made(&["start A 1 p0"]), Err(refused(12)));
    assert_eq!(made(&["always N <= 1 T"]), made(&[]));
    let all = made(&[]).expect("outcome 5");
    let answer = check::check(&SMALL_TOWER, &lines(&BOOK_1), &all);
    assert_eq!(answer.to_string(), "refused 14 0 e");
}

#[test]
fn start_false_is_12() {
    assert_eq!(made(&["start F"]), Err(refused(12)));
}

/// 49 bytes for 50 are 16, and none of them changes. 50 are enough, and of 51 the last stays.
#[test]
fn forty_nine_bytes_for_50_are_16() {
    for length in [0, 49, 50, 51] {
        let mut out = vec![0xaa; length];
        let mut areas = areas::Areas::least().lend();
        let answer = make::make_with(&SMALL_TOWER, &lines(&BOOK_1), &mut out, &mut areas);
        if length < 50 {
            assert_eq!(answer, refused(16));
            assert_eq!(out, vec![0xaa; length]);
        } else {
            assert_eq!(answer, Answer::of_values([50]));
            assert_eq!(out[..50], small_table().encode());
            assert!(out[50..].iter().all(|byte| *byte == 0xaa));
        }
        assert!(areas.concat().iter().all(|byte| *byte == 0));
    }
}

/// Whichever area it is; and nothing changes.
#[test]
fn an_area_of_length_0_is_15() {
    for short in 0..areas::MAKER_AREAS {
        let mut areas = areas::LEAST.map(|length| vec![0xa5; length]);
        areas[short].clear();
        let lent = areas.clone();
        let mut out = vec![0xaa; 60];
        let answer = make::make_with(&SMALL_TOWER, &lines(&BOOK_1), &mut out, &mut areas);
        assert_eq!(answer, refused(15));
        assert_eq!(areas, lent);
        assert_eq!(out, vec![0xaa; 60]);
    }
}

/// 1,000 pairs; with 200 for 199 there is one more.
#[test]
fn the_ring_has_just_1000_pairs_or_one_too_many() {
    let most = make::make(&ring(), &lines(&["start A 200 A 200 A 200 A 199 T"]));
    assert_eq!(most, make::make(&ring(), b""));
    let most = most.expect("1,000 pairs");
    assert_eq!(table::field(&most, table::Field::Rows, 0), 200);
    let over = make::make(&ring(), &lines(&["start A 200 A 200 A 200 A 200 T"]));
    assert_eq!(over, Err(refused(11)));
}
