//! The paper's examples of refusals, the small tower and logs of it, through the safe interface.

#[path = "../../tests/reference/tests/common/mod.rs"]
mod common;

use common::{lines, small_table, stopped_table, SMALL_TOWER};
use reference::table::{action_at, state_at, target_at};
use std::fs;
use std::path::Path;
use std::thread;
use succoryvise::{check, follow, make, read_book, read_log, why};
use succoryvise::{Checker, LogReading, Maker, Player, Reason, Refusal};

/// A file of the examples.
fn example(name: &str) -> Vec<u8> {
    let folder = Path::new(env!("CARGO_MANIFEST_DIR")).join("../examples");
    fs::read(folder.join(name)).expect("a file of the examples")
}

/// The small tower with one byte changed.
fn small_tower_with(at: usize, byte: u8) -> Vec<u8> {
    let mut tower = SMALL_TOWER.to_vec();
    tower[at] = byte;
    tower
}

/// Number, place and letter of a refusal.
fn refused<T>(answer: Result<T, Refusal>) -> (u32, usize, Option<char>) {
    let refusal = answer.err().expect("a refusal");
    let letter = refusal.reason().map(|reason| reason.letter());
    (refusal.number(), refusal.place(), letter)
}

const BOOK_1: &[u8] = b"always !p0 | E 3 p1\nalways !p0 | E 3 p2\n";

/// The paper's table 1.
fn table_1() -> Vec<u8> {
    small_table().encode()
}

#[test]
fn the_small_table() {
    assert_eq!(example("small-tower/tower.bin"), SMALL_TOWER);
    assert_eq!(make(&SMALL_TOWER, BOOK_1), Ok(table_1()));
    assert_eq!(check(&SMALL_TOWER, BOOK_1, &table_1()), Ok(()));
    let counts = read_book(3, BOOK_1).expect("a book");
    assert_eq!((counts.lines, counts.nodes), (2, 10));
}

#[test]
fn towers_that_are_not_fit() {
    let towers = [
        (SMALL_TOWER[..7].to_vec(), Refusal::TowerSize),
        (small_tower_with(0, 0), Refusal::Range),
        (small_tower_with(8, 0), Refusal::Action),
        (small_tower_with(9, 3), Refusal::Action),
        (small_tower_with(18, 3), Refusal::Target),
        (small_tower_with(16, 8), Refusal::Mask),
    ];
    for (tower, refusal) in towers {
        assert_eq!(make(&tower, BOOK_1), Err(refusal));
        assert_eq!(check(&tower, BOOK_1, &table_1()), Err(refusal));
        assert_eq!(read_log(&tower, &table_1(), b"x"), Err(refusal));
        assert_eq!(why(&tower, BOOK_1, &table_1()), Err(refusal));
    }
    assert_eq!(read_book(17, BOOK_1), Err(Refusal::Range));
}

#[test]
fn books_that_are_not_fit() {
    let books = [
        (lines(&["always &"]), 6, 0),
        (lines(&["start A 255 T"]), 7, 0),
        (lines(&["start p3"]), 8, 0),
        (lines(&["start T"; 61]), 9, 60),
        (vec![b' '; 4_097], 9, 0),
        (lines(&["start U 1 (T, E 1 p0)"]), 10, 0),
        (b"start T\nstart T".to_vec(), 6, 1),
    ];
    for (book, number, line) in books {
        let refusal = (number, line, None);
        assert_eq!(refused(read_book(3, &book)), refusal);
        assert_eq!(refused(make(&SMALL_TOWER, &book)), refusal);
        assert_eq!(refused(check(&SMALL_TOWER, &book, &table_1())), refusal);
        assert_eq!(refused(why(&SMALL_TOWER, &book, &table_1())), refusal);
    }
}

#[test]
fn no_table_and_too_many_pairs() {
    assert_eq!(make(&SMALL_TOWER, b"start F\n"), Err(Refusal::NoTable));
    let ring = example("ring/tower.bin");
    assert!(make(&ring, &example("ring/book-1000.txt")).is_ok());
    let over = example("ring/book-1001.txt");
    assert_eq!(make(&ring, &over), Err(Refusal::Pairs));
    let any = make(&ring, b"").expect("a table for the ring");
    assert_eq!(check(&ring, &over, &any), Err(Refusal::Pairs));
    assert_eq!(why(&ring, &over, &any), Err(Refusal::Pairs));
}

#[test]
fn either_of_two_promises() {
    let either = make(&SMALL_TOWER, b"start E 1 p0 | E 1 p1\n").expect("a table");
    assert_eq!(check(&SMALL_TOWER, b"start E 1 p0 | E 1 p1\n", &either), Ok(()));
    let over = example("small-tower/book-refused-20.txt");
    assert_eq!(make(&SMALL_TOWER, &over), Err(Refusal::Alternatives));
    let any = make(&SMALL_TOWER, b"").expect("a table for the small tower");
    assert_eq!(check(&SMALL_TOWER, &over, &any), Err(Refusal::Alternatives));
    assert_eq!(why(&SMALL_TOWER, &over, &any), Err(Refusal::Alternatives));
}

#[test]
fn tables_that_are_not_fit_or_not_good() {
    let with = |at: usize, byte: u8| {
        let mut table = table_1();
        table[at] = byte;
        table
    };
    let tables = [
        (with(target_at(5, 0), 5), (13, 0, None)),
        (with(state_at(0), 1), (14, 0, Some('a'))),
        (with(action_at(5, 2), 0), (14, 1, Some('b'))),
        (with(target_at(5, 3), 1), (14, 2, Some('c'))),
        (stopped_table().encode(), (14, 0, Some('d'))),
    ];
    for (table, refusal) in tables {
        assert_eq!(refused(check(&SMALL_TOWER, b"", &table)), refusal);
        assert_eq!(refused(read_log(&SMALL_TOWER, &table, b"x")), refusal);
        assert_eq!(refused(why(&SMALL_TOWER, b"", &table)), refusal);
    }
    let all = make(&SMALL_TOWER, b"").expect("outcome 5");
    let broken = check(&SMALL_TOWER, BOOK_1, &all);
    assert_eq!(broken, Err(Refusal::NotGood(Reason::Broken)));
    assert_eq!(read_log(&SMALL_TOWER, &all, b""), Ok(LogReading::Row(0)));
}

/// The run of a table, with the line and the position; and nothing for a good table, with the same memory.
#[test]
fn runs_that_show_why() {
    let all = make(&SMALL_TOWER, b"").expect("outcome 5");
    let (mut checker, mut maker) = (Checker::new(), Maker::new());
    for (book, actions, line, position) in [
        (BOOK_1, &[0, 1, 0, 1][..], 1, 0),
        (b"start E 1 p1\n", &[2, 3], 0, 0),
        (b"always T\nalways !p1\nalways !p2\n", &[0, 1], 1, 1),
        (b"always !p1 | N > 0 N > 0 F\n", &[0, 1, 0, 1], 0, 1),
    ] {
        let shown = why(&SMALL_TOWER, book, &all);
        let run = shown.clone().expect("an answer").expect("a run");
        assert_eq!(
            (&run.actions[..], run.line, run.position),
            (actions, line, position)
        );
        assert_eq!(checker.why(&SMALL_TOWER, book, &all), shown);
        assert_eq!(maker.why(&SMALL_TOWER, book, &all), shown);
        assert_eq!(checker.why(&SMALL_TOWER, BOOK_1, &table_1()), Ok(None));
        assert_eq!(maker.why(&SMALL_TOWER, BOOK_1, &table_1()), Ok(None));
    }
}

/// With the player's key in place of the clock's train the small tower has stopped.
#[test]
fn rows_that_wait_for_the_player_alone() {
    let mut tower = SMALL_TOWER.to_vec();
    (tower[11], tower[15]) = (0, 0);
    assert_eq!(make(&tower, b""), Err(Refusal::NoTable));
    let stopped = check(&tower, BOOK_1, &table_1());
    assert_eq!(refused(stopped), (14, 1, Some('d')));
}

#[test]
fn rows_and_actions() {
    let table = table_1();
    assert_eq!(follow(&table, 0, 2), Ok(2));
    assert_eq!(follow(&table, 5, 0), Err(Refusal::Outside));
    assert_eq!(follow(&table, 0, 4), Err(Refusal::Outside));
    assert_eq!(
        follow(&table, usize::MAX, usize::MAX),
        Err(Refusal::Outside)
    );
    assert_eq!(follow(&table, 3, 0), Err(Refusal::NotAllowed));
    assert_eq!(follow(&[], 0, 0), Err(Refusal::Layout));
}

/// The row stays where an action is refused.
#[test]
fn a_performance() {
    let mut player = Player::new(table_1());
    assert_eq!(player.allowed().collect::<Vec<_>>(), [0, 2]);
    assert_eq!(player.play(0), Ok(1));
    assert_eq!(player.play(1), Ok(3));
    assert_eq!(player.play(0), Err(Refusal::NotAllowed));
    assert_eq!(player.play(4), Err(Refusal::Outside));
    assert_eq!(player.row(), 3);
    assert_eq!(player.play(2), Ok(2));
    player.restart();
    assert_eq!(player.row(), 0);
    assert_eq!(player.table(), table_1());
}

#[test]
fn logs() {
    let read = |log: &[u8]| read_log(&SMALL_TOWER, &table_1(), log);
    let logs = [
        (&[][..], LogReading::Row(0)),
        (&["7 0", "8 1", "9 2", "10 3"], LogReading::Row(4)),
        (&["0000000007 00", "08 01"], LogReading::Row(3)),
        (&["7 99"], LogReading::Line(0)),
        (&["7 0", "9 1", "10 9"], LogReading::Line(1)),
        (&["4294967295 0", "0 1"], LogReading::Line(1)),
    ];
    for (log, reading) in logs {
        assert_eq!(read(&lines(log)), Ok(reading));
    }
    for (log, line) in [
        (&b"7 0"[..], 0),
        (b"4294967296 0\n", 0),
        (b"7 0\n\n", 1),
        (b"7 9\n8 1\nx\n", 2),
    ] {
        assert_eq!(refused(read(log)), (19, line, None));
    }
}

/// A log has no longest length, and its lines are counted on.
#[test]
fn a_long_log() {
    let line = |number: usize| format!("{} {}\n", 100 + number, number % 4);
    let log: String = (0..70_000).map(line).collect();
    let read = |end: &str| read_log(&SMALL_TOWER, &table_1(), (log.clone() + end).as_bytes());
    assert_eq!(read(""), Ok(LogReading::Row(4)));
    assert_eq!(read("70101 0\n"), Ok(LogReading::Line(70_000)));
    assert_eq!(refused(read("70100 0")), (19, 70_000, None));
}

/// A refusal changes no byte of the output, bytes behind a table stay, and a maker makes the same
/// table whatever it made before.
#[test]
fn one_maker_for_many_tables() {
    let (tower, table) = (SMALL_TOWER, table_1());
    let mut maker = Maker::new();
    let mut out = [0xAA; 60];
    for (room, made) in [(49, Err(Refusal::Output)), (50, Ok(50)), (60, Ok(50))] {
        out.fill(0xAA);
        assert_eq!(maker.make_into(&tower, BOOK_1, &mut out[..room]), made);
        let length = made.unwrap_or(0);
        assert_eq!(out[..length], table[..length]);
        assert!(out[length..].iter().all(|byte| *byte == 0xAA));
        assert_eq!(maker.make(&tower, b"start F\n"), Err(Refusal::NoTable));
        assert_eq!(maker.check(&tower, BOOK_1, &table), Ok(()));
    }
}

/// Calls at the same time do not disturb each other.
#[test]
fn many_threads() {
    let (tower, table) = (SMALL_TOWER, table_1());
    thread::scope(|scope| {
        for _ in 0..4 {
            scope.spawn(|| {
                let mut maker = Maker::new();
                for _ in 0..200 {
                    assert_eq!(maker.make(&tower, BOOK_1).as_ref(), Ok(&table));
                    assert_eq!(maker.make(&tower, b"start F\n"), Err(Refusal::NoTable));
                }
            });
        }
    });
}

/// A thread of the standard library has stack enough for the deepest books.
#[test]
fn the_deepest_books() {
    let deepest = [
        format!("start {}\n", "(".repeat(4_088)),
        format!("start {}T\n", "A".repeat(4_000)),
        format!("start {}T{}\n", "U(".repeat(815), ",T)".repeat(815)),
    ];
    let numbers = deepest.map(|book| {
        let read = move || read_book(3, book.as_bytes());
        let answer = thread::spawn(read).join().expect("an answer");
        answer.expect_err("a refusal").number()
    });
    assert_eq!(numbers, [6, 9, 9]);
}
