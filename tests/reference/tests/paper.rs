//! The paper's own examples.

mod common;

use common::{lines, ring, small_table, stopped_table, tower_file, SMALL_TOWER};
use reference::book::{self, Comparison, Line, Node};
use reference::check::{check, Answer};
use reference::follow::follow;
use reference::judge::Reason;
use reference::listing::listing;
use reference::make::{make, pair_count};
use reference::table::Table;
use reference::tower::Kind;
use reference::{table, tower, Refusal};

const BOOK_1: [&str; 2] = ["always !p0 | E 3 p1", "always !p0 | E 3 p2"];

fn made(book: &[&str]) -> Result<Vec<u8>, Refusal> {
    make(&SMALL_TOWER, &lines(book), table::most_bytes())
}

/// Rows and steps of a made table.
fn counts(book: &[&str]) -> (usize, usize) {
    let table = table::decode(&made(book).unwrap()).unwrap();
    (table.rows.len(), table.step_count())
}

/// The small tower with one byte changed.
fn changed(at: usize, byte: u8) -> Vec<u8> {
    let mut file = SMALL_TOWER.to_vec();
    file[at] = byte;
    file
}

fn refusal_of_tower(file: &[u8]) -> Refusal {
    tower::parse(file).unwrap_err()
}

fn refusal_of_book(text: &[u8]) -> Refusal {
    book::read(3, text).unwrap_err()
}

#[test]
fn examples_of_tower_refusals() {
    assert_eq!(refusal_of_tower(&SMALL_TOWER[..7]), Refusal::new(1));
    assert_eq!(refusal_of_tower(&changed(0, 0)), Refusal::new(2));
    assert_eq!(refusal_of_tower(&changed(8, 0)), Refusal::new(3));
    assert_eq!(refusal_of_tower(&changed(18, 3)), Refusal::new(4));
    assert_eq!(refusal_of_tower(&changed(16, 8)), Refusal::new(5));
}

#[test]
fn order_of_tower_refusals() {
    // From the last refusal to the first, each change wins over those before it.
    let mut file = SMALL_TOWER.to_vec();
    let mut change = |at: usize, byte: u8| {
        file[at] = byte;
        refusal_of_tower(&file).number
    };
    assert_eq!(change(16, 8), 5);
    assert_eq!(change(33, 3), 4);
    assert_eq!(change(15, 3), 3);
    assert_eq!(change(4, 9), 1);
    assert_eq!(change(3, 3), 2);
    assert_eq!(refusal_of_tower(&file[..7]).number, 1);
    assert_eq!(refusal_of_tower(&SMALL_TOWER[..33]).number, 1);
    assert_eq!(
        refusal_of_tower(&[&SMALL_TOWER[..], &[0]].concat()).number,
        1
    );
    assert_eq!(refusal_of_tower(&changed(7, 1)).number, 1);
    for (at, byte) in [(0, 201), (1, 0), (1, 17), (2, 17), (3, 3)] {
        assert_eq!(refusal_of_tower(&changed(at, byte)).number, 2);
    }
}

/// Only ours may be withheld; ours and what is sure to come go on.
#[test]
fn kinds_of_actions() {
    let small = tower::parse(&SMALL_TOWER).unwrap();
    let kinds = [Kind::Ours, Kind::Sure, Kind::Ours, Kind::Sure];
    assert_eq!([0, 1, 2, 3].map(|action| small.kind(action)), kinds);
    let means = Kind::ALL.map(|kind| (kind.controllable(), kind.goes_on()));
    assert_eq!(means, [(false, false), (true, true), (false, true)]);
    assert_eq!(refusal_of_tower(&changed(11, 3)), Refusal::new(3));
}

/// One state with two actions of these kinds, of one tick and of two.
fn two_kinds(first: u8, second: u8) -> Vec<u8> {
    tower_file(0, 0, &[[1, first], [2, second]], &[(0, vec![0, 0])])
}

/// Under a rule that the second action breaks, a table may only allow the first.
#[test]
fn rows_that_wait_for_the_player_alone() {
    let rule = lines(&["always N <= 1 T"]);
    let first_alone = Table::of_rows(1, 2, &[(0, &[(0, 0)])]).encode();
    let none = Err(Refusal::new(12));
    let stopped = Answer::NotGood(Reason::Stopped, 0);
    let withheld = Answer::NotGood(Reason::Withheld, 0);
    for (first, second, made, judged) in [
        (0, 1, none.clone(), stopped),
        (1, 1, Ok(first_alone.clone()), Answer::Good),
        (2, 1, Ok(first_alone.clone()), Answer::Good),
        (1, 0, none.clone(), withheld),
        (1, 2, none, withheld),
    ] {
        let tower = two_kinds(first, second);
        assert_eq!(make(&tower, &rule, table::most_bytes()), made);
        assert_eq!(check(&tower, &rule, &first_alone), judged);
    }
    let small = |kind: u8| {
        let mut tower = SMALL_TOWER;
        (tower[11], tower[15]) = (kind, kind);
        make(&tower, b"", table::most_bytes()).err()
    };
    assert_eq!([0, 1, 2].map(small), [Some(Refusal::new(12)), None, None]);
}

#[test]
fn examples_of_book_refusals() {
    assert_eq!(refusal_of_book(b"always &\n"), Refusal::at(6, 0));
    assert_eq!(refusal_of_book(b"start A 255 T\n"), Refusal::at(7, 0));
    assert_eq!(refusal_of_book(b"start p3\n"), Refusal::at(8, 0));
    assert_eq!(
        refusal_of_book(&lines(&["start T"; 61])),
        Refusal::at(9, 60)
    );
    let timed_end = lines(&["start U 1 (T, E 1 p0)"]);
    assert_eq!(refusal_of_book(&timed_end), Refusal::at(10, 0));
    assert_eq!(book::read(17, b"&").unwrap_err(), Refusal::new(2));
}

#[test]
fn examples_of_other_refusals() {
    assert_eq!(made(&["start F"]), Err(Refusal::new(12)));

    let table = made(&BOOK_1).unwrap();
    assert_eq!(table.len(), 50);
    let book = lines(&BOOK_1);
    assert_eq!(make(&SMALL_TOWER, &book, 49), Err(Refusal::new(16)));
    assert_eq!(make(&SMALL_TOWER, &book, 50).as_ref(), Ok(&table));

    let mut to_no_row = table.clone();
    to_no_row[table::target_at(5, 0)] = 5;
    let answer = check(&SMALL_TOWER, &book, &to_no_row);
    assert_eq!(answer, Answer::Refused(Refusal::new(13)));

    let answer = check(&SMALL_TOWER, &book, &stopped_table().encode());
    assert_eq!(answer, Answer::NotGood(Reason::Stopped, 0));
    assert_eq!(answer.to_string(), "refused 14 0 d");

    assert_eq!(follow(&table, 5, 0), Err(Refusal::new(17)));
    assert_eq!(follow(&table, 0, 4), Err(Refusal::new(17)));
    assert_eq!(follow(&table, 3, 0), Err(Refusal::new(18)));
    assert_eq!(follow(&table, 0, 2), Ok(2));
    assert_eq!(follow(&to_no_row, 5, 0), Err(Refusal::new(13)));
}

#[test]
fn reasons_of_a_table_that_is_not_good() {
    let table = made(&[]).unwrap();
    let answer = |at: usize, byte: u8| {
        let mut table = table.clone();
        table[at] = byte;
        check(&SMALL_TOWER, b"", &table)
    };
    let start = answer(table::state_at(0), 1);
    assert_eq!(start, Answer::NotGood(Reason::Start, 0));
    let withheld = answer(table::action_at(3, 2), 0);
    assert_eq!(withheld, Answer::NotGood(Reason::Withheld, 1));
    let misled = answer(table::target_at(3, 3), 1);
    assert_eq!(misled, Answer::NotGood(Reason::Misled, 2));
    assert_eq!(answer(8, 4), Answer::Refused(Refusal::new(13)));
    assert_eq!(check(&SMALL_TOWER, b"", &table), Answer::Good);
}

#[test]
fn outcomes_of_the_small_tower_table() {
    let first = made(&BOOK_1).unwrap();
    let fifth = made(&[]).unwrap();
    assert_eq!(first, small_table().encode());
    assert_eq!(first.len(), 50);
    let with_4 = made(&["always !p0 | E 4 p1", "always !p0 | E 4 p2"]);
    assert_eq!(with_4.as_ref(), Ok(&first));
    let joined = made(&["always !p0 | (E 3 p1 & E 3 p2)"]);
    assert_eq!(joined.as_ref(), Ok(&first));
    let with_2 = made(&["always !p0 | E 2 p1", "always !p0 | E 2 p2"]);
    assert_eq!(with_2, Err(Refusal::new(12)));
    assert_eq!(counts(&[]), (3, 4));
    assert_eq!(counts(&["always !p1"]), (2, 2));
    assert_eq!(counts(&["start E 1 p1"]), (4, 5));
    assert_eq!(made(&["start A 0 p0"]).as_ref(), Ok(&fifth));
    assert_eq!(made(&["start A 1 p0"]), Err(Refusal::new(12)));
    assert_eq!(made(&["always N <= 1 T"]).as_ref(), Ok(&fifth));
    let answer = check(&SMALL_TOWER, &lines(&BOOK_1), &fifth);
    assert_eq!(answer, Answer::NotGood(Reason::Broken, 0));
    assert_eq!(answer.to_string(), "refused 14 0 e");
}

#[test]
fn listing_of_the_first_outcome() {
    let table = table::decode(&made(&BOOK_1).unwrap()).unwrap();
    let expected = "rows 5 steps 6\n\
                    0 0 0>1 2>2\n\
                    1 1 1>3\n\
                    2 2 3>4\n\
                    3 0 2>2\n\
                    4 0 0>1\n";
    assert_eq!(listing(Ok(&table)), expected);
    assert_eq!(listing(Err(Refusal::at(9, 60))), "refused 9 60\n");
}

#[test]
fn pairs_of_the_ring() {
    let count = |rule: &str| {
        let tower = tower::parse(&ring()).unwrap();
        pair_count(&tower, &book::read(0, &lines(&[rule])).unwrap())
    };
    let most = "start A 200 A 200 A 200 A 199 T";
    let over = "start A 200 A 200 A 200 A 200 T";
    assert_eq!(count(most), Some(1_000));
    assert_eq!(count(over), None);
    assert_eq!(count("start T"), Some(201));

    let table = make(&ring(), &lines(&[most]), table::most_bytes()).unwrap();
    assert_eq!(check(&ring(), &lines(&[most]), &table), Answer::Good);
    assert_eq!(
        make(&ring(), &lines(&[over]), table::most_bytes()),
        Err(Refusal::new(11))
    );
    let answer = check(&ring(), &lines(&[over]), &table);
    assert_eq!(answer, Answer::Refused(Refusal::new(11)));
}

#[test]
fn over_1_000_pairs_wins_over_a_broken_run() {
    // A ring of 199 states, from each of which one may step aside to a state that breaks a rule.
    let mut states: Vec<(u16, Vec<u8>)> = (0..199).map(|s| (0, vec![(s + 1) % 199, 199])).collect();
    states.push((1, vec![199, 255]));
    let tower = tower_file(1, 0, &[[1, 1], [1, 1]], &states);
    let answer = |rule: &str| {
        let all = make(&tower, b"", table::most_bytes()).unwrap();
        check(&tower, &lines(&[rule, "always !p0"]), &all)
    };
    let broken = Answer::NotGood(Reason::Broken, 0);
    assert_eq!(answer("start A 100 T"), broken);
    let over = "start A 250 A 250 A 250 A 250 T";
    assert_eq!(answer(over), Answer::Refused(Refusal::new(11)));
}

#[test]
fn nodes_in_reading_order_with_operands_first() {
    let text = lines(&["always !p0|E p1&A3 p2", "start U 7 (N >= 2 T, F)"]);
    let book = book::read(3, &text).unwrap();
    let mark = |index, negated| Node::Mark { index, negated };
    let expected = [
        mark(0, true),
        Node::Constant(true),
        mark(1, false),
        Node::Until {
            bound: 20,
            first: 1,
            second: 2,
        },
        mark(2, false),
        Node::Always { bound: 3, part: 4 },
        Node::And(3, 5),
        Node::Or(0, 6),
        Node::Constant(true),
        Node::Next {
            comparison: Comparison::AtLeast,
            bound: 2,
            part: 8,
        },
        Node::Constant(false),
        Node::Until {
            bound: 7,
            first: 9,
            second: 10,
        },
    ];
    assert_eq!(book.nodes, expected);
    let [always, start] = [(true, 7), (false, 11)].map(|(always, root)| Line { always, root });
    assert_eq!(book.lines, [always, start]);
}

#[test]
fn connectives_are_grouped_from_the_left() {
    let nodes = |line: &str| book::read(3, &lines(&[line])).unwrap().nodes;
    let and = nodes("start T & T & T");
    assert_eq!(
        and[2..],
        [Node::And(0, 1), Node::Constant(true), Node::And(2, 3)]
    );
    let mixed = nodes("start T | T & T | T");
    assert_eq!(mixed[3..5], [Node::And(1, 2), Node::Or(0, 3)]);
    assert_eq!(mixed[6], Node::Or(4, 5));
    assert_eq!(nodes("start A(T)&T").last(), Some(&Node::And(1, 2)));
}

/// Lines that are read, and lines of each refusal, under three marks.
#[test]
fn lines_of_the_grammar_and_others() {
    let deep =
        |open: usize, close: usize| format!("start {}T{}", "(".repeat(open), ")".repeat(close));
    let many = |count: usize| format!("start {}T", "A".repeat(count));
    let fine = [
        "always  T",
        "start AA3N<=1!p0&T",
        "start A007 p02",
        "start U(A T,p0)|T",
        "start U 0 (U 1 ( T , T ) , p0 & p1 | p2)",
        "start p0|(p1|N>0F)|p2",
        "start E 254 (p0 | !p1)",
        "start A N < 254 E T",
        "start A 0 p0 | N < 1 T",
        "start A T | p0 | U (T, T)",
        &deep(16, 16),
        &many(59),
    ];
    for line in fine {
        assert!(book::read(3, &lines(&[line])).is_ok(), "{line}");
    }
    let refused = [
        (6, ""),
        (6, "start"),
        (6, "start "),
        (6, " start T"),
        (6, "start T "),
        (6, "always(p0)"),
        (6, "alwaysT"),
        (6, "Start T"),
        (6, "start T\r"),
        (6, "start\tT"),
        (6, "start T T"),
        (6, "start A 1000 T"),
        (6, "start A 1 1 T"),
        (6, "start p100"),
        (6, "start ! p0"),
        (6, "start p 0"),
        (6, "start !T"),
        (6, "start !(p0)"),
        (6, "start !!p0"),
        (6, "start N < = 1 T"),
        (6, "start N <= T"),
        (6, "start N 1 T"),
        (6, "start N T"),
        (6, "start U T"),
        (6, "start U (T)"),
        (6, "start U (T, T, T)"),
        (6, "start (T, T)"),
        (6, "start U 1 2 (T, T)"),
        (6, "start ()"),
        (6, "start (T"),
        (6, "start T)"),
        (6, "start T &"),
        (6, "start | T"),
        (6, "start A 255 &"),
        (6, &deep(4_000, 0)),
        (6, &deep(17, 16)),
        (7, "start A 255 p3 | E A T"),
        (7, "start N > 999 T"),
        (8, "start p3 | E A T"),
        (8, "start !p99"),
        (9, &deep(17, 17)),
        (9, &deep(2_000, 2_000)),
        (9, &many(60)),
        (9, &many(4_000)),
        (10, "start E (p0 | A 1 p1)"),
        (10, "start E A T"),
        (10, "start U (T, p0 & E p0)"),
        (10, "start A T | E (p0 | E p1)"),
    ];
    for (number, line) in refused {
        let refusal = Refusal::at(number, 1);
        assert_eq!(
            refusal_of_book(&lines(&["start T", line])),
            refusal,
            "{line}"
        );
    }
}

#[test]
fn refusals_of_a_book_by_line() {
    assert_eq!(refusal_of_book(b"start T\nstart T"), Refusal::at(6, 1));
    assert_eq!(refusal_of_book(b"start E A T\n&\n"), Refusal::at(10, 0));
    assert_eq!(refusal_of_book(b"start T\n\xff\n"), Refusal::at(6, 1));
    let over_nodes = [lines(&["start T & T"; 21]), b"&\n".to_vec()].concat();
    assert_eq!(refusal_of_book(&over_nodes), Refusal::at(9, 20));
    let longest = format!("start {}T\n", " ".repeat(4_096 - 8));
    assert_eq!(longest.len(), 4_096);
    assert!(book::read(0, longest.as_bytes()).is_ok());
    assert_eq!(refusal_of_book(&[b'&'; 4_097]), Refusal::new(9));
    assert_eq!(refusal_of_book(&[b'&'; 4_096]), Refusal::at(6, 0));
}

/// The paper's layout, byte by byte: the one table here that is not built by a function.
#[test]
fn bytes_of_a_table_file() {
    let bytes = [
        5, 0, 6, 0, 12, 0, 32, 0, 3, 0, 4, 0, // header
        0, 2, 0, 0, 1, 1, 2, 0, 2, 1, 3, 0, 0, 1, 4, 0, 0, 1, 5, 0, // rows
        0, 1, 0, 2, 2, 0, 1, 3, 0, 3, 4, 0, 2, 2, 0, 0, 1, 0, // steps
    ];
    assert_eq!(small_table().encode(), bytes);
    assert_eq!(table::decode(&bytes), Ok(small_table()));
    assert_eq!(table::most_bytes(), 52_012);
}

#[test]
fn layout_of_a_table_file() {
    let table = made(&BOOK_1).unwrap();
    assert_eq!(table::decode(&table).unwrap().encode(), table);
    let damaged = [
        (0, 0),   // no rows
        (0, 4),   // rows and length disagree
        (1, 4),   // over 1,000 rows
        (2, 5),   // steps and length disagree
        (4, 11),  // offset of rows
        (6, 31),  // offset of steps
        (8, 0),   // S
        (8, 201), // S
        (9, 1),   // S
        (10, 0),  // A
        (10, 17), // A
        (table::state_at(0), 3),
        (table::count_at(0), 1),
        (table::count_at(0), 3),
        (table::first_at(0), 1),
        (table::action_at(5, 0), 4),
        (table::action_at(5, 0), 2), // not ascending
        (table::target_at(5, 0), 5),
        (table::target_at(5, 0) + 1, 1),
    ];
    for (at, byte) in damaged {
        let mut file = table.clone();
        file[at] = byte;
        assert_eq!(
            table::decode(&file),
            Err(Refusal::new(13)),
            "byte {at} is {byte}"
        );
    }
    for length in 0..table.len() {
        assert_eq!(table::decode(&table[..length]), Err(Refusal::new(13)));
    }
    let longer = [&table[..], &[0]].concat();
    assert_eq!(table::decode(&longer), Err(Refusal::new(13)));
}
