//! Item 3 of the change requests, either of two promises: its examples.

mod common;

use common::{either_book, lines, random_tower, tower_file, Random};
use reference::check::{check, Answer};
use reference::judge::Reason;
use reference::make::{make, make_table, pair_count};
use reference::table::Table;
use reference::{book, table, tower, Refusal};
use std::collections::BTreeMap;

fn made(tower: &[u8], book: &[&str]) -> Result<Vec<u8>, Refusal> {
    make(tower, &lines(book), table::most_bytes())
}

fn checked(tower: &[u8], book: &[&str], table: &[u8]) -> Answer {
    check(tower, &lines(book), table)
}

/// A ring of so many states with all of four marks, and one action of one tick.
fn ring(states: u8) -> Vec<u8> {
    let state = |state: u8| (15, vec![(state + 1) % states]);
    let states: Vec<(u16, Vec<u8>)> = (0..states).map(state).collect();
    tower_file(4, 0, &[[1, 1]], &states)
}

/// A formula of so many alternatives in each step of one tick.
fn choice(count: usize) -> String {
    vec!["A 1 T"; count].join(" | ")
}

#[test]
fn timed_where_it_may_not_be() {
    let read = |line: &str| {
        let book = book::read(3, &lines(&[line]));
        book.map(|_| ()).map_err(|refusal| refusal.number)
    };
    assert_eq!(read("always !p0 | E 4 p1 | A 6 p2"), Ok(()));
    for line in ["start U 1 (T, E 1 p0)", "start E 1 (p0 | A 1 p1)"] {
        assert_eq!(read(line), Err(10));
    }
}

#[test]
fn a_pair_counts_once_for_each_alternative() {
    let rule = "start A 200 p0 | A 200 p1 | A 200 p2 | A 200 p3";
    let count = |states: u8| {
        let tower = tower::parse(&ring(states)).unwrap();
        pair_count(&tower, &book::read(4, &lines(&[rule])).unwrap())
    };
    assert_eq!(count(199), Some(1_000));
    assert_eq!(count(200), None);
    assert_eq!(made(&ring(200), &[rule]), Err(Refusal::new(11)));
    let table = made(&ring(199), &[rule]).unwrap();
    assert_eq!(checked(&ring(199), &[rule], &table), Answer::Good);
}

/// Either promise may be the one that is kept: with mark 0 on state 0 and mark 1 on state 1, one may
/// stay at either.
#[test]
fn either_of_two_promises() {
    let tower = tower_file(2, 0, &[[1, 1], [1, 1]], &[(1, vec![0, 1]), (2, vec![0, 1])]);
    let table = made(&tower, &["start A 1 p0 | N > 0 A 1 p1"]).unwrap();
    let table = table::decode(&table).unwrap();
    assert!(table.allows(&[0, 0, 0]) && table.allows(&[0, 1, 1]) && table.allows(&[1, 1, 1]));
    assert!(!table.allows(&[1, 0]));
}

/// What is left after dropping counts, in what is combined.
#[test]
fn sixteen_alternatives_are_fine() {
    let always = |formula: String| format!("always {formula}");
    for count in [1, 2, 15, 16] {
        let book = [&*always(choice(count))];
        let table = made(&ring(1), &book).unwrap();
        assert_eq!(checked(&ring(1), &book, &table), Answer::Good);
    }
    let [four, five, seventeen] = [4, 5, 17].map(|count| always(choice(count)));
    assert!(made(&ring(1), &[&four, &four]).is_ok());
    assert_eq!(made(&ring(1), &[&four, &five]), Err(Refusal::new(20)));
    assert_eq!(made(&ring(1), &[&seventeen]), Err(Refusal::new(20)));
    assert!(made(&ring(1), &[&always(choice(15) + " | A 0 T | A 1 T")]).is_ok());
    assert!(made(&ring(1), &[&always(format!("T | ({})", choice(17)))]).is_ok());
    let ended = |first: &str, second: &str| format!("always U 0 ({first}, {second})");
    assert!(made(&ring(1), &[&ended(&choice(17), "T")]).is_ok());
    assert_eq!(
        made(&ring(1), &[&ended(&choice(17), "F")]),
        Err(Refusal::new(12))
    );
}

/// What N makes pending is a node, be it T, and asks more than nothing.
#[test]
fn the_part_of_next_is_pending_as_it_stands() {
    let beside = |side: &str| made(&ring(1), &[&format!("always {} | {side}", choice(16))]);
    assert_eq!(beside("N > 0 T"), Err(Refusal::new(20)));
    assert_eq!(beside("N > 0 (T | A 1 T)"), Err(Refusal::new(20)));
    assert!(beside("N > 1 T").is_ok());
    assert!(beside("U 1 (F, T)").is_ok());
}

/// Combining with no alternative gives none, but each line is looked at.
#[test]
fn broken_and_over_full() {
    let [four, five, twenty] = [4, 5, 20].map(|count| format!("always {}", choice(count)));
    let number = |book: &[&str]| made(&ring(1), book).unwrap_err().number;
    assert_eq!(number(&["always F", &five, &four]), 12);
    assert_eq!(number(&[&five, "always F", &four]), 12);
    assert_eq!(number(&[&five, &four, "always F"]), 20);
    assert_eq!(number(&["always F", &twenty]), 20);
    assert_eq!(number(&[&twenty, "always F"]), 20);
    let both = format!("always F & ({})", choice(17));
    assert_eq!(number(&[&both]), 20);
}

/// A ring of 199 states, from each of which one may step aside to a state that gives 17 alternatives.
#[test]
fn order_of_11_and_20() {
    let mut states: Vec<(u16, Vec<u8>)> = (0..199).map(|s| (0, vec![(s + 1) % 199, 199])).collect();
    states.push((1, vec![199, 255]));
    let tower = tower_file(1, 0, &[[1, 1], [1, 1]], &states);
    let all = made(&tower, &[]).unwrap();
    let ring: Vec<[(usize, usize); 1]> = (0..199).map(|s| [(0, (s + 1) % 199)]).collect();
    let rows = ring.iter().enumerate();
    let rows: Vec<(usize, &[(usize, usize)])> = rows.map(|(s, row)| (s, &row[..])).collect();
    let ring_alone = Table::of_rows(200, 2, &rows).encode();
    let aside = format!("always !p0 | ({})", choice(17));
    let over_full = Refusal::new(20);
    for first in ["start A 100 T", "start E 3 F"] {
        let book = [first, &aside];
        assert_eq!(made(&tower, &book), Err(over_full));
        let answer = checked(&tower, &book, &all);
        assert_eq!(answer, Answer::Refused(over_full));
    }
    // The checker tries the allowed actions alone.
    let answer = checked(&tower, &["start A 100 T", &aside], &ring_alone);
    assert_eq!(answer, Answer::Good);
    let answer = checked(&tower, &["start E 3 F", &aside], &ring_alone);
    assert_eq!(answer, Answer::NotGood(Reason::Broken, 0));
    let over = ["start A 250 A 250 A 250 A 250 T", &aside];
    assert_eq!(made(&tower, &over), Err(Refusal::new(11)));
    let answer = checked(&tower, &over, &all);
    assert_eq!(answer, Answer::Refused(Refusal::new(11)));
}

/// Generated books come to every answer.
#[test]
fn answers_that_come() {
    let mut random = Random::new(0x5EED_000B);
    let mut counts = BTreeMap::new();
    for _ in 0..4_000 {
        let (_, tower) = random_tower(&mut random, 3);
        let (_, book) = either_book(&mut random, tower.marks);
        let number = make_table(&tower, &book).map_or_else(|refusal| refusal.number, |_| 0);
        *counts.entry(number).or_insert(0) += 1;
    }
    assert!(
        [0, 12, 20].iter().all(|number| counts[number] > 100),
        "{counts:?}"
    );
}
