//! Towers with books at random.

use crate::common::{self, lines, tower_file, Random};
use crate::towers;
use reference::book::{self, Book, Node};
use reference::tower::{self, Tower};

/// A tower and the book that rules it, as files and as the reference reads them.
pub struct Ruled {
    pub tower_file: Vec<u8>,
    pub tower: Tower,
    pub text: Vec<u8>,
    pub book: Book,
}

impl Ruled {
    fn of_files(tower_file: Vec<u8>, text: Vec<u8>) -> Self {
        let tower = tower::parse(&tower_file).expect("a tower that is fit to use");
        let book = book::read(tower.marks, &text).expect("a book that is fit to use");
        Ruled {
            tower_file,
            tower,
            text,
            book,
        }
    }

    /// The same tower under another book.
    pub fn with_book(&self, text: Vec<u8>) -> Self {
        Ruled::of_files(self.tower_file.clone(), text)
    }
}

/// A tower with a book, mostly both small.
pub fn any(random: &mut Random) -> Ruled {
    let (tower_file, marks) = if random.once_in(50) {
        let file = towers::fit(random);
        let marks = usize::from(file[2]);
        (file, marks)
    } else {
        let (file, tower) = common::random_tower(random, 4);
        (file, tower.marks)
    };
    let (text, _) = common::random_book(random, marks);
    Ruled::of_files(tower_file, text)
}

/// A small tower with a book in which both sides of `|` may be timed.
pub fn either(random: &mut Random) -> Ruled {
    let (tower_file, tower) = common::random_tower(random, 4);
    let (text, _) = common::either_book(random, tower.marks);
    Ruled::of_files(tower_file, text)
}

/// Whether both sides of some `|` are timed.
pub fn two_timed(book: &Book) -> bool {
    let both = |node: &Node| matches!(*node, Node::Or(first, second) if book.timed[first] && book.timed[second]);
    book.nodes.iter().any(both)
}

/// A tower with a book that leaves something pending for about 1,000 steps of one tick.
pub fn slow(random: &mut Random) -> Ruled {
    let (tower_file, tower) = common::random_tower(random, 2);
    let (mut text, _) = common::random_book(random, tower.marks.min(2));
    let ticks = 800 + random.below(400);
    text.extend(lasting(random, 1, ticks));
    match book::read(tower.marks, &text) {
        Ok(_) => Ruled::of_files(tower_file, text),
        // Over 60 nodes.
        Err(_) => Ruled::of_files(tower_file, lasting(random, 1, ticks)),
    }
}

/// A ring with one action of one tick, and a book with which about 1,000 pairs are met, each counted once
/// for each of its alternatives; of them `onward` have nothing pending. Half of the books have one
/// alternative, the others up to four.
pub fn ring(random: &mut Random, states: usize, onward: usize) -> Ruled {
    let kind = 1 + random.below(2) as u8;
    let next = |state: usize| vec![((state + 1) % states) as u8];
    let states: Vec<(u16, Vec<u8>)> = (0..states).map(|state| (0, next(state))).collect();
    let pairs = 996 + random.below(9);
    let sides = if random.once_in(2) {
        1
    } else {
        2 + random.below(3)
    };
    let text = match pairs.checked_sub(1 + onward) {
        None => Vec::new(),
        Some(left) if left < sides => lines(&["start T"]),
        Some(left) => lasting(random, sides, left / sides),
    };
    Ruled::of_files(tower_file(0, 0, &[[1, kind]], &states), text)
}

/// One state and two actions, of one tick and of two, and a book of up to five lines: some may be broken by
/// the second action, and none by the first.
pub fn slow_to_break(random: &mut Random) -> Ruled {
    let count = 1 + random.below(5);
    let line = |_| {
        let bound = random.below(255);
        match random.below(9) {
            0 => "always N <= 1 T".to_string(),
            1 => format!("always A {bound} N <= 1 T"),
            2 => format!("always A {bound} A {bound} N <= 1 T"),
            3 => format!("always A {bound} (F | N <= 1 T)"),
            4 => "always N > 0 T & N <= 1 T".to_string(),
            5 => "start A 250 A 250 A 250 A 250 N <= 1 T".to_string(),
            6 => "start A 250 A 250 A 250 A 250 T".to_string(),
            7 => "start E F | A 250 A 250 T | A 250 A 240 T | A 240 A 250 T".to_string(),
            _ => format!("always E {bound} p0"),
        }
    };
    let book: Vec<String> = (0..count).map(line).collect();
    let book: Vec<&str> = book.iter().map(String::as_str).collect();
    let tower = tower_file(1, 0, &[[1, 1], [2, 1]], &[(1, vec![0, 0])]);
    Ruled::of_files(tower, lines(&book))
}

/// A line that is never broken, and with which something is pending at first and after each of so
/// many ticks, and nothing later. After each tick there is an alternative for each of its sides.
fn lasting(random: &mut Random, sides: usize, ticks: usize) -> Vec<u8> {
    let mut side = || {
        let mut side = String::new();
        let mut left = ticks;
        while left > 0 {
            let bound = left.min(150 + random.below(105));
            side += &format!("A {bound} ");
            left -= bound;
        }
        side + "T"
    };
    let sides: Vec<String> = (0..sides).map(|_| side()).collect();
    lines(&[&format!("start {}", sides.join(" | "))])
}
