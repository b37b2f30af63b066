//! The book reader.

use crate::answer::{with_values, Answer};
use crate::areas::{self, Areas, READER_AREAS};
use crate::common::{either_book, random_book, Random};
use crate::entry::{bytes, hexadecimal, Entry};
use reference::{book, Refusal};
use std::fmt;

/// The length of the area that the book reader borrows.
pub const AREA: usize = areas::LEAST[0];

pub fn read(marks: usize, text: &[u8], area: &mut [u8]) -> Answer {
    with_values(2, succoryvise_sys::read_book(marks, text, [area]))
}

pub struct Book;

pub struct Call {
    marks: usize,
    text: Vec<u8>,
    areas: Areas<READER_AREAS>,
}

impl fmt::Display for Call {
    fn fmt(&self, f: &mut fmt::Formatter) -> fmt::Result {
        write!(f, "{} {}", self.marks, hexadecimal(&self.text))
    }
}

impl Entry for Book {
    type Case = Call;

    const NAME: &'static str = "book reader";
    const GENERATED: usize = 100_000;
    const REFUSALS: &'static [u8] = &[2, 6, 7, 8, 9, 10, 15];
    const FILES: &'static [&'static str] = &["book.txt"];

    fn proved(call: &Call) -> Answer {
        let mut areas = call.areas.lend();
        let answer = read(call.marks, &call.text, &mut areas[0]);
        assert!(call.areas.are_right(&areas), "{call}");
        answer
    }

    fn reference(call: &Call) -> Answer {
        if call.areas.too_short() {
            return Refusal::new(15).into();
        }
        match book::read(call.marks, &call.text) {
            Ok(book) => Answer::of_values([book.lines.len(), book.nodes.len()]),
            Err(refusal) => refusal.into(),
        }
    }

    fn generate(random: &mut Random) -> Call {
        let marks = if random.once_in(100) {
            17 + random.below(300)
        } else {
            random.below(17)
        };
        Call {
            marks,
            text: any(random, marks),
            areas: Areas::any(random, 100),
        }
    }

    fn of_line(_: &str, inputs: &[&str]) -> Option<Call> {
        let [marks, text] = inputs else {
            return None;
        };
        Some(Call {
            marks: marks.parse().ok()?,
            text: bytes(text)?,
            areas: Areas::least(),
        })
    }

    fn fits_line(_: &str, answer: &Answer, stated: &str) -> bool {
        stated.strip_prefix("ok ").unwrap_or(stated) == answer.to_string()
    }
}

/// A book under P marks: read in about half of the cases.
pub fn any(random: &mut Random, marks: usize) -> Vec<u8> {
    let any_book = if random.once_in(4) {
        either_book
    } else {
        random_book
    };
    let (mut text, _) = any_book(random, marks.clamp(1, 16));
    match random.below(12) {
        0 => text.extend(deep(random)),
        1 => text.extend(wide(random)),
        2 => text.extend(late(random)),
        3 => text.extend(timed_wrongly(random)),
        4 => text.extend(format!("start p{}\n", random.below(20)).into_bytes()),
        5 | 6 => damage(random, &mut text),
        _ => {}
    }
    if random.once_in(8) {
        damage(random, &mut text);
    }
    text
}

/// Brackets, about as many as may stand open.
fn deep(random: &mut Random) -> Vec<u8> {
    let depth = 13 + random.below(6);
    let open = random.pick(&["(", "( ", "U 3 (T, ", "A("]);
    let close = ")".repeat(depth - usize::from(random.once_in(10)));
    format!("start {}T{close}\n", open.repeat(depth)).into_bytes()
}

/// Nodes, about as many as there may be.
fn wide(random: &mut Random) -> Vec<u8> {
    let join = random.pick(&["&", " | ", "& "]);
    let units: Vec<&str> = (0..20 + random.below(14))
        .map(|_| random.pick(&["T", "F", "!p0", "p0"]))
        .collect();
    format!("always {}\n", units.join(join)).into_bytes()
}

/// A number, about as large as it may be.
fn late(random: &mut Random) -> Vec<u8> {
    let lead = random.pick(&["A", "E ", "N <= ", "N>"]);
    format!("start {lead}{} T\n", 230 + random.below(60)).into_bytes()
}

/// A timed formula where it may not be.
fn timed_wrongly(random: &mut Random) -> Vec<u8> {
    let line = random.pick(&[
        "start U 1 (T, E 1 p0)",
        "always U 2 (T, N < 3 T)",
        "start E A T",
        "start (A 3 T & T) | E (F & E T)",
    ]);
    format!("{line}\n").into_bytes()
}

/// Changes, drops or adds a byte, most often one that the grammar knows.
fn damage(random: &mut Random, text: &mut Vec<u8>) {
    const LETTERS: &[u8] = b"TFp!&|NAEU<>=()0123456789, \nalwysrt";
    let byte = if random.once_in(6) {
        random.below(256) as u8
    } else {
        LETTERS[random.below(LETTERS.len())]
    };
    let at = random.below(text.len() + 1);
    match random.below(3) {
        0 => text.insert(at, byte),
        1 if at < text.len() => text[at] = byte,
        _ if at < text.len() => {
            text.remove(at);
        }
        _ => text.push(byte),
    }
}
