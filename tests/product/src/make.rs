//! The maker.

use crate::answer::{with_values, Answer};
use crate::areas::{self, slices, Areas, MAKER_AREAS};
use crate::common::Random;
use crate::entry::{bytes, hexadecimal, Entry};
use crate::ruled::{self, Ruled};
use crate::{book, check, tables, towers};
use reference::{make, table, tower, Refusal};
use std::fmt;

/// Work areas of the maker.
type Lent = [Vec<u8>; MAKER_AREAS];

/// The maker, with this output and these areas. The value is the length of the table.
pub fn make_with(tower: &[u8], text: &[u8], out: &mut [u8], areas: &mut Lent) -> Answer {
    with_values(1, succoryvise_sys::make(tower, text, out, slices(areas)))
}

/// The table that the maker makes in an output of this length, or its refusal. Areas and output are
/// afterwards as they have to be.
fn made(call: &Call) -> Result<Vec<u8>, Answer> {
    let mut areas = call.areas.lend();
    let before = areas::noise(call.room);
    let mut out = before.to_vec();
    let answer = make_with(&call.tower, &call.text, &mut out, &mut areas);
    assert!(call.areas.are_right(&areas), "{call}");
    let length = answer.values.first().copied().unwrap_or(0);
    assert!(out[length..] == before[length..], "{call}");
    if answer.number != 0 {
        return Err(answer);
    }
    out.truncate(length);
    Ok(out)
}

/// The table, in an output that is long enough for every table.
pub fn make(tower: &[u8], text: &[u8]) -> Result<Vec<u8>, Answer> {
    made(&Call::new(tower.to_vec(), text.to_vec()))
}

pub struct Make;

pub struct Call {
    tower: Vec<u8>,
    text: Vec<u8>,
    /// The length of the output.
    room: usize,
    areas: Areas<MAKER_AREAS>,
}

impl Call {
    /// A tower and a book, with an output that is long enough for every table.
    pub fn new(tower: Vec<u8>, text: Vec<u8>) -> Self {
        Call {
            tower,
            text,
            room: table::most_bytes(),
            areas: Areas::least(),
        }
    }
}

impl fmt::Display for Call {
    fn fmt(&self, f: &mut fmt::Formatter) -> fmt::Result {
        let [tower, text] = [&self.tower, &self.text].map(|bytes| hexadecimal(bytes));
        write!(f, "{tower} {text} {}", self.room)
    }
}

/// The length and the bytes of a table.
fn answer(made: Result<Vec<u8>, Answer>) -> Answer {
    match made {
        Ok(file) => {
            let bytes = file.iter().map(|byte| usize::from(*byte));
            let values: Vec<usize> = [file.len()].into_iter().chain(bytes).collect();
            Answer::of_values(values)
        }
        Err(refused) => refused,
    }
}

/// The bytes of a table, out of such an answer.
pub fn file(answer: &Answer) -> Vec<u8> {
    let bytes = answer.values.iter().skip(1);
    bytes.map(|byte| *byte as u8).collect()
}

impl Entry for Make {
    type Case = Call;

    const NAME: &'static str = "maker";
    const GENERATED: usize = 60_000;
    const REFUSALS: &'static [u8] = &[1, 2, 3, 4, 5, 6, 7, 8, 9, 10, 11, 12, 15, 16, 20];
    const KINDS: &'static [(&'static str, usize)] = &[
        (WITHHOLDS, 10),
        (REPEATS, 30),
        (WAITS, 500),
        (NARROWER, 500),
        (EITHER, 20),
        (EITHER_NONE, 100),
        (EITHER_OVER, 1_000),
    ];
    const FILES: &'static [&'static str] = &["make.txt"];

    /// A table that is made is accepted by the checker, under its own book.
    fn proved(call: &Call) -> Answer {
        let made = made(call);
        if let Ok(table) = &made {
            let verdict = check::check(&call.tower, &call.text, table);
            assert_eq!(verdict, Answer::default(), "{call}");
        }
        answer(made)
    }

    fn reference(call: &Call) -> Answer {
        if call.areas.too_short() {
            return Refusal::new(15).into();
        }
        answer(make::make(&call.tower, &call.text, call.room).map_err(Answer::from))
    }

    /// Tower and book; one in ten has another tower or book, mostly not fit to use. One in ten
    /// outputs is too short, and some are longer than the table.
    fn generate(random: &mut Random) -> Call {
        let ruled = to_make(random);
        let made = make::make_table(&ruled.tower, &ruled.book);
        let length = made.map_or(0, |table| table.encode().len());
        let room = match random.below(20) {
            0 => length.saturating_sub(1),
            1 => random.below(length + 1),
            2..=9 => length,
            _ => length + random.below(300),
        };
        let (mut tower, mut text) = (ruled.tower_file, ruled.text);
        match random.below(40) {
            0 => tower = towers::any(random),
            1 | 2 => towers::edit(random, &mut tower),
            3..=5 => text = book::any(random, usize::from(tower[2])),
            _ => {}
        }
        Call {
            tower,
            text,
            room,
            areas: Areas::any(random, 50),
        }
    }

    fn kinds(call: &Call, answer: &Answer) -> Vec<&'static str> {
        let mut kinds = Vec::new();
        if answer.number == 0 {
            let tower = tower::parse(&call.tower).expect("the tower of a made table");
            let table = table::decode(&file(answer)).expect("a made table");
            if tables::withholds(&tower, &table) {
                kinds.push(WITHHOLDS);
            }
            if tables::repeats(&table) {
                kinds.push(REPEATS);
            }
        }
        if matches!(answer.number, 0 | 11 | 12) {
            let tower = tower::parse(&call.tower).expect("a tower that is fit to use");
            let book = reference::book::read(tower.marks, &call.text);
            if ruled::two_timed(&book.expect("a book that is fit to use")) {
                kinds.push(match answer.number {
                    0 => EITHER,
                    11 => EITHER_OVER,
                    _ => EITHER_NONE,
                });
            }
        }
        if matches!(answer.number, 0 | 12) {
            let sure = make::make(&all_sure(&call.tower), &call.text, table::most_bytes());
            match (answer.number, sure) {
                (12, Ok(table)) => {
                    // docs/GUIDE-RULES.md: it waits for the player alone, and the checker says where.
                    let judged = check::expected(&call.tower, &call.text, &table);
                    assert_eq!((judged.number, judged.letter), (14, b'd'), "{call}");
                    kinds.push(WAITS);
                }
                (0, Ok(other)) if other != file(answer) => kinds.push(NARROWER),
                _ => {}
            }
        }
        kinds
    }

    fn of_line(_: &str, inputs: &[&str]) -> Option<Call> {
        let [tower, text, room] = inputs else {
            return None;
        };
        Some(Call {
            tower: bytes(tower)?,
            text: bytes(text)?,
            room: room.parse().ok()?,
            areas: Areas::least(),
        })
    }

    fn fits_line(_: &str, answer: &Answer, stated: &str) -> bool {
        match stated.strip_prefix("made ") {
            Some(table) => answer.number == 0 && hexadecimal(&file(answer)) == table,
            None => answer.to_string() == stated,
        }
    }
}

/// A tower and a book; one in a hundred has about 1,000 pairs on a ring.
fn to_make(random: &mut Random) -> Ruled {
    match random.below(100) {
        0 => {
            let states = 1 + random.below(200);
            ruled::ring(random, states, states)
        }
        1 | 2 => ruled::slow(random),
        3..=40 => ruled::any(random),
        41..=48 => ruled::either(random),
        49..=58 => tables::demanding(random, ruled::either),
        _ => tables::demanding(random, ruled::any),
    }
}

/// The tower with the player's actions sure to come.
fn all_sure(tower: &[u8]) -> Vec<u8> {
    let mut file = tower.to_vec();
    for action in 0..usize::from(tower[1]) {
        let kind = &mut file[tower::HEADER + tower::ACTION * action + 1];
        if *kind == 0 {
            *kind = 2;
        }
    }
    file
}

const WAITS: &str = "12, and a table if the player's actions were sure to come";
const NARROWER: &str = "another table if the player's actions were sure to come";
const EITHER: &str = "a table, under a book with two timed sides";
const EITHER_NONE: &str = "12, under a book with two timed sides";
const EITHER_OVER: &str = "11, under a book with two timed sides";
const WITHHOLDS: &str = "an enabled action is withheld";
const REPEATS: &str = "two rows have one state";
