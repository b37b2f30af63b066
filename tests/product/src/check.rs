//! The checker.

use crate::answer::{with_values, Answer};
use crate::areas::{slices, Areas, CHECKER_AREAS};
use crate::common::Random;
use crate::entry::{bytes, hexadecimal, Entry};
use crate::{book, ruled, tables, towers};
use reference::table::{self, Row, Step};
use reference::tower::{self, Kind, Tower};
use reference::{check, Refusal};
use std::fmt;

/// Work areas of the checker.
type Lent = [Vec<u8>; CHECKER_AREAS];

/// The checker, with these areas.
pub fn check_with(tower: &[u8], text: &[u8], table: &[u8], areas: &mut Lent) -> Answer {
    with_values(0, succoryvise_sys::check(tower, text, table, slices(areas)))
}

/// The checker, with areas that are just long enough.
pub fn check(tower: &[u8], text: &[u8], table: &[u8]) -> Answer {
    check_with(tower, text, table, &mut Areas::least().lend())
}

/// The reference's answer.
pub fn expected(tower: &[u8], text: &[u8], table: &[u8]) -> Answer {
    of_reference(check::check(tower, text, table))
}

/// An answer of the reference.
pub fn of_reference(answer: check::Answer) -> Answer {
    match answer {
        check::Answer::Good => Answer::default(),
        check::Answer::NotGood(reason, place) => Answer::not_good(reason, place),
        check::Answer::Refused(refusal) => refusal.into(),
    }
}

pub struct Check;

pub struct Call {
    tower: Vec<u8>,
    text: Vec<u8>,
    table: Vec<u8>,
    areas: Areas<CHECKER_AREAS>,
}

impl fmt::Display for Call {
    fn fmt(&self, f: &mut fmt::Formatter) -> fmt::Result {
        let [tower, text, table] = [&self.tower, &self.text, &self.table].map(|b| hexadecimal(b));
        write!(f, "{tower} {text} {table}")
    }
}

impl Entry for Check {
    type Case = Call;

    const NAME: &'static str = "checker";
    const GENERATED: usize = 60_000;
    const REFUSALS: &'static [u8] = &[1, 2, 3, 4, 5, 6, 7, 8, 9, 10, 11, 13, 14, 15, 20];
    const KINDS: &'static [(&'static str, usize)] = &[
        ("14 a", 500),
        ("14 b", 500),
        ("14 c", 500),
        ("14 d", 500),
        ("14 e", 500),
        (SURE_WITHHELD, 500),
        (PLAYER_ALONE, 500),
        (GOES_ON_BY_SURE, 100),
        (EITHER, 20),
        (EITHER_BROKEN, 100),
        (EITHER_OVER, 1_000),
    ];
    const FILES: &'static [&'static str] = &["check.txt"];

    fn proved(call: &Call) -> Answer {
        let mut areas = call.areas.lend();
        let answer = check_with(&call.tower, &call.text, &call.table, &mut areas);
        assert!(call.areas.are_right(&areas), "{call}");
        answer
    }

    fn reference(call: &Call) -> Answer {
        if call.areas.too_short() {
            return Refusal::new(15).into();
        }
        expected(&call.tower, &call.text, &call.table)
    }

    /// Tower, book and table; one in ten has another tower or book, mostly not fit to use.
    fn generate(random: &mut Random) -> Call {
        let (ruled, table) = tables::to_judge(random);
        let (mut tower, mut text) = (ruled.tower_file, ruled.text);
        match random.below(40) {
            0 => tower = towers::any(random),
            1 | 2 => towers::edit(random, &mut tower),
            3..=5 => text = book::any(random, usize::from(tower[2])),
            _ => {}
        }
        Call {
            tower,
            text,
            table,
            areas: Areas::any(random, 50),
        }
    }

    fn kinds(call: &Call, answer: &Answer) -> Vec<&'static str> {
        let further = match (answer.number, answer.letter) {
            (0, _) => goes_on_by_sure(call).then_some(GOES_ON_BY_SURE),
            (14, b'b') => withholds_sure(call, answer.place).then_some(SURE_WITHHELD),
            (14, b'd') => {
                let player_alone = !rows(call)[answer.place].steps.is_empty();
                player_alone.then_some(PLAYER_ALONE)
            }
            _ => None,
        };
        let either = match (answer.number, answer.letter) {
            (0, _) => two_timed(call).then_some(EITHER),
            (11, _) => two_timed(call).then_some(EITHER_OVER),
            (14, b'e') => two_timed(call).then_some(EITHER_BROKEN),
            _ => None,
        };
        let reason = answer.reason().into_iter();
        reason.chain(further).chain(either).collect()
    }

    fn of_line(_: &str, inputs: &[&str]) -> Option<Call> {
        let [tower, text, table] = inputs else {
            return None;
        };
        Some(Call {
            tower: bytes(tower)?,
            text: bytes(text)?,
            table: bytes(table)?,
            areas: Areas::least(),
        })
    }

    fn fits_line(_: &str, answer: &Answer, stated: &str) -> bool {
        stated.strip_prefix("good").unwrap_or(stated) == answer.to_string()
    }
}

const SURE_WITHHELD: &str = "14 b, an action that is sure to come";
const PLAYER_ALONE: &str = "14 d, a row with the player's actions alone";
const GOES_ON_BY_SURE: &str = "good, with a row that goes on by what is sure to come alone";

const EITHER: &str = "good, under a book with two timed sides";
const EITHER_BROKEN: &str = "14 e, under a book with two timed sides";
const EITHER_OVER: &str = "11, under a book with two timed sides";

/// Whether the book of a call whose files are fit has two timed sides.
fn two_timed(call: &Call) -> bool {
    let book = reference::book::read(tower_of(call).marks, &call.text);
    ruled::two_timed(&book.expect("a book that is fit to use"))
}

/// The tower and the rows of a call whose files are fit.
fn tower_of(call: &Call) -> Tower {
    tower::parse(&call.tower).expect("a tower that is fit to use")
}

fn rows(call: &Call) -> Vec<Row> {
    table::decode(&call.table)
        .expect("a table that is laid out")
        .rows
}

/// Whether the first action that a row withholds and may not is sure to come.
fn withholds_sure(call: &Call, row: usize) -> bool {
    let (tower, row) = (tower_of(call), &rows(call)[row]);
    let withheld = |action: &usize| {
        !tower.kind(*action).controllable()
            && tower.target(row.state, *action).is_some()
            && row.target(*action).is_none()
    };
    let first = (0..tower.actions.len()).find(withheld);
    first.is_some_and(|action| tower.kind(action) == Kind::Sure)
}

/// Whether some row has no action of ours.
fn goes_on_by_sure(call: &Call) -> bool {
    let tower = tower_of(call);
    let ours = |step: &Step| tower.kind(step.action) == Kind::Ours;
    rows(call).iter().any(|row| !row.steps.iter().any(ours))
}
