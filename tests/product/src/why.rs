//! The run that shows why.

use crate::answer::{with_values, Answer};
use crate::areas::{self, slices, Areas, CHECKER_AREAS};
use crate::common::Random;
use crate::entry::{bytes, hexadecimal, Entry};
use crate::{book, check, ruled, tables, towers};
use reference::book::Book;
use reference::runs::Run;
use reference::{table, tower, why, Refusal};
use std::fmt;

/// Work areas of the entry: the checker's.
type Lent = [Vec<u8>; CHECKER_AREAS];

/// The entry, with this list and these areas. The values are the length of the run, or 0 for a good table,
/// the line and the position.
pub fn why_with(
    tower: &[u8],
    text: &[u8],
    table: &[u8],
    list: &mut [u8],
    areas: &mut Lent,
) -> Answer {
    let handed = succoryvise_sys::why(tower, text, table, list, slices(areas));
    with_values(3, handed)
}

/// The values of the entry, and behind them the run.
fn answer(mut answer: Answer, run: &[u8]) -> Answer {
    answer
        .values
        .extend(run.iter().map(|action| usize::from(*action)));
    answer
}

/// The answer for a run, or for a good table where it has no actions.
pub fn shown(run: &[u8], line: usize, position: usize) -> Answer {
    answer(Answer::of_values([run.len(), line, position]), run)
}

/// The reference's answer.
pub fn expected(tower: &[u8], text: &[u8], table: &[u8], room: usize) -> Answer {
    match why::why(tower, text, table, room) {
        why::Answer::Run(run) => shown(&run.actions, run.rule.line, run.rule.position),
        why::Answer::Checked(reference::check::Answer::Good) => shown(&[], 0, 0),
        why::Answer::Checked(checked) => check::of_reference(checked),
    }
}

pub struct Why;

pub struct Call {
    tower: Vec<u8>,
    text: Vec<u8>,
    table: Vec<u8>,
    /// The length of the list.
    room: usize,
    areas: Areas<CHECKER_AREAS>,
}

impl Call {
    /// A call with areas that are just long enough.
    pub fn new(tower: &[u8], text: &[u8], table: &[u8], room: usize) -> Self {
        Call {
            tower: tower.to_vec(),
            text: text.to_vec(),
            table: table.to_vec(),
            room,
            areas: Areas::least(),
        }
    }
}

impl fmt::Display for Call {
    fn fmt(&self, f: &mut fmt::Formatter) -> fmt::Result {
        let [tower, text, table] = [&self.tower, &self.text, &self.table].map(|b| hexadecimal(b));
        write!(f, "{tower} {text} {table} {}", self.room)
    }
}

impl Entry for Why {
    type Case = Call;

    const NAME: &'static str = "why";
    const GENERATED: usize = 25_000;
    const REFUSALS: &'static [u8] = &[1, 2, 3, 4, 5, 6, 7, 8, 9, 10, 11, 13, 14, 15, 16, 20];
    const KINDS: &'static [(&'static str, usize)] = &[
        ("14 a", 500),
        ("14 b", 500),
        ("14 c", 500),
        ("14 d", 500),
        (GOOD, 10),
        (RUN, 5),
        (JUST_FITS, 50),
        (SHORT_BY_ONE, 50),
        (LONG, 200),
        (LONGEST, 1_000),
        (START_LINE, 20),
        (LATER_LINE, 20),
        (LATER_POSITION, 50),
        (BEFORE_THE_LAST, 20),
        (MORE_LINES, 50),
        (OTHER_ACTIONS, 20),
        (EITHER, 20),
    ];
    const FILES: &'static [&'static str] = &["why.txt"];

    /// The list is changed by a run alone, and behind it stays; and the checker says the same but for
    /// a 14 e.
    fn proved(call: &Call) -> Answer {
        let (tower, text, table) = (&call.tower, &call.text, &call.table);
        let mut areas = call.areas.lend();
        let before = areas::noise(call.room);
        let mut list = before.to_vec();
        let shown = why_with(tower, text, table, &mut list, &mut areas);
        assert!(call.areas.are_right(&areas), "{call}");
        let length = shown.values.first().copied().unwrap_or(0);
        assert!(list[length..] == before[length..], "{call}");
        let checked = check::check_with(tower, text, table, &mut call.areas.lend());
        if length > 0 || shown.number == 16 {
            assert_eq!((checked.number, checked.letter), (14, b'e'), "{call}");
        } else {
            let values = Vec::new();
            let as_checked = Answer {
                values,
                ..shown.clone()
            };
            assert_eq!(as_checked, checked, "{call}");
        }
        answer(shown, &list[..length])
    }

    fn reference(call: &Call) -> Answer {
        if call.areas.too_short() {
            return Refusal::new(15).into();
        }
        expected(&call.tower, &call.text, &call.table, call.room)
    }

    /// Tower, book and table; two in five have another tower or book, mostly not fit to use. Some lists are
    /// too short for the run, and some are longer.
    fn generate(random: &mut Random) -> Call {
        let (ruled, table) = tables::to_explain(random);
        let (mut tower, mut text) = (ruled.tower_file, ruled.text);
        match random.below(20) {
            0 | 1 => tower = towers::any(random),
            2 | 3 => towers::edit(random, &mut tower),
            4..=7 => text = book::any(random, usize::from(tower[2])),
            _ => {}
        }
        // A long run has as many actions as its table has rows, and other runs have a few.
        let rows = table::decode(&table).map_or(0, |table| table.rows.len());
        let mut room = match rows {
            200.. => rows - 1 + random.below(3),
            _ => random.below(8),
        };
        if random.once_in(6) {
            room += random.below(300);
        }
        Call {
            tower,
            text,
            table,
            room,
            areas: Areas::any(random, 50),
        }
    }

    fn kinds(call: &Call, answer: &Answer) -> Vec<&'static str> {
        match (answer.number, &answer.values[..]) {
            (0, [0, ..]) => vec![GOOD],
            (0, [length, line, position, run @ ..]) => {
                kinds_of_run(call, *length, [*line, *position], run)
            }
            (16, _) => {
                let more = expected(&call.tower, &call.text, &call.table, call.room + 1);
                (more.number == 0)
                    .then_some(SHORT_BY_ONE)
                    .into_iter()
                    .collect()
            }
            _ => answer.reason().into_iter().collect(),
        }
    }

    fn of_line(_: &str, inputs: &[&str]) -> Option<Call> {
        let [tower, text, table, room] = inputs else {
            return None;
        };
        let [tower, text, table] = [bytes(tower)?, bytes(text)?, bytes(table)?];
        Some(Call::new(&tower, &text, &table, room.parse().ok()?))
    }

    fn fits_line(_: &str, answer: &Answer, stated: &str) -> bool {
        let said = match &answer.values[..] {
            [] => answer.to_string(),
            [0, ..] => "good".to_string(),
            [length, line, position, run @ ..] => {
                let run: Vec<u8> = run.iter().map(|action| *action as u8).collect();
                let actions = hexadecimal(&run);
                format!("run {length} {actions} {line} {position}")
            }
            _ => return false,
        };
        said == stated
    }
}

const GOOD: &str = "good";
const RUN: &str = "a run";
const JUST_FITS: &str = "a run, in a list of its length";
const SHORT_BY_ONE: &str = "16, for one action";
const LONG: &str = "a run of 100 actions or more";
const LONGEST: &str = "a run of 1,000 actions";
const START_LINE: &str = "a run that breaks a start line first";
const LATER_LINE: &str = "a run that does not break line 0";
const LATER_POSITION: &str = "a run with a position above 0";
const BEFORE_THE_LAST: &str = "a run with an always line and a position before the last";
const MORE_LINES: &str = "a run that breaks more than one line";
const OTHER_ACTIONS: &str = "a run that is not of action 0 alone";
const EITHER: &str = "a run under a book with two timed sides";

/// The kinds of a call that is answered with a run.
fn kinds_of_run(
    call: &Call,
    length: usize,
    [line, position]: [usize; 2],
    run: &[usize],
) -> Vec<&'static str> {
    let tower = tower::parse(&call.tower).expect("a tower that is fit to use");
    let book = reference::book::read(tower.marks, &call.text).expect("a book that is fit to use");
    let always = book.lines[line].always;
    let rest = Book {
        lines: book.lines[line + 1..].to_vec(),
        ..book.clone()
    };
    let breaks = |book: &Book| Run::new(&tower, run).is_some_and(|run| run.is_broken(book));
    let kinds = [
        (RUN, true),
        (JUST_FITS, call.room == length),
        (LONG, length >= 100),
        (LONGEST, length == 1_000),
        (START_LINE, !always),
        (LATER_LINE, line > 0),
        (LATER_POSITION, position > 0),
        (BEFORE_THE_LAST, always && position + 1 < length),
        (MORE_LINES, breaks(&rest)),
        (OTHER_ACTIONS, run.iter().any(|action| *action > 0)),
        (EITHER, ruled::two_timed(&book)),
    ];
    let shown = kinds.into_iter().filter(|(_, shown)| *shown);
    shown.map(|(kind, _)| kind).collect()
}
