//! The log reader.

use crate::answer::{with_values, Answer};
use crate::common::Random;
use crate::entry::{bytes, hexadecimal, Entry};
use crate::logs::{self, Shown};
use crate::{tables, towers};
use reference::tower::Tower;
use reference::{judge, log, table, Refusal};
use std::fmt;

/// The first value is 0, and the second the final row; or it is 1, and the second the line that does
/// not fit.
pub fn read(tower: &[u8], table: &[u8], log: &[u8]) -> Answer {
    with_values(2, succoryvise_sys::read_log(tower, table, log))
}

/// The answer that this is the final row.
pub fn row(row: usize) -> Answer {
    Answer::of_values([0, row])
}

/// The answer that this is the first line that does not fit.
pub fn line(line: usize) -> Answer {
    Answer::of_values([1, line])
}

/// Refusal 19.
pub fn malformed(line: usize) -> Answer {
    Refusal::at(19, line).into()
}

/// The reference's answer.
pub fn expected(tower: &[u8], table: &[u8], log: &[u8]) -> Answer {
    match log::read_log(tower, table, log) {
        log::Answer::Row(last) => row(last),
        log::Answer::Line(first) => line(first),
        log::Answer::NotGood(reason, place) => Answer::not_good(reason, place),
        log::Answer::Refused(refusal) => refusal.into(),
    }
}

pub struct Log;

pub struct Call {
    tower: Vec<u8>,
    table: Vec<u8>,
    log: Vec<u8>,
    shown: Vec<Shown>,
}

impl fmt::Display for Call {
    fn fmt(&self, f: &mut fmt::Formatter) -> fmt::Result {
        let [tower, table, log] = [&self.tower, &self.table, &self.log].map(|b| hexadecimal(b));
        write!(f, "{tower} {table} {log}")
    }
}

impl Entry for Log {
    type Case = Call;

    const NAME: &'static str = "log reader";
    const GENERATED: usize = 60_000;
    const REFUSALS: &'static [u8] = &[1, 2, 3, 4, 5, 13, 14, 19];
    const KINDS: &'static [(&'static str, usize)] = &logs::KINDS;
    const FILES: &'static [&'static str] = &["log.txt"];

    fn proved(call: &Call) -> Answer {
        read(&call.tower, &call.table, &call.log)
    }

    fn reference(call: &Call) -> Answer {
        expected(&call.tower, &call.table, &call.log)
    }

    /// Tower, table and a log for them. Most tables that are not fit are tried again, once; one tower in
    /// seven is another one then, mostly not fit to use.
    fn generate(random: &mut Random) -> Call {
        let (mut ruled, mut table) = tables::to_judge(random);
        if !fits(&ruled.tower, &table) && !random.once_in(3) {
            (ruled, table) = tables::to_judge(random);
        }
        let mut tower = ruled.tower_file;
        if random.once_in(3) {
            towers::lengthen(random, &mut tower);
        }
        let (log, shown) = logs::any(random, &tower, &table);
        match random.below(40) {
            0 | 1 => tower = towers::any(random),
            2..=5 => towers::edit(random, &mut tower),
            _ => {}
        }
        Call {
            tower,
            table,
            log,
            shown,
        }
    }

    fn kinds(call: &Call, answer: &Answer) -> Vec<&'static str> {
        let shown = call.shown.iter().filter(|shown| shown.by == *answer);
        let mut kinds = logs::of_answer(answer);
        kinds.extend(shown.map(|shown| shown.name));
        kinds
    }

    fn of_line(_: &str, inputs: &[&str]) -> Option<Call> {
        let [tower, table, log] = inputs else {
            return None;
        };
        Some(Call {
            tower: bytes(tower)?,
            table: bytes(table)?,
            log: bytes(log)?,
            shown: Vec::new(),
        })
    }

    fn fits_line(_: &str, answer: &Answer, stated: &str) -> bool {
        let answer = match answer.values[..] {
            [0, row] => format!("row {row}"),
            [1, line] => format!("line {line}"),
            _ => answer.to_string(),
        };
        answer == stated
    }
}

/// Whether nothing is refused of a table for this tower.
fn fits(tower: &Tower, table: &[u8]) -> bool {
    let table = table::decode_for(tower, table);
    table.is_ok_and(|table| judge::first_fault(tower, &table).is_none())
}
