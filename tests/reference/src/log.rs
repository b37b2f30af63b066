//! Item 2 of the change requests: a stroke log held against a table.

use crate::judge::{self, Reason};
use crate::table::{self, Table};
use crate::tower::{self, Tower};
use crate::Refusal;
use std::fmt;

#[derive(Clone, Copy, Debug, PartialEq, Eq)]
pub enum Answer {
    /// The row after the last line.
    Row(usize),
    /// The first line that does not fit.
    Line(usize),
    /// Refusal 14, with its reason and its place.
    NotGood(Reason, usize),
    Refused(Refusal),
}

impl fmt::Display for Answer {
    fn fmt(&self, f: &mut fmt::Formatter) -> fmt::Result {
        match self {
            Answer::Row(row) => write!(f, "row {row}"),
            Answer::Line(line) => write!(f, "line {line}"),
            Answer::NotGood(reason, place) => write!(f, "{}", reason.said_at(*place)),
            Answer::Refused(refusal) => write!(f, "{refusal}"),
        }
    }
}

/// The log reader's entry. Every line is read before any is held against the table.
pub fn read_log(tower: &[u8], table: &[u8], log: &[u8]) -> Answer {
    let read = || {
        let tower = tower::parse(tower)?;
        let table = table::decode_for(&tower, table)?;
        Ok((tower, table))
    };
    let (tower, table) = match read() {
        Ok(read) => read,
        Err(refusal) => return Answer::Refused(refusal),
    };
    if let Some((reason, place)) = judge::first_fault(&tower, &table) {
        return Answer::NotGood(reason, place);
    }
    match read_lines(log) {
        Ok(lines) => hold(&tower, &table, &lines),
        Err(refusal) => Answer::Refused(refusal),
    }
}

/// Holds lines against a table, from row 0 on.
fn hold(tower: &Tower, table: &Table, lines: &[Line]) -> Answer {
    let mut row = 0;
    // The tick of the next line; the first is free.
    let mut due = None;
    for (number, line) in lines.iter().enumerate() {
        let on_time = due.is_none() || due == Some(line.tick);
        let Some(target) = table.rows[row].target(line.action).filter(|_| on_time) else {
            return Answer::Line(number);
        };
        let length = tower.step_length(table.rows[row].state, line.action);
        // As u64 a sum does not wrap, and above the last tick it is the tick of no line.
        due = Some(line.tick + u64::from(length));
        row = target;
    }
    Answer::Row(row)
}

/// What a line says.
struct Line {
    tick: u64,
    action: usize,
}

/// The last tick.
pub const MOST_TICK: u64 = 4_294_967_295;

/// The lines of a log, each with the byte 10 that ends it; 19 with the first that is not of the form.
fn read_lines(log: &[u8]) -> Result<Vec<Line>, Refusal> {
    let lines = log.split_inclusive(|byte| *byte == b'\n').enumerate();
    let line = |(number, line)| read_line(line).ok_or(Refusal::at(19, number));
    lines.map(line).collect()
}

/// A tick of 1 to 10 digits, a space, an action of one or two digits, and byte 10.
fn read_line(line: &[u8]) -> Option<Line> {
    let line = line.strip_suffix(b"\n")?;
    let space = line.iter().position(|byte| *byte == b' ')?;
    let tick = number(&line[..space], 10)?;
    let action = number(&line[space + 1..], 2)?;
    (tick <= MOST_TICK).then_some(Line {
        tick,
        action: action as usize,
    })
}

/// The number that one digit to `most` write; nothing for any other text.
fn number(text: &[u8], most: usize) -> Option<u64> {
    let written = (1..=most).contains(&text.len()) && text.iter().all(u8::is_ascii_digit);
    let add = |number: u64, digit: &u8| 10 * number + u64::from(digit - b'0');
    written.then(|| text.iter().fold(0, add))
}
