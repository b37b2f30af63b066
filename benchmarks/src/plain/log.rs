//! Holds a log against a table.

use super::check;
use super::table::Table;
use super::tower::Tower;
use super::{Refusal, MOST_ACTIONS, MOST_PAIRS};
use std::num::NonZeroU8;

const TICK_DIGITS: usize = 10;
const ACTION_DIGITS: usize = 2;

/// The row that a step leads to, and the ticks that it takes.
#[derive(Clone, Copy)]
struct Step {
    target: u16,
    length: NonZeroU8,
}

/// The steps of a row, by their actions.
type Row = [Option<Step>; MOST_ACTIONS];

/// What a log comes to.
#[derive(Clone, Copy, Debug, PartialEq, Eq)]
pub enum Course {
    /// Every line fits: the final row.
    Row(usize),
    /// The first line that does not fit.
    Line(usize),
}

/// The room of a log reader, kept from call to call.
pub struct LogReader {
    rows: Vec<Row>,
}

impl LogReader {
    pub fn new() -> Self {
        LogReader {
            rows: Vec::with_capacity(MOST_PAIRS),
        }
    }

    /// Holds the log against the table, which is tested first.
    pub fn read(&mut self, tower: &[u8], table: &[u8], log: &[u8]) -> Result<Course, Refusal> {
        let tower = Tower::read(tower)?;
        let table = Table::read(table)?;
        check::judge_rows(&tower, &table)?;
        self.take(&tower, &table);

        let mut strokes = Strokes::of(log);
        let mut row = 0;
        let mut due = None;
        while let Some(stroke) = strokes.next() {
            let Stroke { tick, action } = stroke?;
            let step = self.rows[row].get(action).copied().flatten();
            let on_time = due.is_none_or(|due| due == u64::from(tick));
            match step {
                Some(step) if on_time => {
                    row = usize::from(step.target);
                    due = Some(u64::from(tick) + u64::from(step.length.get()));
                }
                _ => {
                    let line = strokes.line - 1;
                    strokes.read_rest()?;
                    return Ok(Course::Line(line));
                }
            }
        }
        Ok(Course::Row(row))
    }

    /// Takes the steps of a table.
    fn take(&mut self, tower: &Tower, table: &Table) {
        self.rows.clear();
        self.rows.extend((0..table.rows).map(|row| {
            let mut steps = Row::default();
            for step in table.steps(row) {
                let length = tower.step_length(table.state(row), step.action);
                steps[step.action] = NonZeroU8::new(length).map(|length| Step {
                    target: step.target as u16,
                    length,
                });
            }
            steps
        }));
    }
}

/// A line of a log.
#[derive(Clone, Copy)]
struct Stroke {
    tick: u32,
    action: usize,
}

/// The lines of a log in turn; 19 at one that is not of the form.
struct Strokes<'a> {
    log: &'a [u8],
    /// How many bytes have been read, and how many lines.
    at: usize,
    line: usize,
}

impl<'a> Strokes<'a> {
    fn of(log: &'a [u8]) -> Self {
        let (at, line) = (0, 0);
        Strokes { log, at, line }
    }

    /// Reads on, for the form alone.
    fn read_rest(self) -> Result<(), Refusal> {
        for stroke in self {
            stroke?;
        }
        Ok(())
    }

    fn read_line(&mut self) -> Option<Stroke> {
        let tick = self.number(TICK_DIGITS, b' ')?;
        let action = self.number(ACTION_DIGITS, b'\n')?;
        self.line += 1;
        Some(Stroke {
            tick: tick.try_into().ok()?,
            action: action as usize,
        })
    }

    /// A number of one to so many digits, with `end` behind it.
    fn number(&mut self, most: usize, end: u8) -> Option<u64> {
        let first = self.at;
        let mut value = 0;
        while self.at - first < most {
            let digit = self.byte().wrapping_sub(b'0');
            if digit > 9 {
                break;
            }
            value = 10 * value + u64::from(digit);
            self.at += 1;
        }
        if self.at == first || self.byte() != end {
            return None;
        }
        self.at += 1;
        Some(value)
    }

    /// The next byte; behind the last one 0, which no line has.
    fn byte(&self) -> u8 {
        self.log.get(self.at).copied().unwrap_or_default()
    }
}

impl Iterator for Strokes<'_> {
    type Item = Result<Stroke, Refusal>;

    fn next(&mut self) -> Option<Self::Item> {
        if self.at == self.log.len() {
            return None;
        }
        let line = self.line;
        Some(self.read_line().ok_or(Refusal::at(19, line)))
    }
}
