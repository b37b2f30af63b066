//! The follower.

use crate::answer::{with_values, Answer};
use crate::common::Random;
use crate::entry::{bytes, hexadecimal, Entry};
use crate::tables;
use reference::{follow, table};
use std::fmt;

pub fn follow(table: &[u8], row: usize, action: usize) -> Answer {
    with_values(1, succoryvise_sys::follow(table, row, action))
}

pub struct Follow;

pub struct Call {
    table: Vec<u8>,
    row: usize,
    action: usize,
}

impl fmt::Display for Call {
    fn fmt(&self, f: &mut fmt::Formatter) -> fmt::Result {
        let table = hexadecimal(&self.table);
        write!(f, "{table} {} {}", self.row, self.action)
    }
}

impl Entry for Follow {
    type Case = Call;

    const NAME: &'static str = "follower";
    const GENERATED: usize = 100_000;
    const REFUSALS: &'static [u8] = &[13, 17, 18];
    const FILES: &'static [&'static str] = &["follow.txt"];

    fn proved(call: &Call) -> Answer {
        follow(&call.table, call.row, call.action)
    }

    fn reference(call: &Call) -> Answer {
        match follow::follow(&call.table, call.row, call.action) {
            Ok(row) => Answer::of_values([row]),
            Err(refusal) => refusal.into(),
        }
    }

    fn generate(random: &mut Random) -> Call {
        let table = tables::any(random);
        let (rows, actions) = match table::decode(&table) {
            Ok(table) => (table.rows.len(), table.actions),
            Err(_) => (4, 4),
        };
        Call {
            row: around(random, rows),
            action: around(random, actions),
            table,
        }
    }

    /// Every table that is laid out, whatever the row and the action.
    fn accepted(answer: &Answer) -> bool {
        answer.number != 13
    }

    fn of_line(_: &str, inputs: &[&str]) -> Option<Call> {
        let [table, row, action] = inputs else {
            return None;
        };
        Some(Call {
            table: bytes(table)?,
            row: row.parse().ok()?,
            action: action.parse().ok()?,
        })
    }

    fn fits_line(_: &str, answer: &Answer, stated: &str) -> bool {
        stated.strip_prefix("row ").unwrap_or(stated) == answer.to_string()
    }
}

/// A number below `count`, or in one of ten cases above it: also where its low bytes would fit.
fn around(random: &mut Random, count: usize) -> usize {
    let inside = random.below(count);
    match random.below(40) {
        0 => count,
        1 => count + random.below(300),
        2 => inside + (1 << (8 * (1 + random.below(7)))),
        3 => usize::MAX - random.below(3),
        _ => inside,
    }
}
