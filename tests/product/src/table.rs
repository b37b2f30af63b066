//! The table reader: whether a file is laid out, and every field of one that is.

use crate::answer::Answer;
use crate::common::Random;
use crate::entry::{bytes, stated_number, Entry, File, NOTHING};
use crate::tables;
use reference::{table, Refusal};

extern "C" {
    fn test_laid_out(table: *const u8, length: usize) -> bool;
    fn test_table_field(table: *const u8, length: usize, which: u32, i: usize) -> usize;
}

/// The fields, in the order of `table.rt` in the crate `testing`.
#[derive(Clone, Copy)]
pub enum Field {
    Rows,
    Steps,
    States,
    Actions,
    RowState,
    RowCount,
    RowFirst,
    StepAction,
    StepTarget,
}

pub fn laid_out(table: &[u8]) -> bool {
    unsafe { test_laid_out(table.as_ptr(), table.len()) }
}

/// A field; NOTHING where the table is not laid out, or has no such row or step.
pub fn field(table: &[u8], field: Field, i: usize) -> usize {
    unsafe { test_table_field(table.as_ptr(), table.len(), field as u32, i) }
}

pub struct Table;

impl Entry for Table {
    type Case = File;

    const NAME: &'static str = "table reader";
    const GENERATED: usize = 60_000;
    const REFUSALS: &'static [u8] = &[13];
    const FILES: &'static [&'static str] = &["check.txt", "follow.txt", "log.txt", "why.txt"];

    fn proved(File(file): &File) -> Answer {
        if laid_out(file) {
            Answer::of_values(fields(file))
        } else {
            Refusal::new(13).into()
        }
    }

    fn reference(File(file): &File) -> Answer {
        match table::decode(file) {
            Ok(table) => Answer::of_values(expected_fields(&table)),
            Err(refusal) => refusal.into(),
        }
    }

    fn generate(random: &mut Random) -> File {
        File(tables::any(random))
    }

    fn of_line(file: &str, inputs: &[&str]) -> Option<File> {
        let table = match file {
            "check.txt" | "why.txt" => 2,
            "log.txt" => 1,
            _ => 0,
        };
        Some(File(bytes(inputs.get(table)?)?))
    }

    /// The follower's 13 is the layout alone. That of the others may be another tower's S and A, and what
    /// comes before 13 says nothing of the table.
    fn fits_line(file: &str, answer: &Answer, stated: &str) -> bool {
        match (file, stated_number(stated)) {
            ("check.txt" | "log.txt" | "why.txt", 1..=10 | 13) => true,
            (_, 13) => answer.number == 13,
            _ => answer.number == 0,
        }
    }
}

/// All fields of a laid out table, each place one past the end with them.
fn fields(file: &[u8]) -> Vec<usize> {
    let header = [Field::Rows, Field::Steps, Field::States, Field::Actions];
    let header = header.map(|which| field(file, which, 0));
    let [rows, steps, ..] = header;
    let mut values = header.to_vec();
    for r in 0..=rows {
        let row = [Field::RowState, Field::RowCount, Field::RowFirst];
        values.extend(row.map(|which| field(file, which, r)));
    }
    for i in 0..=steps {
        let step = [Field::StepAction, Field::StepTarget];
        values.extend(step.map(|which| field(file, which, i)));
    }
    values
}

/// The same by the reference.
fn expected_fields(table: &table::Table) -> Vec<usize> {
    let steps = table.step_count();
    let mut values = vec![table.rows.len(), steps, table.states, table.actions];
    let mut first = 0;
    for row in &table.rows {
        values.extend([row.state, row.steps.len(), first]);
        first += row.steps.len();
    }
    values.extend([NOTHING; 3]);
    for step in table.rows.iter().flat_map(|row| &row.steps) {
        values.extend([step.action, step.target]);
    }
    values.extend([NOTHING; 2]);
    values
}
