//! `read_log TOWER TABLE LOG`: prints `row` and the final row, `line` and the first line that does not
//! fit, or the refusal, with the letter of its reason for a 14.

use reference::{log, program};
use std::process::ExitCode;

fn main() -> ExitCode {
    program::end(answer())
}

fn answer() -> Option<String> {
    let [tower, table, log] = program::names(["tower.bin", "table.bin", "log.txt"])?;
    let [tower, table, log] = [
        program::read(&tower)?,
        program::read(&table)?,
        program::read(&log)?,
    ];
    Some(format!("{}\n", log::read_log(&tower, &table, &log)))
}
