//! `check_table TOWER BOOK TABLE`: prints `good`, or the refusal with the letter of its reason.

use reference::{check, program};
use std::process::ExitCode;

fn main() -> ExitCode {
    program::end(checked())
}

fn checked() -> Option<String> {
    let [tower, book, table] = program::names(["tower.bin", "book.txt", "table.bin"])?;
    let [tower, book, table] = [
        program::read(&tower)?,
        program::read(&book)?,
        program::read(&table)?,
    ];
    Some(format!("{}\n", check::check(&tower, &book, &table)))
}
