//! `make_table TOWER BOOK TABLE`: writes the table that the reference makes and prints its listing, or
//! prints the refusal and writes nothing.

use reference::{listing, make, program, table};
use std::process::ExitCode;

fn main() -> ExitCode {
    program::end(made())
}

fn made() -> Option<String> {
    let [tower, book, table] = program::names(["tower.bin", "book.txt", "table.bin"])?;
    let (tower, book) = (program::read(&tower)?, program::read(&book)?);
    let file = match make::make(&tower, &book, usize::MAX) {
        Ok(file) => file,
        Err(refusal) => return Some(listing::listing(Err(refusal))),
    };
    program::write(&table, &file)?;
    let made = table::decode(&file);
    Some(listing::listing(made.as_ref().map_err(|&refusal| refusal)))
}
