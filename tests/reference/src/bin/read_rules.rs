//! `read_rules TOWER BOOK`: prints how many lines and nodes a book has under the tower's marks, or the
//! refusal.

use reference::{book, program, tower, Refusal};
use std::process::ExitCode;

fn main() -> ExitCode {
    program::end(read())
}

fn read() -> Option<String> {
    let [tower, book] = program::names(["tower.bin", "book.txt"])?;
    let (tower, book) = (program::read(&tower)?, program::read(&book)?);
    Some(match counts(&tower, &book) {
        Ok((lines, nodes)) => format!("lines {lines} nodes {nodes}\n"),
        Err(refusal) => format!("{refusal}\n"),
    })
}

fn counts(tower: &[u8], text: &[u8]) -> Result<(usize, usize), Refusal> {
    let tower = tower::parse(tower)?;
    let book = book::read(tower.marks, text)?;
    Ok((book.lines.len(), book.nodes.len()))
}
