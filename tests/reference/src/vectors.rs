//! The vectors: files in the folder `tests/vectors`, and in folders there for later papers. Each line is
//! one case: the inputs, ` = ` and the right answer, with bytes in hexadecimal and `-` for no bytes.
//!
//! | file | inputs | answer |
//! |---|---|---|
//! | book.txt | P, book | `ok LINES NODES` |
//! | make.txt | tower, book, output length | `made TABLE` |
//! | check.txt | tower, book, table | `good`, or `refused 14 PLACE REASON` |
//! | follow.txt | table, row, action | `row ROW` |
//! | log.txt | tower, table, log | `row ROW`, `line LINE`, or `refused 14 PLACE REASON` |
//! | why.txt | tower, book, table, list length | `run LENGTH ACTIONS LINE POSITION`, or as check.txt |
//!
//! Any other refusal is `refused NUMBER PLACE`.

use crate::{book, check, follow, log, make, why};
use std::fs;
use std::path::{Path, PathBuf};

/// The files of this name: the folder's own, where it has one, then those of the folders in it by their
/// names.
pub fn files(folder: &Path, name: &str) -> Vec<PathBuf> {
    let inside = fs::read_dir(folder).into_iter().flatten().flatten();
    let mut found: Vec<PathBuf> = inside.map(|entry| entry.path().join(name)).collect();
    found.sort();
    found.insert(0, folder.join(name));
    found.retain(|path| path.is_file());
    found
}

/// The reference's answer to a line, from its inputs.
pub type Answer = fn(inputs: &[&str]) -> Option<String>;

/// The names of the files, without their ending.
pub const FILES: [(&str, Answer); 6] = [
    ("book", answer_book),
    ("make", answer_make),
    ("check", answer_check),
    ("follow", answer_follow),
    ("log", answer_log),
    ("why", answer_why),
];

/// Bytes in hexadecimal; `-` is no bytes.
fn bytes(hexadecimal: &str) -> Option<Vec<u8>> {
    if hexadecimal == "-" {
        return Some(Vec::new());
    }
    let byte = |pair: &[u8]| u8::from_str_radix(std::str::from_utf8(pair).ok()?, 16).ok();
    let pairs = hexadecimal.as_bytes().chunks_exact(2);
    pairs
        .remainder()
        .is_empty()
        .then(|| pairs.map(byte).collect())?
}

fn hexadecimal(bytes: &[u8]) -> String {
    bytes.iter().map(|byte| format!("{byte:02x}")).collect()
}

fn answer_book(inputs: &[&str]) -> Option<String> {
    let [marks, text] = inputs else {
        return None;
    };
    let answer = book::read(marks.parse().ok()?, &bytes(text)?);
    Some(match answer {
        Ok(book) => format!("ok {} {}", book.lines.len(), book.nodes.len()),
        Err(refusal) => refusal.to_string(),
    })
}

fn answer_make(inputs: &[&str]) -> Option<String> {
    let [tower, book, length] = inputs else {
        return None;
    };
    let length = length.parse().ok()?;
    let answer = make::make(&bytes(tower)?, &bytes(book)?, length);
    Some(match answer {
        Ok(table) => format!("made {}", hexadecimal(&table)),
        Err(refusal) => refusal.to_string(),
    })
}

fn answer_check(inputs: &[&str]) -> Option<String> {
    let [tower, book, table] = inputs else {
        return None;
    };
    let answer = check::check(&bytes(tower)?, &bytes(book)?, &bytes(table)?);
    Some(answer.to_string())
}

fn answer_follow(inputs: &[&str]) -> Option<String> {
    let [table, row, action] = inputs else {
        return None;
    };
    let answer = follow::follow(&bytes(table)?, row.parse().ok()?, action.parse().ok()?);
    Some(match answer {
        Ok(row) => format!("row {row}"),
        Err(refusal) => refusal.to_string(),
    })
}

fn answer_log(inputs: &[&str]) -> Option<String> {
    let [tower, table, log] = inputs else {
        return None;
    };
    let answer = log::read_log(&bytes(tower)?, &bytes(table)?, &bytes(log)?);
    Some(answer.to_string())
}

fn answer_why(inputs: &[&str]) -> Option<String> {
    let [tower, book, table, length] = inputs else {
        return None;
    };
    let length = length.parse().ok()?;
    let answer = why::why(&bytes(tower)?, &bytes(book)?, &bytes(table)?, length);
    Some(answer.to_string())
}
