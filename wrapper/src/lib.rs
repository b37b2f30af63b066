//! Play tables for bell towers: the proved entries, as safe Rust.
//!
//! A play table tells a tower's clavier which actions it may release after all that has happened so
//! far. This crate reads rule books ([`read_book`]), makes the table for a tower and a book
//! ([`make()`]), checks anybody's table ([`check`]), follows a table by one action ([`follow`]), holds a
//! stroke log against a table ([`read_log`]) and shows a run that breaks a rule ([`why`]). It is a thin
//! layer over the archive of the Rattle crate of the same name, in which the answers are proved for every
//! input; what this layer adds, types and the memory that is lent, is plain Rust.
//!
//! The words tower file, rule book, table, row and refusal are those of the paper 'Play tables for
//! bell towers'; `docs/FORMATS.md` has every byte of the files.
//!
//! ```
//! # fn main() -> Result<(), succoryvise::Refusal> {
//! // The paper's small tower: a rest and two bells.
//! let tower = [
//!     0x03, 0x04, 0x03, 0x00, 0x08, 0x00, 0x10, 0x00, // 3 states, 4 actions, 3 marks
//!     0x01, 0x01, 0x01, 0x02, 0x01, 0x01, 0x01, 0x02, // actions: length and kind
//!     0x01, 0x00, 0x01, 0xFF, 0x02, 0xFF, // states: mask and targets
//!     0x02, 0x00, 0xFF, 0x00, 0xFF, 0xFF, //
//!     0x04, 0x00, 0xFF, 0xFF, 0xFF, 0x00,
//! ];
//! // From the rest, each bell within 3 ticks.
//! let book = b"always !p0 | E 3 p1\nalways !p0 | E 3 p2\n";
//!
//! let table = succoryvise::make(&tower, book)?;
//! assert_eq!(table.len(), 50);
//! succoryvise::check(&tower, book, &table)?;
//!
//! let mut player = succoryvise::Player::new(&table);
//! assert_eq!(player.play(0), Ok(1)); // the first bell: row 1
//! assert_eq!(player.play(1), Ok(3)); // back to the rest: row 3
//! assert!(!player.allows(0)); // now the other bell is due
//!
//! let log = b"7 0\n8 1\n9 0\n"; // tick and action of each stroke
//! let reading = succoryvise::read_log(&tower, &table, log)?;
//! assert_eq!(reading, succoryvise::LogReading::Line(2)); // the first bell again
//! # Ok(())
//! # }
//! ```
//!
//! # Stack
//!
//! [`follow`] and [`Player`] need less than 1 KiB of stack, [`read_log`] 33 KiB. What reads a rule book
//! calls itself for every bracket, `N`, `A`, `E` and `U` that a part of a formula stands in: up to 9 KiB
//! for books that are accepted, and for a text of 4,096 bytes that is not, up to 0.9 MiB if it is all
//! brackets, and 0.4 MiB if it is all `A` (measured on x86-64; `docs/LINKING.md` has each shape). The threads of the standard library have 2 MiB if nothing else is asked for. On a thread
//! with too little the program is ended by the guard page, as after any other recursion.
//!
//! # Linking
//!
//! While cargo builds, the environment variable `PROVED_LIBRARIES` names the folder of
//! `libsuccoryvise.a`, which `tools/build archives` writes: absolute, or relative to the folder in
//! which cargo is called. The archive is for x86-64 Linux. One of another version of the interface
//! does not link. The crate needs nothing else, no registry and no network.

#![deny(missing_docs)]
#![forbid(unsafe_code)]

mod areas;
mod player;
mod refusal;

pub use areas::{Checker, Maker};
pub use player::Player;
pub use refusal::{Reason, Refusal};

use refusal::values;
use succoryvise_sys as sys;

/// The most bytes that a tower file has.
pub const LARGEST_TOWER: usize = 3_640;

/// The most bytes that a rule book may have.
pub const LARGEST_BOOK: usize = 4_096;

/// The most bytes that a table file has: 1,000 rows of 16 steps. An output of this length is enough
/// for every table.
pub const LARGEST_TABLE: usize = 52_012;

/// The most actions of a run that is shown.
pub const LONGEST_RUN: usize = 1_000;

/// What a rule book has. There may be more to tell in time.
#[derive(Clone, Copy, Debug, PartialEq, Eq)]
#[non_exhaustive]
pub struct BookCounts {
    /// Its lines, each of which is a rule.
    pub lines: usize,
    /// The nodes of its formulas.
    pub nodes: usize,
}

/// Reads a rule book for a tower with so many marks, and counts its lines and nodes.
///
/// `marks` is P of the tower, byte 2 of its file. The refusals are [`Refusal::Range`] for more than 16
/// marks, and those of a book: [`Grammar`](Refusal::Grammar), [`Number`](Refusal::Number),
/// [`Mark`](Refusal::Mark), [`Limit`](Refusal::Limit) and [`Timed`](Refusal::Timed).
///
/// ```
/// use succoryvise::{read_book, Refusal};
///
/// let counts = read_book(3, b"always !p0 | E 3 p1\n").unwrap();
/// assert_eq!((counts.lines, counts.nodes), (1, 5));
/// let refused = read_book(3, b"start T\nstart p3\n");
/// assert!(matches!(refused, Err(Refusal::Mark { line: 1, .. })));
/// ```
pub fn read_book(marks: usize, text: &[u8]) -> Result<BookCounts, Refusal> {
    let mut area = [0; sys::AREAS[0]];
    let [lines, nodes, _] = values(sys::read_book(marks, text, [&mut area]))?;
    Ok(BookCounts { lines, nodes })
}

/// Makes the table for a tower and a rule book: the smallest table that allows every run that some
/// good table allows.
///
/// It borrows about 290 KiB from the heap. To make many tables with the same memory, or to give the
/// place of the table, use a [`Maker`]. The refusals are those of the tower (numbers 1 to 5) and the
/// book (6 to 10), [`Pairs`](Refusal::Pairs), [`Alternatives`](Refusal::Alternatives) and
/// [`NoTable`](Refusal::NoTable).
///
/// ```
/// # let tower = include_bytes!("../../examples/small-tower/tower.bin");
/// use succoryvise::{make, Refusal};
///
/// assert_eq!(make(tower, b"always !p1\n").unwrap().len(), 26);
/// assert_eq!(make(tower, b"start F\n"), Err(Refusal::NoTable));
/// ```
pub fn make(tower: &[u8], text: &[u8]) -> Result<Vec<u8>, Refusal> {
    Maker::new().make(tower, text)
}

/// Whether a table, whoever made it, is good for a tower and a rule book.
///
/// It borrows about 200 KiB from the heap; to check many tables with the same memory, use a
/// [`Checker`]. The refusals are those of the tower (numbers 1 to 5) and the book (6 to 10),
/// [`Layout`](Refusal::Layout), [`NotGood`](Refusal::NotGood) with the first reason, and
/// [`Pairs`](Refusal::Pairs) and [`Alternatives`](Refusal::Alternatives), which say that the table is
/// too large to be judged, and not that it is bad.
///
/// ```
/// # let tower = include_bytes!("../../examples/small-tower/tower.bin");
/// use succoryvise::{check, make, Reason, Refusal};
///
/// let table = make(tower, b"").unwrap();
/// assert_eq!(check(tower, b"", &table), Ok(()));
/// let answer = check(tower, b"always !p1\n", &table);
/// assert_eq!(answer, Err(Refusal::NotGood(Reason::Broken)));
/// ```
pub fn check(tower: &[u8], text: &[u8], table: &[u8]) -> Result<(), Refusal> {
    Checker::new().check(tower, text, table)
}

/// The row that an action leads to from a row of a table. A performance begins in row 0; a
/// [`Player`] keeps the row.
///
/// The refusals are [`Layout`](Refusal::Layout), [`Outside`](Refusal::Outside) and
/// [`NotAllowed`](Refusal::NotAllowed). Each call looks through the whole table before it answers.
///
/// ```
/// # let tower = include_bytes!("../../examples/small-tower/tower.bin");
/// use succoryvise::{follow, make, Refusal};
///
/// let table = make(tower, b"").unwrap();
/// assert_eq!(follow(&table, 0, 2), Ok(2));
/// assert_eq!(follow(&table, 0, 1), Err(Refusal::NotAllowed));
/// assert_eq!(follow(&table, 3, 0), Err(Refusal::Outside));
/// ```
pub fn follow(table: &[u8], row: usize, action: usize) -> Result<usize, Refusal> {
    let [next, ..] = values(sys::follow(table, row, action))?;
    Ok(next)
}

/// What a log comes to along a table.
#[derive(Clone, Copy, Debug, PartialEq, Eq)]
pub enum LogReading {
    /// Every line fits, and this is the final row: 0 for a log without lines.
    Row(usize),
    /// This line, from 0, is the first that does not fit.
    Line(usize),
}

/// Holds a stroke log against a table, from row 0 on.
///
/// A line of the log is a tick, a space, the number of an action and byte 10. It fits where the table
/// allows the action after the lines before it, and the tick is that of the line before plus the length
/// of that line's action; the first tick is free. A log may have any length, and nothing is borrowed from
/// the heap.
///
/// The refusals are those of the tower (numbers 1 to 5), [`Layout`](Refusal::Layout),
/// [`NotGood`](Refusal::NotGood) for every reason but [`Broken`](Reason::Broken), since no book is read,
/// and [`Log`](Refusal::Log) with the first line that is not of the form, also where one before it does
/// not fit.
///
/// ```
/// # let tower = include_bytes!("../../examples/small-tower/tower.bin");
/// use succoryvise::{make, read_log, LogReading, Refusal};
///
/// let table = make(tower, b"").unwrap();
/// assert_eq!(read_log(tower, &table, b"7 0\n8 1\n9 2\n"), Ok(LogReading::Row(2)));
/// assert_eq!(read_log(tower, &table, b"7 0\n9 1\n"), Ok(LogReading::Line(1))); // due at 8
/// assert_eq!(read_log(tower, &table, b"7 3\n8 2\n"), Ok(LogReading::Line(0))); // not allowed
/// let refused = read_log(tower, &table, b"7 0\n8\n");
/// assert!(matches!(refused, Err(Refusal::Log { line: 1, .. })));
/// ```
pub fn read_log(tower: &[u8], table: &[u8], log: &[u8]) -> Result<LogReading, Refusal> {
    let [first, second, _] = values(sys::read_log(tower, table, log))?;
    Ok(match first {
        0 => LogReading::Row(second),
        _ => LogReading::Line(second),
    })
}

/// A run that a table allows and that breaks a rule. There may be more to tell in time.
#[derive(Clone, Debug, PartialEq, Eq)]
#[non_exhaustive]
pub struct BrokenRun {
    /// The actions, at least one and at most [`LONGEST_RUN`].
    pub actions: Vec<u8>,
    /// The lowest line of the book that the run breaks, from 0.
    pub line: usize,
    /// The lowest position where the formula of that line is not kept: so many actions come before it.
    /// For a `start` line it is 0.
    pub position: usize,
}

/// Why a table is turned down as [`Broken`](Reason::Broken): a shortest run that it allows and that breaks
/// a rule, and of those the first by its actions compared from the left; or nothing where the table is good.
///
/// It borrows about 200 KiB from the heap; to ask for many tables with the same memory, use a [`Checker`].
/// The refusals are those of [`check`], but for that one.
///
/// ```
/// # let tower = include_bytes!("../../examples/small-tower/tower.bin");
/// use succoryvise::{make, why};
///
/// let book = b"always !p0 | E 3 p1\nalways !p0 | E 3 p2\n";
/// let table = make(tower, b"").unwrap();
/// let run = why(tower, book, &table).unwrap().expect("a broken run");
/// assert_eq!(run.actions, [0, 1, 0, 1]); // the first bell twice
/// assert_eq!((run.line, run.position), (1, 0)); // and the other one is late
///
/// let table = make(tower, book).unwrap();
/// assert_eq!(why(tower, book, &table), Ok(None));
/// ```
pub fn why(tower: &[u8], text: &[u8], table: &[u8]) -> Result<Option<BrokenRun>, Refusal> {
    Checker::new().why(tower, text, table)
}
