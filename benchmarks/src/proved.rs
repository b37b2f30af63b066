//! The libraries of proved entries that are measured, by their C interfaces.

use crate::answer::Answer;

/// The entries of a library.
pub trait Library {
    fn read_book(&mut self, marks: usize, text: &[u8]) -> Answer;

    fn make(&mut self, tower: &[u8], text: &[u8], out: &mut [u8]) -> Answer;

    fn check(&mut self, tower: &[u8], text: &[u8], table: &[u8]) -> Answer;

    fn follow(&mut self, table: &[u8], row: usize, action: usize) -> Answer;

    /// The row after actions that a table allows one after the other.
    fn follow_all(&mut self, table: &[u8], actions: &[usize]) -> usize;

    /// Whether there is a log reader.
    fn reads_logs(&self) -> bool;

    fn read_log(&mut self, tower: &[u8], table: &[u8], log: &[u8]) -> Answer;

    /// Whether there is an entry that shows why.
    fn shows_why(&self) -> bool;

    fn why(&mut self, tower: &[u8], text: &[u8], table: &[u8], list: &mut [u8]) -> Answer;
}

mod now {
    use std::hint::black_box;
    use succoryvise_sys as sys;
    const READS_LOGS: bool = true;
    const SHOWS_WHY: bool = true;
    fn third(answer: &sys::Answer) -> usize {
        answer.third
    }
    include!("entries.rs");
}

#[cfg(feature = "before")]
mod before {
    use before as sys;
    use std::hint::black_box;
    use sys::{third, READS_LOGS, SHOWS_WHY};
    include!("entries.rs");
}

/// The library of now, and behind it the one of before where there is one.
pub fn libraries() -> Vec<Box<dyn Library>> {
    vec![
        Box::new(now::Entries::new()),
        #[cfg(feature = "before")]
        Box::new(before::Entries::new()),
    ]
}
