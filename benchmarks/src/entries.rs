// The entries of a library, by its C interface: `sys` has them. This text is compiled once for each
// library that is measured.

use super::Library;
use crate::answer::Answer;

/// The entries with their work areas, lent to every call anew.
pub struct Entries([Vec<u8>; sys::AREAS.len()]);

impl Entries {
    pub fn new() -> Self {
        Entries(sys::AREAS.map(|length| vec![0; length]))
    }

    /// The first areas, as many as are asked for.
    fn lend<const N: usize>(&mut self) -> [&mut [u8]; N] {
        let first = self.0.first_chunk_mut().expect("so many areas");
        first.each_mut().map(|area| &mut area[..])
    }
}

fn answer(handed: sys::Answer) -> Answer {
    Answer {
        number: handed.number as u8,
        letter: handed.letter,
        place: handed.place,
        values: [handed.first, handed.second, third(&handed)],
    }
}

impl Library for Entries {
    fn read_book(&mut self, marks: usize, text: &[u8]) -> Answer {
        answer(sys::read_book(marks, text, self.lend()))
    }

    fn make(&mut self, tower: &[u8], text: &[u8], out: &mut [u8]) -> Answer {
        answer(sys::make(tower, text, out, self.lend()))
    }

    fn check(&mut self, tower: &[u8], text: &[u8], table: &[u8]) -> Answer {
        answer(sys::check(tower, text, table, self.lend()))
    }

    fn follow(&mut self, table: &[u8], row: usize, action: usize) -> Answer {
        answer(sys::follow(table, row, action))
    }

    fn follow_all(&mut self, table: &[u8], actions: &[usize]) -> usize {
        let next =
            |row, action: &usize| answer(sys::follow(black_box(table), row, *action)).values[0];
        actions.iter().fold(0, next)
    }

    fn reads_logs(&self) -> bool {
        READS_LOGS
    }

    fn read_log(&mut self, tower: &[u8], table: &[u8], log: &[u8]) -> Answer {
        answer(sys::read_log(tower, table, log))
    }

    fn shows_why(&self) -> bool {
        SHOWS_WHY
    }

    fn why(&mut self, tower: &[u8], text: &[u8], table: &[u8], list: &mut [u8]) -> Answer {
        answer(sys::why(tower, text, table, list, self.lend()))
    }
}
