//! The work areas that the entries borrow, kept for the next call.

use crate::{values, BrokenRun, Refusal, LARGEST_TABLE, LONGEST_RUN};
use succoryvise_sys::{self as sys, AREAS, CHECKER_AREAS, MAKER_AREAS};

/// The first areas, on the heap, each of its least length.
#[derive(Clone, Debug)]
struct Areas<const N: usize>([Box<[u8]>; N]);

impl<const N: usize> Areas<N> {
    fn new() -> Self {
        Areas(std::array::from_fn(|i| vec![0; AREAS[i]].into()))
    }

    /// The first of them, as many as are asked for.
    fn lend<const M: usize>(&mut self) -> [&mut [u8]; M] {
        let first = self.0.first_chunk_mut().expect("so many areas");
        first.each_mut().map(|area| &mut **area)
    }
}

/// Shows why, in the areas of the checker. A list of the longest run is never too short.
fn why(
    tower: &[u8],
    text: &[u8],
    table: &[u8],
    areas: [&mut [u8]; CHECKER_AREAS],
) -> Result<Option<BrokenRun>, Refusal> {
    let mut actions = vec![0; LONGEST_RUN];
    let [length, line, position] = values(sys::why(tower, text, table, &mut actions, areas))?;
    if length == 0 {
        return Ok(None);
    }
    actions.truncate(length);
    actions.shrink_to_fit();
    Ok(Some(BrokenRun {
        actions,
        line,
        position,
    }))
}

/// Checks tables, always with the same memory.
///
/// ```
/// # let tower = include_bytes!("../../examples/small-tower/tower.bin");
/// # let tables = [succoryvise::make(tower, b"").unwrap()];
/// let mut checker = succoryvise::Checker::new();
/// for table in &tables {
///     assert_eq!(checker.check(tower, b"", table), Ok(()));
/// }
/// ```
#[derive(Clone, Debug)]
pub struct Checker {
    areas: Areas<CHECKER_AREAS>,
}

impl Checker {
    /// A checker with its memory, about 200 KiB.
    pub fn new() -> Self {
        Checker {
            areas: Areas::new(),
        }
    }

    /// Whether a table is good for a tower and a rule book, as [`check`](crate::check()).
    pub fn check(&mut self, tower: &[u8], text: &[u8], table: &[u8]) -> Result<(), Refusal> {
        values(sys::check(tower, text, table, self.areas.lend()))?;
        Ok(())
    }

    /// A run that shows why a table is turned down as [`Broken`](crate::Reason::Broken), as
    /// [`why`](crate::why()).
    pub fn why(
        &mut self,
        tower: &[u8],
        text: &[u8],
        table: &[u8],
    ) -> Result<Option<BrokenRun>, Refusal> {
        why(tower, text, table, self.areas.lend())
    }
}

impl Default for Checker {
    fn default() -> Self {
        Checker::new()
    }
}

/// Makes tables, always with the same memory.
///
/// ```
/// # let tower = include_bytes!("../../examples/small-tower/tower.bin");
/// use succoryvise::{Maker, Refusal};
///
/// let mut maker = Maker::new();
/// let mut out = [0; 50];
/// assert_eq!(maker.make_into(tower, b"", &mut out), Ok(36));
/// let table = &out[..36];
/// # assert_eq!(succoryvise::follow(table, 0, 0), Ok(1));
///
/// let book = b"always !p0 | E 3 p1\nalways !p0 | E 3 p2\n";
/// assert_eq!(maker.make_into(tower, book, &mut out[..49]), Err(Refusal::Output));
/// assert_eq!(maker.make_into(tower, book, &mut out), Ok(50));
/// ```
#[derive(Clone, Debug)]
pub struct Maker {
    areas: Areas<MAKER_AREAS>,
}

impl Maker {
    /// A maker with its memory, about 240 KiB.
    pub fn new() -> Self {
        Maker {
            areas: Areas::new(),
        }
    }

    /// Makes the table for a tower and a rule book at the front of `out`, and returns its length.
    ///
    /// Bytes behind the table stay, and a refusal changes no byte of `out`. An output that is too
    /// short is [`Refusal::Output`]; [`LARGEST_TABLE`] bytes are always enough.
    pub fn make_into(
        &mut self,
        tower: &[u8],
        text: &[u8],
        out: &mut [u8],
    ) -> Result<usize, Refusal> {
        let [length, ..] = values(sys::make(tower, text, out, self.areas.lend()))?;
        Ok(length)
    }

    /// The table for a tower and a rule book, as [`make`](crate::make()).
    pub fn make(&mut self, tower: &[u8], text: &[u8]) -> Result<Vec<u8>, Refusal> {
        let mut out = vec![0; LARGEST_TABLE];
        let length = self.make_into(tower, text, &mut out)?;
        out.truncate(length);
        out.shrink_to_fit();
        Ok(out)
    }

    /// Whether a table is good for a tower and a rule book, as [`check`](crate::check()), with the
    /// maker's memory.
    pub fn check(&mut self, tower: &[u8], text: &[u8], table: &[u8]) -> Result<(), Refusal> {
        values(sys::check(tower, text, table, self.areas.lend()))?;
        Ok(())
    }

    /// A run that shows why a table is turned down as [`Broken`](crate::Reason::Broken), as
    /// [`why`](crate::why()), with the maker's memory.
    pub fn why(
        &mut self,
        tower: &[u8],
        text: &[u8],
        table: &[u8],
    ) -> Result<Option<BrokenRun>, Refusal> {
        why(tower, text, table, self.areas.lend())
    }
}

impl Default for Maker {
    fn default() -> Self {
        Maker::new()
    }
}
