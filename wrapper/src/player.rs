//! A performance: a table and the row that it has reached.

use crate::{follow, Refusal};

/// A performance that follows a table.
///
/// It begins in row 0. Before a hammer is released, ask [`play`](Player::play), and release it only
/// where the answer is a row; a player's key is told to it in the same way.
///
/// ```
/// # let tower = include_bytes!("../../examples/small-tower/tower.bin");
/// # let table = succoryvise::make(tower, b"").unwrap();
/// use succoryvise::{Player, Refusal};
///
/// let mut player = Player::new(table);
/// assert_eq!(player.play(2), Ok(2));
/// assert_eq!(player.play(0), Err(Refusal::NotAllowed));
/// assert_eq!(player.row(), 2); // the row stays
/// assert_eq!(player.allowed().collect::<Vec<_>>(), [3]);
/// ```
#[derive(Clone, Debug)]
pub struct Player<Table> {
    table: Table,
    row: usize,
}

/// The most actions of a tower.
const ACTIONS: usize = 16;

impl<Table: AsRef<[u8]>> Player<Table> {
    /// A performance at its start. The table is a table file, as `make` makes it; one that comes from
    /// elsewhere is checked before it is used.
    pub fn new(table: Table) -> Self {
        Player { table, row: 0 }
    }

    /// The row that the performance has reached.
    pub fn row(&self) -> usize {
        self.row
    }

    /// The table.
    pub fn table(&self) -> &[u8] {
        self.table.as_ref()
    }

    /// Plays an action where it is allowed, and returns the row that it leads to. A refusal leaves the
    /// row as it was: [`NotAllowed`](Refusal::NotAllowed), or [`Outside`](Refusal::Outside) where the
    /// table's tower has no such action, or [`Layout`](Refusal::Layout) where it is no table.
    pub fn play(&mut self, action: usize) -> Result<usize, Refusal> {
        self.row = follow(self.table(), self.row, action)?;
        Ok(self.row)
    }

    /// Whether an action is allowed now.
    pub fn allows(&self, action: usize) -> bool {
        follow(self.table(), self.row, action).is_ok()
    }

    /// The actions that are allowed now, ascending; each one is asked for by a call of [`follow`].
    pub fn allowed(&self) -> impl Iterator<Item = usize> + '_ {
        (0..ACTIONS).filter(|action| self.allows(*action))
    }

    /// Begins again, in row 0. The tower has to be in its start state.
    pub fn restart(&mut self) {
        self.row = 0;
    }
}
