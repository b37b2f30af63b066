//! Follows a table by one action.

use crate::{table, Refusal};

/// The follower's entry: the row that the action leads to.
pub fn follow(table: &[u8], row: usize, action: usize) -> Result<usize, Refusal> {
    let table = table::decode(table)?;
    if row >= table.rows.len() || action >= table.actions {
        return Err(Refusal::new(17));
    }
    table.rows[row].target(action).ok_or(Refusal::new(18))
}
