//! Follows a table by one action.

use super::table::Table;
use super::Refusal;

/// The row that the action leads to.
pub fn follow(table: &[u8], row: usize, action: usize) -> Result<usize, Refusal> {
    let table = Table::read(table)?;
    if row >= table.rows || action >= table.actions {
        return Err(Refusal::new(17));
    }
    table.target(row, action).ok_or(Refusal::new(18))
}
