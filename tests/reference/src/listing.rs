//! The listing that the program prints.

use crate::table::Table;
use crate::Refusal;

/// The counts; then for each row its number, its state, and each action with its target row.
pub fn listing(made: Result<&Table, Refusal>) -> String {
    let table = match made {
        Ok(table) => table,
        Err(refusal) => return format!("{refusal}\n"),
    };
    let mut text = format!("rows {} steps {}\n", table.rows.len(), table.step_count());
    for (number, row) in table.rows.iter().enumerate() {
        text += &format!("{number} {}", row.state);
        for step in &row.steps {
            text += &format!(" {}>{}", step.action, step.target);
        }
        text += "\n";
    }
    text
}
