//! The maker and the checker in Rust that is tuned for sets of alternatives. All else is as in plain Rust,
//! and so is every call under a book without two timed sides of `|`. Tuned are these:
//!
//! - A number of an alternative is the larger the more it asks. So what two alternatives ask together is
//!   the larger number at each node, and it takes one loop over 64 aligned bytes, without a branch, to
//!   combine or to compare them.
//! - The `always` lines are looked at once for all old alternatives of a pair.
//! - What gives one alternative at the most waits until a set is combined that may have more.
//! - Sets are numbered as they come up. So a pair is two numbers, and a set is hashed once for each length
//!   of a step and not for each action.

mod alternatives;
mod pairs;

use crate::plain::check::Checker;
use crate::plain::make::Maker;
use pairs::Pairs;

impl Maker<Pairs> {
    pub fn tuned() -> Self {
        Maker::with_room()
    }
}

impl Checker<Pairs> {
    pub fn tuned() -> Self {
        Checker::with_room()
    }
}
