//! The proved code beside the independent reference: the same calls, and the answers compared.
//!
//! Each entry is a module with a type that is an `Entry`; the programs of `src/bin` run those
//! that `for_each_entry` names.

pub mod answer;
pub mod areas;
pub mod book;
pub mod check;
#[path = "../../reference/tests/common/mod.rs"]
pub mod common;
pub mod edits;
pub mod entry;
pub mod follow;
pub mod log;
pub mod logs;
pub mod make;
pub mod passes;
pub mod rewrite;
pub mod ruled;
pub mod runs;
pub mod table;
pub mod tables;
pub mod tower;
pub mod towers;
pub mod why;

use entry::Test;
use std::thread;

/// Runs a test on every entry, on two threads that take about as long; true where it passes on all.
pub fn for_each_entry(test: impl Test + Sync) -> bool {
    let made = || {
        [
            test.on::<make::Make>(),
            test.on::<passes::Passes>(),
            test.on::<runs::Runs>(),
        ]
    };
    let others = || {
        [
            test.on::<tower::Tower>(),
            test.on::<table::Table>(),
            test.on::<book::Book>(),
            test.on::<follow::Follow>(),
            test.on::<check::Check>(),
            test.on::<log::Log>(),
            test.on::<why::Why>(),
        ]
    };
    let all = |passed: &[bool]| passed.iter().all(|passed| *passed);
    thread::scope(|scope| {
        let made = scope.spawn(made);
        let others = all(&others());
        all(&made.join().expect("a test that ends")) && others
    })
}
