//! Runs generated cases through the proved code and the reference.

use product::entry::Generated;
use std::process::ExitCode;

fn main() -> ExitCode {
    if product::for_each_entry(Generated) {
        ExitCode::SUCCESS
    } else {
        ExitCode::FAILURE
    }
}
