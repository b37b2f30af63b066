//! Runs the vectors through the proved code and the reference.

use product::entry::Vectors;
use std::process::ExitCode;

fn main() -> ExitCode {
    if product::for_each_entry(Vectors) {
        ExitCode::SUCCESS
    } else {
        ExitCode::FAILURE
    }
}
