//! What the programs share: files named by arguments.

use std::fs;
use std::process::ExitCode;

/// The names that the arguments give, in the order of `usual`, or the usual ones where there are no
/// arguments. Nothing, with a line on standard error, for any other number of arguments.
pub fn names<const N: usize>(usual: [&str; N]) -> Option<[String; N]> {
    let given: Vec<String> = std::env::args().skip(1).collect();
    if given.is_empty() {
        return Some(usual.map(String::from));
    }
    given
        .try_into()
        .map_err(|_| eprintln!("usage: {}", usual.join(" ")))
        .ok()
}

/// The whole file, or nothing, with its name and the cause on standard error.
pub fn read(name: &str) -> Option<Vec<u8>> {
    let said = |cause| eprintln!("{name}: {cause}");
    fs::read(name).map_err(said).ok()
}

/// Writes the whole file, or says on standard error why not.
pub fn write(name: &str, bytes: &[u8]) -> Option<()> {
    let said = |cause| eprintln!("{name}: {cause}");
    fs::write(name, bytes).map_err(said).ok()
}

/// Prints what a program found, if it came so far.
pub fn end(found: Option<String>) -> ExitCode {
    match found {
        Some(text) => {
            print!("{text}");
            ExitCode::SUCCESS
        }
        None => ExitCode::FAILURE,
    }
}
