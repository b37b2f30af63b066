//! Runs the vectors, also those of the folders in theirs. The folder may be given as an argument.

use reference::vectors::{self, Answer, FILES};
use std::fs;
use std::path::{Path, PathBuf};
use std::process::ExitCode;

fn main() -> ExitCode {
    let beside = || Path::new(env!("CARGO_MANIFEST_DIR")).join("../vectors");
    let folder = std::env::args().nth(1).map_or_else(beside, PathBuf::from);
    let mut all_right = true;
    for (name, answer) in FILES {
        let paths = vectors::files(&folder, &format!("{name}.txt"));
        if paths.is_empty() {
            println!("{name}: no vectors");
            all_right = false;
        }
        for path in paths {
            let name = path.strip_prefix(&folder).unwrap_or(&path);
            all_right &= run_file(&name.display().to_string(), &path, answer);
        }
    }
    if all_right {
        ExitCode::SUCCESS
    } else {
        ExitCode::FAILURE
    }
}

/// Runs the cases of one file and prints how many are right; true where all are, and there are some.
fn run_file(name: &str, path: &Path, answer: Answer) -> bool {
    let text = match fs::read_to_string(path) {
        Ok(text) => text,
        Err(error) => {
            println!("{name}: {error}");
            return false;
        }
    };
    let mut right = 0;
    let mut wrong = 0;
    for (number, line) in text.lines().enumerate() {
        let (inputs, expected) = line.split_once(" = ").unwrap_or((line, ""));
        let inputs: Vec<&str> = inputs.split(' ').collect();
        let found = answer(&inputs).unwrap_or_else(|| "a line that cannot be read".to_string());
        if found == expected {
            right += 1;
        } else {
            wrong += 1;
            println!("{name}, line {}: {found}, and not {expected}", number + 1);
        }
    }
    println!("{name}: {right} right, {wrong} wrong");
    right > 0 && wrong == 0
}
