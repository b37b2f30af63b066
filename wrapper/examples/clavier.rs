//! A clavier in small: reads a tower file and a rule book, makes the table, prints its listing, checks
//! it, and plays a performance of the actions that follow. From the folder `wrapper`, once
//! `tools/build archives` has made the archive:
//!
//! ```sh
//! PROVED_LIBRARIES=../target/staticlib cargo run --example clavier -- ../examples/small-tower/tower.bin ../examples/small-tower/book-1.txt 0 1 0 2 3 4
//! ```

use std::env;
use std::error::Error;
use std::fs;
use std::process::ExitCode;
use succoryvise::{Maker, Player, Refusal};

fn main() -> ExitCode {
    match perform() {
        Ok(()) => ExitCode::SUCCESS,
        Err(error) => {
            if let Some(refusal) = error.downcast_ref::<Refusal>() {
                println!("{}", line(refusal));
            }
            eprintln!("{error}");
            ExitCode::FAILURE
        }
    }
}

fn perform() -> Result<(), Box<dyn Error>> {
    let mut words = env::args().skip(1);
    let (Some(tower), Some(book)) = (words.next(), words.next()) else {
        return Err("usage: clavier TOWER BOOK [ACTION ..]".into());
    };
    let (tower, book) = (fs::read(tower)?, fs::read(book)?);
    let actions = words
        .map(|word| word.parse())
        .collect::<Result<Vec<usize>, _>>()?;

    let mut maker = Maker::new();
    let table = maker.make(&tower, &book)?;
    print_listing(&table);

    // A table is checked before it is used, whoever made it.
    maker.check(&tower, &book, &table)?;
    println!("good");

    let mut player = Player::new(&table);
    for action in actions {
        match player.play(action) {
            Ok(row) => println!("action {action}: row {row}"),
            Err(refusal) => println!("action {action}: {}", line(&refusal)),
        }
    }
    Ok(())
}

/// The refusal line: number, place and the letter of a 14.
fn line(refusal: &Refusal) -> String {
    let line = format!("refused {} {}", refusal.number(), refusal.place());
    match refusal.reason() {
        Some(reason) => format!("{line} {}", reason.letter()),
        None => line,
    }
}

/// The counts; then row, state, and each action with its target row. The header says where rows and
/// steps begin, and so how long a row is: its state, the number of its steps and the first of them.
fn print_listing(table: &[u8]) {
    let number = |bytes: &[u8]| {
        let bytes = bytes.iter().rev();
        bytes.fold(0, |number, byte| 256 * number + usize::from(*byte))
    };
    let [rows, steps, rows_at, steps_at] = [0, 2, 4, 6].map(|at| number(&table[at..at + 2]));
    println!("rows {rows} steps {steps}");
    let (row_bytes, step_bytes) = (&table[rows_at..steps_at], &table[steps_at..]);
    let size = row_bytes.len() / rows;
    for (row, bytes) in row_bytes.chunks(size).enumerate() {
        let (state, rest) = bytes.split_at(size - 3);
        let (count, first) = (usize::from(rest[0]), number(&rest[1..]));
        print!("{row} {}", number(state));
        for step in step_bytes.chunks(3).skip(first).take(count) {
            print!(" {}>{}", step[0], number(&step[1..]));
        }
        println!();
    }
}
