//! `why_not TOWER BOOK TABLE`: for a table that is turned down with 14 e prints `broken`, the line that a
//! run breaks, the position and the run's length; then for each of its actions the position, the time, the
//! state and the action. Any other answer as `check_table`.

use reference::why::{why, Answer, Shown};
use reference::{program, tower};
use std::process::ExitCode;

fn main() -> ExitCode {
    program::end(answer())
}

fn answer() -> Option<String> {
    let [tower, book, table] = program::names(["tower.bin", "book.txt", "table.bin"])?;
    let [tower, book, table] = [
        program::read(&tower)?,
        program::read(&book)?,
        program::read(&table)?,
    ];
    Some(match why(&tower, &book, &table, usize::MAX) {
        Answer::Run(shown) => listing(&tower, &shown),
        Answer::Checked(answer) => format!("{answer}\n"),
    })
}

fn listing(tower: &[u8], shown: &Shown) -> String {
    let tower = tower::parse(tower).expect("the tower of a run");
    let (rule, length) = (shown.rule, shown.actions.len());
    let mut text = format!("broken {} {} {length}\n", rule.line, rule.position);
    let (mut state, mut time) = (tower.start, 0);
    for (position, &action) in shown.actions.iter().enumerate() {
        text += &format!("{position} {time} {state} {action}\n");
        let action = usize::from(action);
        time += u64::from(tower.step_length(state, action));
        state = tower.target(state, action).expect("an enabled action");
    }
    text
}
