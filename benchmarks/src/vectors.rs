//! The vectors of `tests/vectors`.

use crate::answer::Answer;
use crate::plain::book::Book;
use crate::plain::check::Checker;
use crate::plain::follow::follow;
use crate::plain::log::{Course, LogReader};
use crate::plain::make::Maker;
use crate::plain::search::Search;
use crate::plain::table::MOST_BYTES;
use crate::plain::why::Explainer;
use std::fs;
use std::path::{Path, PathBuf};

pub struct Line {
    pub inputs: Vec<String>,
    pub answer: String,
}

/// The lines of the files of this name, of the folder and of those in it.
pub fn lines(file: &str) -> Vec<Line> {
    let folder = Path::new(env!("CARGO_MANIFEST_DIR")).join("../tests/vectors");
    let inside = fs::read_dir(&folder).expect("a folder of vectors");
    let mut folders: Vec<PathBuf> = inside.map(|entry| entry.expect("a file").path()).collect();
    folders.sort();
    folders.insert(0, folder);
    folders.retain(|path| path.join(file).is_file());
    let mut lines = Vec::new();
    for path in folders.iter().map(|folder| folder.join(file)) {
        let text = fs::read_to_string(&path).expect("a file of vectors");
        for line in text.lines() {
            let (inputs, answer) = line.split_once(" = ").expect("inputs and an answer");
            lines.push(Line {
                inputs: inputs.split(' ').map(str::to_string).collect(),
                answer: answer.to_string(),
            });
        }
    }
    lines
}

/// Bytes in hexadecimal; `-` is no bytes.
pub fn bytes(hexadecimal: &str) -> Vec<u8> {
    let pairs = hexadecimal.trim_matches('-').as_bytes().chunks_exact(2);
    let byte = |pair| u8::from_str_radix(std::str::from_utf8(pair).ok()?, 16).ok();
    pairs.map(|pair| byte(pair).expect("two digits")).collect()
}

fn number(text: &str) -> usize {
    text.parse().expect("a number")
}

/// What a maker answers to a line of `make.txt`.
fn make<S: Search>(maker: &mut Maker<S>, inputs: &[String]) -> String {
    let mut out = vec![0; number(&inputs[2]).min(MOST_BYTES)];
    let [tower, book] = [0, 1].map(|i| bytes(&inputs[i]));
    match maker.make(&tower, &book, &mut out) {
        Ok(length) => format!("made {}", hexadecimal(&out[..length])),
        Err(refusal) => Answer::from(refusal).to_string(),
    }
}

/// What a checker answers to a line of `check.txt`.
fn check<S: Search>(checker: &mut Checker<S>, inputs: &[String]) -> String {
    let [tower, book, table] = [0, 1, 2].map(|i| bytes(&inputs[i]));
    match checker.check(&tower, &book, &table) {
        Ok(()) => "good".to_string(),
        Err(refusal) => Answer::from(refusal).to_string(),
    }
}

/// Bytes in hexadecimal.
fn hexadecimal(bytes: &[u8]) -> String {
    bytes.iter().map(|byte| format!("{byte:02x}")).collect()
}

/// Compares the answers of the plain side, and of the tuned maker and checker, with those of the vectors,
/// and answers how many lines there are.
pub fn compare() -> usize {
    let (mut maker, mut tuned_maker) = (Maker::new(), Maker::tuned());
    let (mut checker, mut tuned_checker) = (Checker::new(), Checker::tuned());
    let (mut log_reader, mut explainer) = (LogReader::new(), Explainer::new());
    let mut count = 0;
    let mut each = |file: &str, answer: &mut dyn FnMut(&[String]) -> String| {
        for line in lines(file) {
            let answer = answer(&line.inputs);
            assert_eq!(answer, line.answer, "{file}: {}", line.inputs.join(" "));
            count += 1;
        }
    };
    each(
        "book.txt",
        &mut |inputs| match Book::read(number(&inputs[0]), &bytes(&inputs[1])) {
            Ok(book) => format!("ok {} {}", book.line_count(), book.node_count),
            Err(refusal) => Answer::from(refusal).to_string(),
        },
    );
    each("make.txt", &mut |inputs| {
        let answer = make(&mut maker, inputs);
        assert_eq!(make(&mut tuned_maker, inputs), answer, "tuned: {inputs:?}");
        answer
    });
    each("check.txt", &mut |inputs| {
        let answer = check(&mut checker, inputs);
        assert_eq!(
            check(&mut tuned_checker, inputs),
            answer,
            "tuned: {inputs:?}"
        );
        answer
    });
    each("follow.txt", &mut |inputs| match follow(
        &bytes(&inputs[0]),
        number(&inputs[1]),
        number(&inputs[2]),
    ) {
        Ok(row) => format!("row {row}"),
        Err(refusal) => Answer::from(refusal).to_string(),
    });
    each("log.txt", &mut |inputs| {
        let [tower, table, log] = [0, 1, 2].map(|i| bytes(&inputs[i]));
        match log_reader.read(&tower, &table, &log) {
            Ok(Course::Row(row)) => format!("row {row}"),
            Ok(Course::Line(line)) => format!("line {line}"),
            Err(refusal) => Answer::from(refusal).to_string(),
        }
    });
    each("why.txt", &mut |inputs| {
        let [tower, book, table] = [0, 1, 2].map(|i| bytes(&inputs[i]));
        let mut list = vec![0; number(&inputs[3])];
        match explainer.why(&tower, &book, &table, &mut list) {
            Ok(None) => "good".to_string(),
            Ok(Some(shown)) => {
                let (length, line) = (shown.length, shown.line);
                let actions = hexadecimal(&list[..length]);
                format!("run {length} {actions} {line} {}", shown.position)
            }
            Err(refusal) => Answer::from(refusal).to_string(),
        }
    });
    count
}
