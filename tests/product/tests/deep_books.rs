//! The deepest books are read within 2 MiB of stack.

use product::book;
use std::thread;

/// The answer for a line, from a thread with so much stack.
fn read_within(stack: usize, line: String) -> String {
    let text = line.into_bytes();
    assert!(text.len() <= 4096);
    let reader = move || book::read(3, &text, &mut [0; book::AREA]).to_string();
    let thread = thread::Builder::new().stack_size(stack);
    thread.spawn(reader).unwrap().join().unwrap()
}

const MOST: usize = 2 << 20;

#[test]
fn brackets_never_closed_are_no_formula() {
    let line = format!("start {}\n", "(".repeat(4088));
    assert_eq!(read_within(MOST, line), "refused 6 0");
}

#[test]
fn brackets_closed_are_too_many() {
    let line = format!("start {}T{}\n", "(".repeat(2044), ")".repeat(2044));
    assert_eq!(read_within(MOST, line), "refused 9 0");
}

#[test]
fn always_of_always_is_too_many_nodes() {
    let line = format!("start {}T\n", "A".repeat(4000));
    assert_eq!(read_within(MOST, line), "refused 9 0");
}

#[test]
fn until_in_until_is_too_deep() {
    let line = format!("start {}T{}\n", "U(".repeat(815), ",T)".repeat(815));
    assert_eq!(read_within(MOST, line), "refused 9 0");
}

#[test]
fn until_behind_until_is_too_deep() {
    let line = format!("start {}T{}\n", "U(T,".repeat(815), ")".repeat(815));
    assert_eq!(read_within(MOST, line), "refused 9 0");
}

#[test]
fn connectives_by_turns_are_read() {
    let line = format!("start {}T{}\n", "N>0E3A(".repeat(450), ")".repeat(450));
    assert_eq!(read_within(MOST, line), "refused 9 0");
}
