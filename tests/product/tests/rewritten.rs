//! Books that say the same in other words give the same table, byte for byte.

use product::answer::Answer;
use product::common::Random;
use product::rewrite::rewritten;
use product::{make, ruled};
use reference::book;

#[test]
fn rewritten_books_give_equal_bytes() {
    let mut random = Random::new(0x5EED_0008);
    let [mut compared, mut made, mut other_text] = [0; 3];
    for _ in 0..6_000 {
        let ruled = ruled::any(&mut random);
        let text = rewritten(&mut random, &ruled.book);
        match book::read(ruled.tower.marks, &text) {
            Ok(_) => {}
            // A line twice may be too many nodes, and brackets too deep.
            Err(refusal) => {
                assert_eq!(refusal.number, 9, "{}", String::from_utf8_lossy(&text));
                continue;
            }
        }
        let table = make::make(&ruled.tower_file, &ruled.text);
        let [one, other] = [&ruled.text, &text].map(|text| String::from_utf8_lossy(text));
        assert_eq!(make::make(&ruled.tower_file, &text), table, "{one}{other}");
        compared += 1;
        made += usize::from(table.is_ok());
        other_text += usize::from(one != other);
    }
    assert!(compared > 5_000 && made > 2_000 && other_text > 3_000);
}

/// Those with two timed sides too, where neither is over a limit: the order in which alternatives are
/// combined may decide that.
#[test]
fn rewritten_books_with_two_timed_sides_give_equal_bytes() {
    let mut random = Random::new(0x5EED_0009);
    let [mut compared, mut made, mut over] = [0; 3];
    for _ in 0..6_000 {
        let ruled = ruled::either(&mut random);
        let text = rewritten(&mut random, &ruled.book);
        if !ruled::two_timed(&ruled.book) || book::read(ruled.tower.marks, &text).is_err() {
            continue;
        }
        let [one, other] = [&ruled.text, &text].map(|text| make::make(&ruled.tower_file, text));
        let is_over = |made: &Result<_, Answer>| {
            made.as_ref()
                .is_err_and(|answer| [11, 20].contains(&answer.number))
        };
        if is_over(&one) || is_over(&other) {
            over += 1;
            continue;
        }
        let [text, other_text] = [&ruled.text, &text].map(|text| String::from_utf8_lossy(text));
        assert_eq!(one, other, "{text}{other_text}");
        compared += 1;
        made += usize::from(one.is_ok());
    }
    assert!(
        compared > 2_000 && made > 500 && over > 50,
        "{compared} {made} {over}"
    );
}
