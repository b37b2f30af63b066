//! Progression along a run: its first broken beginning, judged by the reference from the section
//! 'Runs and broken rules' alone, and what is pending at each position before it.

use crate::answer::Answer;
use crate::common::{self, Random};
use crate::entry::{Entry, NOTHING};
use reference::alternatives::{self, Alternatives};
use reference::book::{Book, Comparison, Node};
use reference::pending::{self, Pending};
use reference::runs::Run;
use reference::tower::Tower;
use std::collections::BTreeSet;
use std::fmt;

// Both require a book that lies in its area as it should, and parts inside `area`, of a byte for each
// node, that do not meet: `Walk` builds them so.
extern "C" {
    fn test_begin(
        book: *const u8,
        book_length: usize,
        area: *mut u8,
        area_length: usize,
        to: usize,
    );
    fn test_progressed(
        book: *const u8,
        book_length: usize,
        mask: usize,
        length: u64,
        area: *mut u8,
        area_length: usize,
        from: usize,
        to: usize,
    ) -> bool;
}

/// The layout of a book in its area.
const LINES_AT: usize = 240;
const COUNTS_AT: usize = 480;
const BOOK_AREA: usize = 512;

/// An entry: two bytes, and a byte for each of at most 60 nodes.
const ENTRY: usize = 62;
const CELLS_AT: usize = 2;

/// What stands in every byte that is neither book nor pending.
const UNUSED: u8 = 0xEE;

/// The largest bound.
const MOST_BOUND: u16 = 254;

/// The four bytes of a node.
fn node_bytes(book: &Book, node: usize) -> [u8; 4] {
    let [code, number, first, second] = match book.nodes[node] {
        Node::Constant(value) => [usize::from(value), 0, 0, 0],
        Node::Mark { index, negated } => [3 - usize::from(negated), index.into(), 0, 0],
        Node::And(first, second) => [4, 0, first, second],
        Node::Or(first, second) if book.timed[first] => [5, 0, first, second],
        Node::Or(first, second) => [6, 0, first, second],
        Node::Next {
            comparison,
            bound,
            part,
        } => [7 + comparison as usize, bound.into(), 0, part],
        Node::Always { bound, part } => [11, bound.into(), 0, part],
        Node::Until {
            bound,
            first,
            second,
        } => [12, bound.into(), first, second],
    };
    [code, number, first, second].map(|byte| u8::try_from(byte).expect("a byte"))
}

/// A book as it lies in its area.
fn book_bytes(book: &Book) -> Vec<u8> {
    let mut bytes: Vec<u8> = (0..book.nodes.len())
        .flat_map(|node| node_bytes(book, node))
        .collect();
    bytes.resize(LINES_AT, UNUSED);
    for (number, line) in book.lines.iter().enumerate() {
        let timed = book.timed[line.root];
        bytes.extend([
            u8::from(line.always),
            line.root as u8,
            number as u8,
            u8::from(timed),
        ]);
    }
    bytes.resize(COUNTS_AT, UNUSED);
    bytes.extend([book.nodes.len() as u8, book.lines.len() as u8]);
    bytes.resize(BOOK_AREA, UNUSED);
    bytes
}

/// What is pending, as bytes of an entry.
fn entry_bytes(pending: &Pending) -> Vec<u8> {
    let cell = |left: &Option<u16>| left.map_or(0, |left| left as u8 + 1);
    let mut bytes = vec![UNUSED; CELLS_AT];
    bytes.extend(pending.iter().map(cell));
    bytes.resize(ENTRY, UNUSED);
    bytes
}

/// What is pending after leaving a state with these marks by a step of this length, or nothing where the
/// step is broken. The book has no two timed sides of `|`, so there is one alternative or none.
fn after(book: &Book, waiting: Pending, marks: u16, length: u16) -> Option<Pending> {
    let after = alternatives::after(book, &Alternatives::from([waiting]), marks, length);
    let after = after.expect("16 alternatives at most");
    assert!(after.len() <= 1, "{book:?}");
    after.into_iter().next()
}

/// A walk of the proved code: a book in its area, and two entries that take turns.
struct Walk {
    book: Vec<u8>,
    area: Vec<u8>,
    now: usize,
}

impl Walk {
    fn begin(book: &Book) -> Self {
        let mut walk = Walk {
            book: book_bytes(book),
            area: vec![UNUSED; 2 * ENTRY],
            now: 0,
        };
        unsafe {
            test_begin(
                walk.book.as_ptr(),
                walk.book.len(),
                walk.area.as_mut_ptr(),
                walk.area.len(),
                CELLS_AT,
            );
        }
        walk
    }

    fn entry(&self, which: usize) -> &[u8] {
        &self.area[which * ENTRY..][..ENTRY]
    }

    /// Leaves a state with these marks by a step of this length; false where it is broken.
    fn step(&mut self, marks: u16, length: u16) -> bool {
        let (from, to) = (self.now, 1 - self.now);
        let left = self.entry(from).to_vec();
        let unbroken = unsafe {
            test_progressed(
                self.book.as_ptr(),
                self.book.len(),
                marks.into(),
                length.into(),
                self.area.as_mut_ptr(),
                self.area.len(),
                from * ENTRY + CELLS_AT,
                to * ENTRY + CELLS_AT,
            )
        };
        assert_eq!(self.entry(from), left, "the other entry has changed");
        self.now = to;
        unbroken
    }
}

/// The first value is how many actions the first broken beginning has, or NOTHING. Then the entries
/// of all positions before it.
fn answer(broken: Option<usize>, entries: &[Vec<u8>]) -> Answer {
    let mut values = vec![broken.unwrap_or(NOTHING)];
    values.extend(entries.concat().into_iter().map(usize::from));
    Answer::of_values(values)
}

/// A tower, a book, and the actions of a run.
pub struct Case {
    pub tower: Tower,
    pub book: Book,
    pub run: Vec<usize>,
}

impl Case {
    /// The marks of the state that each step leaves, and its length.
    fn steps(&self) -> Vec<(u16, u16)> {
        let mut state = self.tower.start;
        let mut steps = Vec::new();
        for &action in &self.run {
            let left = &self.tower.states[state];
            steps.push((left.marks, self.tower.step_length(state, action)));
            state = left.targets[action].expect("an enabled action");
        }
        steps
    }

    /// How many actions the first broken beginning has, by the definition.
    fn first_broken(&self) -> Option<usize> {
        let broken = |n: &usize| {
            let run = Run::new(&self.tower, &self.run[..*n]);
            run.expect("enabled actions").is_broken(&self.book)
        };
        (0..=self.run.len()).find(broken)
    }
}

impl fmt::Display for Case {
    fn fmt(&self, f: &mut fmt::Formatter) -> fmt::Result {
        write!(f, "{:?} {:?} {:?}", self.run, self.book, self.tower)
    }
}

pub struct Runs;

impl Entry for Runs {
    type Case = Case;

    const NAME: &'static str = "progression";
    const GENERATED: usize = 200_000;
    const REFUSALS: &'static [u8] = &[];
    const FILES: &'static [&'static str] = &[];
    const KINDS: &'static [(&'static str, usize)] = &[
        (BROKEN, 5),
        (PENDING, 5),
        (WHOLE, 5),
        ("T", 50),
        ("F", 50),
        ("mark", 50),
        ("!mark", 50),
        ("&", 50),
        ("| timed on the left", 50),
        ("| timed on the right", 50),
        ("| untimed", 50),
        ("N <=", 50),
        ("N <", 50),
        ("N >=", 50),
        ("N >", 50),
        ("A", 50),
        ("E", 50),
        ("U", 50),
    ];

    fn proved(case: &Case) -> Answer {
        let mut walk = Walk::begin(&case.book);
        let mut entries = vec![walk.entry(0).to_vec()];
        for (marks, length) in case.steps() {
            if !walk.step(marks, length) {
                return answer(Some(entries.len()), &entries);
            }
            entries.push(walk.entry(walk.now).to_vec());
        }
        answer(None, &entries)
    }

    fn reference(case: &Case) -> Answer {
        let mut waiting = pending::at_first(&case.book);
        let mut entries = vec![entry_bytes(&waiting)];
        for (marks, length) in case.steps() {
            match after(&case.book, waiting.clone(), marks, length) {
                Some(after) => waiting = after,
                None => break,
            }
            entries.push(entry_bytes(&waiting));
        }
        answer(case.first_broken(), &entries)
    }

    /// One case in four is tried again, a few times, until something is pending at its end.
    fn generate(random: &mut Random) -> Case {
        let tries = if random.once_in(4) { 8 } else { 1 };
        for _ in 1..tries {
            let (case, waiting) = any(random);
            if waiting.is_some_and(|waiting| waiting.iter().any(Option::is_some)) {
                return case;
            }
        }
        any(random).0
    }

    fn kinds(case: &Case, answer: &Answer) -> Vec<&'static str> {
        let count = case.book.nodes.len();
        // A run without actions uses no connective.
        let used = if case.run.is_empty() { 0 } else { count };
        let connectives = (0..used).map(|node| connective(&case.book, node));
        let connectives: BTreeSet<_> = connectives.collect();
        let mut kinds: Vec<_> = connectives.into_iter().collect();
        let last = &answer.values[answer.values.len() - ENTRY + CELLS_AT..];
        let mut cells = last[..count].iter();
        if answer.values[0] != NOTHING {
            kinds.push(BROKEN);
        } else if cells.any(|cell| *cell != 0) {
            kinds.push(PENDING);
        }
        if case.run.len() == MOST_ACTIONS {
            kinds.push(WHOLE);
        }
        kinds
    }

    fn of_line(_: &str, _: &[&str]) -> Option<Case> {
        None
    }

    fn fits_line(_: &str, _: &Answer, _: &str) -> bool {
        false
    }
}

const BROKEN: &str = "broken";
const PENDING: &str = "unbroken, something pending";
const WHOLE: &str = "8 actions";

/// Which connective a node is; `U t (T, g)` is `E t g`.
fn connective(book: &Book, node: usize) -> &'static str {
    match book.nodes[node] {
        Node::Constant(true) => "T",
        Node::Constant(false) => "F",
        Node::Mark { negated: false, .. } => "mark",
        Node::Mark { negated: true, .. } => "!mark",
        Node::And(..) => "&",
        Node::Or(first, _) if book.timed[first] => "| timed on the left",
        Node::Or(_, second) if book.timed[second] => "| timed on the right",
        Node::Or(..) => "| untimed",
        Node::Next { comparison, .. } => match comparison {
            Comparison::AtMost => "N <=",
            Comparison::Below => "N <",
            Comparison::AtLeast => "N >=",
            Comparison::Above => "N >",
        },
        Node::Always { .. } => "A",
        Node::Until { first, .. } => match book.nodes[first] {
            Node::Constant(true) => "E",
            _ => "U",
        },
    }
}

const MOST_ACTIONS: usize = 8;

/// A case, and what is pending at its end where it is unbroken.
fn any(random: &mut Random) -> (Case, Option<Pending>) {
    let (_, mut tower) = common::random_tower(random, 4);
    let mut book = any_book(random, tower.marks);
    if random.once_in(3) {
        stretch(random, &mut tower, &mut book);
    }
    let (run, waiting) = any_run(random, &tower, &book);
    (Case { tower, book, run }, waiting)
}

/// A run of enabled actions, and what is pending at its end. Half of the runs are as long as may
/// be, and most avoid broken steps while they can.
fn any_run(random: &mut Random, tower: &Tower, book: &Book) -> (Vec<usize>, Option<Pending>) {
    let most = if random.once_in(2) {
        MOST_ACTIONS
    } else {
        random.below(MOST_ACTIONS + 1)
    };
    let careful = !random.once_in(4);
    let mut waiting = Some(pending::at_first(book));
    let mut state = tower.start;
    let mut run = Vec::new();
    while run.len() < most {
        let left = &tower.states[state];
        let after = |action: usize| {
            let length = tower.step_length(state, action);
            self::after(book, waiting.clone()?, left.marks, length)
        };
        let actions = 0..tower.actions.len();
        let mut choices: Vec<usize> = actions.filter(|a| left.targets[*a].is_some()).collect();
        if careful && choices.iter().any(|action| after(*action).is_some()) {
            choices.retain(|action| after(*action).is_some());
        }
        if choices.is_empty() {
            break;
        }
        let action = choices[random.below(choices.len())];
        waiting = after(action);
        run.push(action);
        state = left.targets[action].expect("an enabled action");
    }
    (run, waiting)
}

/// A book, seldom without lines.
fn any_book(random: &mut Random, marks: usize) -> Book {
    loop {
        let (_, book) = common::random_book(random, marks);
        if !book.lines.is_empty() || random.once_in(20) {
            return book;
        }
    }
}

/// Makes lengths and bounds large, up to the largest, and moves the marks up.
fn stretch(random: &mut Random, tower: &mut Tower, book: &mut Book) {
    let factor = 2 + random.below(50) as u16;
    let up = random.below(17 - tower.marks);
    tower.marks += up;
    tower.change_lengths(|length| length * factor + random.below(3) as u16 - 1);
    for state in &mut tower.states {
        state.marks <<= up;
    }
    for node in &mut book.nodes {
        match node {
            Node::Mark { index, .. } => *index += up as u8,
            Node::Next { bound, .. } | Node::Always { bound, .. } | Node::Until { bound, .. } => {
                *bound = (*bound * factor).min(MOST_BOUND);
            }
            _ => {}
        }
    }
}
