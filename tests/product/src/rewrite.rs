//! A book written in another way, without a change of meaning.

use crate::common::Random;
use reference::book::{Book, Comparison, Line, Node};

/// The same rules as text: lines in another order and some of them twice, the sides of `&` and `|`
/// swapped, `E t g` as `U t (T, g)`, the bound 20 written or left out, more spaces, brackets and
/// leading zeros. It may be over a limit.
pub fn rewritten(random: &mut Random, book: &Book) -> Vec<u8> {
    let mut lines = book.lines.clone();
    if !lines.is_empty() && random.once_in(3) {
        lines.push(lines[random.below(lines.len())]);
    }
    for last in (1..lines.len()).rev() {
        lines.swap(last, random.below(last + 1));
    }
    let mut text = String::new();
    for line in lines {
        text += &line_text(random, book, line);
        text += "\n";
    }
    text.into_bytes()
}

fn line_text(random: &mut Random, book: &Book, line: Line) -> String {
    let mut writer = Writer {
        random,
        book,
        text: if line.always { "always" } else { "start" }.to_string(),
    };
    writer.text += " ";
    writer.spaces();
    writer.formula(line.root, Level::Or);
    writer.text.trim_end().to_string()
}

/// What may stand at a place without brackets.
#[derive(Clone, Copy, PartialEq, PartialOrd)]
enum Level {
    Or,
    And,
    Unit,
}

struct Writer<'a> {
    random: &'a mut Random,
    book: &'a Book,
    text: String,
}

impl Writer<'_> {
    fn spaces(&mut self) {
        let spaces = self.random.below(5) / 2;
        self.text += &" ".repeat(spaces);
    }

    fn token(&mut self, token: &str) {
        self.text += token;
        self.spaces();
    }

    fn formula(&mut self, node: usize, level: Level) {
        let own = match self.book.nodes[node] {
            Node::Or(..) => Level::Or,
            Node::And(..) => Level::And,
            _ => Level::Unit,
        };
        if own < level || self.random.once_in(8) {
            self.token("(");
            self.formula(node, Level::Or);
            self.token(")");
            return;
        }
        match self.book.nodes[node] {
            Node::Constant(value) => self.token(if value { "T" } else { "F" }),
            Node::Mark { index, negated } => {
                let sign = if negated { "!" } else { "" };
                let zero = if index < 10 && self.random.once_in(3) {
                    "0"
                } else {
                    ""
                };
                self.token(&format!("{sign}p{zero}{index}"));
            }
            Node::And(first, second) => self.joined("&", [first, second], Level::And, Level::Unit),
            Node::Or(first, second) => self.joined("|", [first, second], Level::Or, Level::And),
            Node::Next {
                comparison,
                bound,
                part,
            } => {
                self.token("N");
                self.token(match comparison {
                    Comparison::AtMost => "<=",
                    Comparison::Below => "<",
                    Comparison::AtLeast => ">=",
                    Comparison::Above => ">",
                });
                self.number(bound);
                self.formula(part, Level::Unit);
            }
            Node::Always { bound, part } => {
                self.token("A");
                self.bound(bound);
                self.formula(part, Level::Unit);
            }
            Node::Until {
                bound,
                first,
                second,
            } => self.until(bound, first, second),
        }
    }

    /// Two sides, in any order. The connective groups from the left.
    fn joined(&mut self, mark: &str, mut sides: [usize; 2], left: Level, right: Level) {
        if self.random.once_in(2) {
            sides.swap(0, 1);
        }
        self.formula(sides[0], left);
        self.token(mark);
        self.formula(sides[1], right);
    }

    fn until(&mut self, bound: u16, first: usize, second: usize) {
        let within = self.book.nodes[first] == Node::Constant(true);
        if within && self.random.once_in(2) {
            self.token("E");
            self.bound(bound);
            self.formula(second, Level::Unit);
            return;
        }
        self.token("U");
        self.bound(bound);
        self.token("(");
        self.formula(first, Level::Or);
        self.token(",");
        self.formula(second, Level::Or);
        self.token(")");
    }

    /// The bound of A, E or U.
    fn bound(&mut self, bound: u16) {
        if bound != 20 || self.random.once_in(2) {
            self.number(bound);
        }
    }

    fn number(&mut self, number: u16) {
        let width = 1 + self.random.below(6) / 4 + self.random.below(6) / 5;
        self.token(&format!("{number:0width$}"));
    }
}
