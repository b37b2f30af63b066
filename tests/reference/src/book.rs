//! Section 'Rule book'.

use crate::{tower, Refusal};

const MOST_BYTES: usize = 4_096;
const MOST_NODES: usize = 60;
const MOST_OPEN_BRACKETS: usize = 16;
const MOST_NUMBER: u16 = 254;
const NUMBER_LEFT_OUT: u16 = 20;

#[derive(Clone, Copy, Debug, PartialEq, Eq)]
pub enum Comparison {
    AtMost,
    Below,
    AtLeast,
    Above,
}

impl Comparison {
    /// Whether `length` compares so with `bound`.
    pub fn holds(self, length: u16, bound: u16) -> bool {
        match self {
            Comparison::AtMost => length <= bound,
            Comparison::Below => length < bound,
            Comparison::AtLeast => length >= bound,
            Comparison::Above => length > bound,
        }
    }
}

/// A formula, whose parts are nodes with lower numbers. `E t g` stands as `U t (T, g)`.
#[derive(Clone, Copy, Debug, PartialEq, Eq)]
pub enum Node {
    Constant(bool),
    Mark {
        index: u8,
        negated: bool,
    },
    And(usize, usize),
    Or(usize, usize),
    Next {
        comparison: Comparison,
        bound: u16,
        part: usize,
    },
    Always {
        bound: u16,
        part: usize,
    },
    Until {
        bound: u16,
        first: usize,
        second: usize,
    },
}

#[derive(Clone, Copy, Debug, PartialEq, Eq)]
pub struct Line {
    /// `always`, and not `start`.
    pub always: bool,
    /// The node of the whole formula.
    pub root: usize,
}

#[derive(Clone, Debug, Default, PartialEq, Eq)]
pub struct Book {
    pub lines: Vec<Line>,
    /// Every part of every formula, by its number.
    pub nodes: Vec<Node>,
    /// Whether a node holds N, A, E or U.
    pub timed: Vec<bool>,
}

/// Reads a rule book for a tower with marks 0 to `marks` - 1.
pub fn read(marks: usize, text: &[u8]) -> Result<Book, Refusal> {
    if !tower::MARKS.contains(&marks) {
        return Err(Refusal::new(2));
    }
    if text.len() > MOST_BYTES {
        return Err(Refusal::new(9));
    }
    let mut book = Book::default();
    for (number, line) in text.split_inclusive(|byte| *byte == b'\n').enumerate() {
        let line = line.strip_suffix(b"\n").ok_or(Refusal::at(6, number))?;
        book.add_line(marks, line)
            .map_err(|why| Refusal::at(why, number))?;
    }
    Ok(book)
}

impl Book {
    /// Reads one line without its end, or answers the number of its refusal.
    fn add_line(&mut self, marks: usize, line: &[u8]) -> Result<(), u8> {
        let (always, tokens) = tokens_of_line(line).ok_or(6)?;
        let nodes_before = self.nodes.len();
        let root = Reader::new(self).formula(&tokens).ok_or(6)?;
        let number_too_high = |token: &Token| matches!(token, Token::Number(n) if *n > MOST_NUMBER);
        if tokens.iter().any(number_too_high) {
            return Err(7);
        }
        let mark_too_high = |token: &Token| matches!(token, Token::Mark { index, .. } if usize::from(*index) >= marks);
        if tokens.iter().any(mark_too_high) {
            return Err(8);
        }
        if self.nodes.len() > MOST_NODES || most_open_brackets(&tokens) > MOST_OPEN_BRACKETS {
            return Err(9);
        }
        if (nodes_before..self.nodes.len()).any(|node| self.timed_where_it_may_not_be(node)) {
            return Err(10);
        }
        self.lines.push(Line { always, root });
        Ok(())
    }

    fn add_node(&mut self, node: Node) -> usize {
        let timed = match node {
            Node::Constant(_) | Node::Mark { .. } => false,
            Node::And(left, right) | Node::Or(left, right) => self.timed[left] || self.timed[right],
            Node::Next { .. } | Node::Always { .. } | Node::Until { .. } => true,
        };
        self.nodes.push(node);
        self.timed.push(timed);
        self.nodes.len() - 1
    }

    fn timed_where_it_may_not_be(&self, node: usize) -> bool {
        match self.nodes[node] {
            Node::Until { second, .. } => self.timed[second],
            _ => false,
        }
    }
}

#[derive(Clone, Copy, Debug, PartialEq, Eq)]
enum Token {
    Constant(bool),
    Mark { index: u8, negated: bool },
    And,
    Or,
    Next,
    Always,
    Within,
    Until,
    Comparison(Comparison),
    Number(u16),
    Open,
    Close,
    Comma,
}

/// The word that a line begins with (true for `always`) and the tokens after it.
fn tokens_of_line(line: &[u8]) -> Option<(bool, Vec<Token>)> {
    let (always, mut rest) = if let Some(rest) = line.strip_prefix(b"always") {
        (true, rest)
    } else {
        (false, line.strip_prefix(b"start")?)
    };
    if rest.first() != Some(&b' ') || rest.last() == Some(&b' ') {
        return None;
    }
    let mut tokens = Vec::new();
    while let Some(byte) = rest.first() {
        if *byte == b' ' {
            rest = &rest[1..];
        } else {
            let (token, length) = token(rest)?;
            tokens.push(token);
            rest = &rest[length..];
        }
    }
    Some((always, tokens))
}

/// The longest token that `text` begins with, and its length.
fn token(text: &[u8]) -> Option<(Token, usize)> {
    let equals = text.get(1) == Some(&b'=');
    Some(match text[0] {
        b'T' => (Token::Constant(true), 1),
        b'F' => (Token::Constant(false), 1),
        b'&' => (Token::And, 1),
        b'|' => (Token::Or, 1),
        b'N' => (Token::Next, 1),
        b'A' => (Token::Always, 1),
        b'E' => (Token::Within, 1),
        b'U' => (Token::Until, 1),
        b'(' => (Token::Open, 1),
        b')' => (Token::Close, 1),
        b',' => (Token::Comma, 1),
        b'<' if equals => (Token::Comparison(Comparison::AtMost), 2),
        b'<' => (Token::Comparison(Comparison::Below), 1),
        b'>' if equals => (Token::Comparison(Comparison::AtLeast), 2),
        b'>' => (Token::Comparison(Comparison::Above), 1),
        b'0'..=b'9' => {
            let (value, length) = digits(text, 3)?;
            (Token::Number(value), length)
        }
        b'p' | b'!' => {
            let negated = text[0] == b'!';
            let named = text.strip_prefix(b"!").unwrap_or(text);
            let (value, length) = digits(named.strip_prefix(b"p")?, 2)?;
            let index = u8::try_from(value).ok()?;
            (
                Token::Mark { index, negated },
                usize::from(negated) + 1 + length,
            )
        }
        _ => return None,
    })
}

/// The value and the count of the digits that `text` begins with, at least one and at most `most`.
fn digits(text: &[u8], most: usize) -> Option<(u16, usize)> {
    let digits = text.iter().take(most).take_while(|b| b.is_ascii_digit());
    let length = digits.clone().count();
    let value = digits.fold(0, |value, digit| 10 * value + u16::from(digit - b'0'));
    (length > 0).then_some((value, length))
}

/// The most brackets that are open at one time.
fn most_open_brackets(tokens: &[Token]) -> usize {
    let mut open = 0;
    let mut most = 0;
    for token in tokens {
        match token {
            Token::Open => open += 1,
            Token::Close => open -= 1,
            _ => {}
        }
        most = most.max(open);
    }
    most
}

/// What is begun and waits for a formula to its right.
enum Begun {
    Bracket,
    And(usize),
    Or(usize),
    Next(Comparison, u16),
    Always(u16),
    /// `E`, with the node of its T.
    Within(u16, usize),
    UntilFirst(u16),
    UntilSecond(u16, usize),
}

/// Reads a formula with a stack of its own, so that no line is too deep for it. Nodes are added as
/// soon as they are whole: operands first, in reading order.
struct Reader<'a> {
    book: &'a mut Book,
    begun: Vec<Begun>,
}

impl<'a> Reader<'a> {
    fn new(book: &'a mut Book) -> Self {
        let begun = Vec::new();
        Reader { book, begun }
    }

    /// The node of the formula that the tokens are, where they are one.
    fn formula(mut self, tokens: &[Token]) -> Option<usize> {
        let mut rest = tokens.iter().copied().peekable();
        loop {
            // A unit is due.
            let mut whole = match rest.next()? {
                Token::Constant(value) => self.book.add_node(Node::Constant(value)),
                Token::Mark { index, negated } => self.book.add_node(Node::Mark { index, negated }),
                lead => {
                    let number = |token: &Token| matches!(token, Token::Number(_));
                    let begun = match lead {
                        Token::Open => Begun::Bracket,
                        Token::Next => {
                            let Token::Comparison(comparison) = rest.next()? else {
                                return None;
                            };
                            let Token::Number(bound) = rest.next()? else {
                                return None;
                            };
                            Begun::Next(comparison, bound)
                        }
                        Token::Always | Token::Within | Token::Until => {
                            let bound = match rest.next_if(number) {
                                Some(Token::Number(bound)) => bound,
                                _ => NUMBER_LEFT_OUT,
                            };
                            match lead {
                                Token::Always => Begun::Always(bound),
                                Token::Within => {
                                    Begun::Within(bound, self.book.add_node(Node::Constant(true)))
                                }
                                _ => {
                                    rest.next_if_eq(&Token::Open)?;
                                    Begun::UntilFirst(bound)
                                }
                            }
                        }
                        _ => return None,
                    };
                    self.begun.push(begun);
                    continue;
                }
            };
            // A unit is whole: a connective, a bracket, a comma or the end is due.
            loop {
                whole = self.end_led(whole);
                match rest.next() {
                    Some(Token::And) => {
                        whole = self.end_and(whole);
                        self.begun.push(Begun::And(whole));
                        break;
                    }
                    Some(Token::Or) => {
                        whole = self.end_or(whole);
                        self.begun.push(Begun::Or(whole));
                        break;
                    }
                    Some(Token::Comma) => {
                        whole = self.end_or(whole);
                        let Some(Begun::UntilFirst(bound)) = self.begun.pop() else {
                            return None;
                        };
                        self.begun.push(Begun::UntilSecond(bound, whole));
                        break;
                    }
                    Some(Token::Close) => {
                        whole = self.end_or(whole);
                        whole = match self.begun.pop()? {
                            Begun::Bracket => whole,
                            Begun::UntilSecond(bound, first) => self.book.add_node(Node::Until {
                                bound,
                                first,
                                second: whole,
                            }),
                            _ => return None,
                        };
                    }
                    Some(_) => return None,
                    None => {
                        whole = self.end_or(whole);
                        return self.begun.is_empty().then_some(whole);
                    }
                }
            }
        }
    }

    /// Ends every N, A and E whose unit is `whole`.
    fn end_led(&mut self, mut whole: usize) -> usize {
        loop {
            let node = match self.begun.last() {
                Some(&Begun::Next(comparison, bound)) => Node::Next {
                    comparison,
                    bound,
                    part: whole,
                },
                Some(&Begun::Always(bound)) => Node::Always { bound, part: whole },
                Some(&Begun::Within(bound, first)) => Node::Until {
                    bound,
                    first,
                    second: whole,
                },
                _ => return whole,
            };
            self.begun.pop();
            whole = self.book.add_node(node);
        }
    }

    /// Ends the `&` whose right side is `whole`, if there is one.
    fn end_and(&mut self, whole: usize) -> usize {
        match self.begun.last() {
            Some(&Begun::And(left)) => {
                self.begun.pop();
                self.book.add_node(Node::And(left, whole))
            }
            _ => whole,
        }
    }

    /// Ends the `&` and then the `|` whose right side is `whole`, if there are such.
    fn end_or(&mut self, whole: usize) -> usize {
        let whole = self.end_and(whole);
        match self.begun.last() {
            Some(&Begun::Or(left)) => {
                self.begun.pop();
                self.book.add_node(Node::Or(left, whole))
            }
            _ => whole,
        }
    }
}
