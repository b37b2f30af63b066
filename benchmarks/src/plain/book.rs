//! The rule book, read in one pass over its bytes by functions that call each other.

use super::{Refusal, MOST_NODES};

const MOST_BYTES: usize = 4_096;
const MOST_MARKS: usize = 16;
const MOST_OPEN_BRACKETS: usize = 16;
const MOST_NUMBER: u16 = 254;
const NUMBER_LEFT_OUT: u16 = 20;

#[derive(Clone, Copy)]
pub enum Comparison {
    AtMost,
    Below,
    AtLeast,
    Above,
}

impl Comparison {
    pub fn holds(self, length: u8, bound: u8) -> bool {
        match self {
            Comparison::AtMost => length <= bound,
            Comparison::Below => length < bound,
            Comparison::AtLeast => length >= bound,
            Comparison::Above => length > bound,
        }
    }
}

/// A formula, whose parts are nodes with lower numbers.
#[derive(Clone, Copy)]
pub enum Node {
    Constant(bool),
    Mark {
        index: u8,
        negated: bool,
    },
    And(u8, u8),
    /// With an untimed side first, where there is one.
    Or(u8, u8),
    Next {
        comparison: Comparison,
        bound: u8,
        part: u8,
    },
    Always {
        bound: u8,
        part: u8,
    },
    Until {
        bound: u8,
        first: u8,
        second: u8,
    },
}

/// Numbers of nodes, at most as many as there are nodes.
#[derive(Clone)]
pub struct Roots {
    numbers: [u8; MOST_NODES],
    count: usize,
}

impl Roots {
    const NONE: Roots = Roots {
        numbers: [0; MOST_NODES],
        count: 0,
    };

    fn push(&mut self, node: u8) {
        self.numbers[self.count] = node;
        self.count += 1;
    }

    pub fn numbers(&self) -> &[u8] {
        &self.numbers[..self.count]
    }
}

pub struct Book {
    nodes: [Node; MOST_NODES],
    pub node_count: usize,
    /// The whole formulas of the `always` lines and of the `start` lines.
    pub always: Roots,
    pub start: Roots,
}

impl Book {
    /// Reads a book for a tower with marks 0 to `marks` - 1.
    pub fn read(marks: usize, text: &[u8]) -> Result<Book, Refusal> {
        if marks > MOST_MARKS {
            return Err(Refusal::new(2));
        }
        if text.len() > MOST_BYTES {
            return Err(Refusal::new(9));
        }
        let book = Book {
            nodes: [Node::Constant(true); MOST_NODES],
            node_count: 0,
            always: Roots::NONE,
            start: Roots::NONE,
        };
        let mut reader = Reader {
            rest: text,
            marks,
            book,
            open_brackets: 0,
            faults: Faults::default(),
        };
        let mut line = 0;
        while !reader.rest.is_empty() {
            reader.line().map_err(|number| Refusal::at(number, line))?;
            line += 1;
        }
        Ok(reader.book)
    }

    pub fn line_count(&self) -> usize {
        self.always.count + self.start.count
    }

    pub fn node(&self, number: u8) -> &Node {
        &self.nodes[usize::from(number)]
    }

    /// A bit for each `|` with two timed sides.
    #[inline(never)]
    pub fn either(&self) -> u64 {
        let (mut timed, mut either) = (0u64, 0);
        for (node, kind) in self.nodes[..self.node_count].iter().enumerate() {
            let is_timed = match *kind {
                Node::Constant(_) | Node::Mark { .. } => false,
                Node::And(first, second) => (timed >> first | timed >> second) & 1 == 1,
                Node::Or(first, second) => {
                    either |= (timed >> first & 1) << node;
                    timed >> second & 1 == 1
                }
                _ => true,
            };
            timed |= u64::from(is_timed) << node;
        }
        either
    }

    /// A bit for each node that may give more than one alternative: one of those, or one with such a part
    /// that is progressed with it.
    pub fn many(&self, either: u64) -> u64 {
        let mut many = either;
        for (node, kind) in self.nodes[..self.node_count].iter().enumerate() {
            let parts = match *kind {
                Node::And(first, second) | Node::Or(first, second) => 1 << first | 1 << second,
                Node::Always { part, .. } => 1 << part,
                Node::Until { first, .. } => 1 << first,
                _ => 0u64,
            };
            many |= u64::from(many & parts != 0) << node;
        }
        many
    }

    /// The number that a new node starts with.
    pub fn bound(&self, number: u8) -> u8 {
        match *self.node(number) {
            Node::Next { bound, .. } | Node::Always { bound, .. } | Node::Until { bound, .. } => {
                bound
            }
            _ => 0,
        }
    }
}

/// What is wrong with a line that is of the grammar.
#[derive(Default)]
struct Faults {
    number: bool,
    mark: bool,
    size: bool,
    timed: bool,
}

/// A node, and whether it holds N, A, E or U.
#[derive(Clone, Copy)]
struct Part {
    node: u8,
    timed: bool,
}

struct Reader<'a> {
    rest: &'a [u8],
    marks: usize,
    book: Book,
    open_brackets: usize,
    faults: Faults,
}

impl Reader<'_> {
    /// Reads one line with its end, or answers the number of its refusal.
    fn line(&mut self) -> Result<(), u8> {
        self.faults = Faults::default();
        self.open_brackets = 0;
        let always = self.rest.starts_with(b"always ");
        if !always && !self.rest.starts_with(b"start ") {
            return Err(6);
        }
        self.rest = &self.rest[if always { 7 } else { 6 }..];
        let root = self.disjunction().ok_or(6)?;
        self.take(b'\n').ok_or(6)?;
        let faults = &self.faults;
        if faults.number {
            return Err(7);
        }
        if faults.mark {
            return Err(8);
        }
        if faults.size {
            return Err(9);
        }
        if faults.timed {
            return Err(10);
        }
        if always {
            self.book.always.push(root.node);
        } else {
            self.book.start.push(root.node);
        }
        Ok(())
    }

    /// Parts joined by `|`.
    fn disjunction(&mut self) -> Option<Part> {
        let mut whole = self.conjunction()?;
        while self.take_token(b'|').is_some() {
            let right = self.conjunction()?;
            let node = if whole.timed {
                Node::Or(right.node, whole.node)
            } else {
                Node::Or(whole.node, right.node)
            };
            whole = self.add(node, whole.timed || right.timed);
        }
        Some(whole)
    }

    /// Units joined by `&`.
    fn conjunction(&mut self) -> Option<Part> {
        let mut whole = self.unit()?;
        while self.take_token(b'&').is_some() {
            let right = self.unit()?;
            let node = Node::And(whole.node, right.node);
            whole = self.add(node, whole.timed || right.timed);
        }
        Some(whole)
    }

    fn unit(&mut self) -> Option<Part> {
        self.skip_spaces();
        let (&lead, rest) = self.rest.split_first()?;
        self.rest = rest;
        match lead {
            b'T' => Some(self.add(Node::Constant(true), false)),
            b'F' => Some(self.add(Node::Constant(false), false)),
            b'p' => self.mark(false),
            b'!' => {
                self.take(b'p')?;
                self.mark(true)
            }
            b'(' => {
                self.open();
                let whole = self.disjunction()?;
                self.close()?;
                Some(whole)
            }
            b'N' => {
                let comparison = self.comparison()?;
                self.skip_spaces();
                let bound = self.number()?;
                let part = self.unit()?.node;
                let node = Node::Next {
                    comparison,
                    bound,
                    part,
                };
                Some(self.add(node, true))
            }
            b'A' => {
                let bound = self.bound();
                let part = self.unit()?.node;
                Some(self.add(Node::Always { bound, part }, true))
            }
            b'E' => {
                let bound = self.bound();
                let first = self.add(Node::Constant(true), false);
                let second = self.unit()?;
                Some(self.until(bound, first, second))
            }
            b'U' => {
                let bound = self.bound();
                self.take_token(b'(')?;
                self.open();
                let first = self.disjunction()?;
                self.take_token(b',')?;
                let second = self.disjunction()?;
                self.close()?;
                Some(self.until(bound, first, second))
            }
            _ => None,
        }
    }

    fn until(&mut self, bound: u8, first: Part, second: Part) -> Part {
        self.faults.timed |= second.timed;
        let node = Node::Until {
            bound,
            first: first.node,
            second: second.node,
        };
        self.add(node, true)
    }

    fn add(&mut self, node: Node, timed: bool) -> Part {
        let Some(place) = self.book.nodes.get_mut(self.book.node_count) else {
            self.faults.size = true;
            return Part { node: 0, timed };
        };
        *place = node;
        let node = self.book.node_count as u8;
        self.book.node_count += 1;
        Part { node, timed }
    }

    fn open(&mut self) {
        self.open_brackets += 1;
        self.faults.size |= self.open_brackets > MOST_OPEN_BRACKETS;
    }

    fn close(&mut self) -> Option<()> {
        self.open_brackets -= 1;
        self.take_token(b')')
    }

    /// The digits of a mark, after its `p`.
    fn mark(&mut self, negated: bool) -> Option<Part> {
        let index = self.digits(2)?;
        self.faults.mark |= usize::from(index) >= self.marks;
        let index = index as u8;
        Some(self.add(Node::Mark { index, negated }, false))
    }

    fn comparison(&mut self) -> Option<Comparison> {
        self.skip_spaces();
        let (&lead, rest) = self.rest.split_first()?;
        self.rest = rest;
        let equal = self.take(b'=').is_some();
        match (lead, equal) {
            (b'<', true) => Some(Comparison::AtMost),
            (b'<', false) => Some(Comparison::Below),
            (b'>', true) => Some(Comparison::AtLeast),
            (b'>', false) => Some(Comparison::Above),
            _ => None,
        }
    }

    /// The number after A, E or U, or the one that stands for it.
    fn bound(&mut self) -> u8 {
        self.skip_spaces();
        self.number().unwrap_or(NUMBER_LEFT_OUT as u8)
    }

    fn number(&mut self) -> Option<u8> {
        let value = self.digits(3)?;
        self.faults.number |= value > MOST_NUMBER;
        Some(value as u8)
    }

    /// The value of the digits that stand next, at least one and at most `most`.
    fn digits(&mut self, most: usize) -> Option<u16> {
        let mut value = 0;
        let mut count = 0;
        while let Some(digit @ b'0'..=b'9') = self.rest.get(count) {
            if count == most {
                break;
            }
            value = 10 * value + u16::from(digit - b'0');
            count += 1;
        }
        self.rest = &self.rest[count..];
        (count > 0).then_some(value)
    }

    fn skip_spaces(&mut self) {
        while let [b' ', rest @ ..] = self.rest {
            self.rest = rest;
        }
    }

    fn take_token(&mut self, byte: u8) -> Option<()> {
        let line = self.rest;
        self.skip_spaces();
        let taken = self.take(byte);
        if taken.is_none() {
            self.rest = line;
        }
        taken
    }

    fn take(&mut self, byte: u8) -> Option<()> {
        match self.rest {
            [first, rest @ ..] if *first == byte => {
                self.rest = rest;
                Some(())
            }
            _ => None,
        }
    }
}
