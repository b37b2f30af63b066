//! Makes the table: exploration with a hash map, removal by a worklist, and refinement by passes
//! over hashed signatures.

use super::book::Book;
use super::hash::Fast;
use super::pairs::Pairs;
use super::pending::{self, Onward, Pending};
use super::search::{Number, Search, Tried};
use super::table::{COUNT, FIRST, HEADER, ROW, STEP};
use super::tower::Tower;
use super::{Refusal, MOST_ACTIONS, MOST_NODES, MOST_PAIRS};
use std::collections::HashMap;
use std::hash::{Hash, Hasher};

#[derive(Clone, Copy, PartialEq, Eq, Hash)]
struct Pair {
    state: u8,
    pending: Pending,
}

/// What an action does, where it leads to no pair.
const NOT_ENABLED: u16 = u16::MAX;
const BROKEN: u16 = u16::MAX - 1;

/// Numbers of pairs or of classes, by actions.
type Steps = [Number; MOST_ACTIONS];

/// The class of a pair, and the classes that its actions lead to.
#[derive(Clone, Copy)]
struct Signature {
    numbers: [Number; 1 + MOST_ACTIONS],
    count: usize,
}

impl Signature {
    fn numbers(&self) -> &[Number] {
        &self.numbers[..self.count]
    }
}

impl PartialEq for Signature {
    fn eq(&self, other: &Self) -> bool {
        self.numbers() == other.numbers()
    }
}

impl Eq for Signature {}

impl Hash for Signature {
    fn hash<H: Hasher>(&self, state: &mut H) {
        self.numbers().hash(state);
    }
}

/// The room of a maker, kept from call to call, with a search over pairs of sets: the plain one, or
/// another.
pub struct Maker<S = Pairs> {
    numbers: HashMap<Pair, Number, Fast>,
    pairs: Vec<Pair>,
    onward: Onward,
    steps: Vec<Steps>,
    kept: Vec<bool>,
    /// For each pair the actions that still lead to a kept one.
    left: Vec<u8>,
    /// The steps that lead to each pair, in one list, and where each pair's part of it begins.
    begins: Vec<usize>,
    leading: Vec<(Number, u8)>,
    to_remove: Vec<Number>,
    classes: Vec<Number>,
    split: Vec<Number>,
    signatures: HashMap<Signature, Number, Fast>,
    rows: Vec<Number>,
    row_of_class: Vec<Number>,
    /// The pairs under a book with two timed sides of `|`.
    with_sets: S,
}

/// How large a call was.
#[derive(Clone, Copy, Debug, Default, PartialEq, Eq)]
pub struct Size {
    pub pairs: usize,
    pub kept: usize,
    pub removal_passes: usize,
    pub refinement_passes: usize,
}

impl Maker {
    pub fn new() -> Self {
        Maker::with_room()
    }
}

impl<S: Search> Maker<S> {
    /// With room for the most pairs.
    pub fn with_room() -> Self {
        let most = MOST_PAIRS;
        let hasher = Fast::default;
        Maker {
            numbers: HashMap::with_capacity_and_hasher(most + 1, hasher()),
            pairs: Vec::with_capacity(most),
            onward: Onward::new(),
            steps: Vec::with_capacity(most),
            kept: Vec::with_capacity(most),
            left: Vec::with_capacity(most),
            begins: Vec::with_capacity(most + 2),
            leading: Vec::with_capacity(most * MOST_ACTIONS),
            to_remove: Vec::with_capacity(most),
            classes: Vec::with_capacity(most),
            split: Vec::with_capacity(most),
            signatures: HashMap::with_capacity_and_hasher(most, hasher()),
            rows: Vec::with_capacity(most),
            row_of_class: Vec::with_capacity(most),
            with_sets: S::new(),
        }
    }

    /// Writes the table, and answers its length.
    pub fn make(&mut self, tower: &[u8], book: &[u8], out: &mut [u8]) -> Result<usize, Refusal> {
        let tower = Tower::read(tower)?;
        let book = Book::read(tower.marks, book)?;
        match book.either() {
            0 => self.explore(&tower, &book)?,
            either => self.explore_sets(&tower, &S::rules(&book, either))?,
        }
        self.remove(&tower);
        if !self.kept[0] {
            return Err(Refusal::new(12));
        }
        self.refine(tower.actions);
        self.number_rows();
        self.write(&tower, out)
    }

    /// How large the last call was, which has made a table of this tower.
    pub fn size(&mut self, tower: &[u8]) -> Result<Size, Refusal> {
        let tower = Tower::read(tower)?;
        Ok(Size {
            pairs: self.pairs.len(),
            kept: self.kept.iter().filter(|kept| **kept).count(),
            removal_passes: self.removal_passes(&tower),
            refinement_passes: self.refine(tower.actions),
        })
    }

    /// How many pairs the last call under a book with two timed sides of `|` has met, and how many
    /// alternatives they have.
    pub fn met_sets(&self) -> [usize; 2] {
        self.with_sets.counts()
    }

    /// How many passes over all pairs find those that are kept. The proved code makes them from the
    /// last pair to the first and back in turn, and stops after one that removes nothing.
    fn removal_passes(&self, tower: &Tower) -> usize {
        let mut kept = vec![true; self.pairs.len()];
        let mut passes = 0;
        loop {
            passes += 1;
            let mut gone = false;
            for place in 0..kept.len() {
                let down = passes % 2 == 1;
                let pair = if down { kept.len() - 1 - place } else { place };
                if !kept[pair] {
                    continue;
                }
                let inside = |target: Number| target < BROKEN && kept[usize::from(target)];
                let steps = self.steps[pair][..tower.actions].iter().enumerate();
                let forced = steps.clone().any(|(action, &target)| {
                    tower.is_forced(action) && target != NOT_ENABLED && !inside(target)
                });
                let goes_on = |(action, &target)| tower.goes_on(action) && inside(target);
                let goes = steps.clone().any(goes_on);
                if forced || !goes {
                    kept[pair] = false;
                    gone = true;
                }
            }
            if !gone {
                assert!(kept == self.kept);
                return passes;
            }
        }
    }

    fn explore(&mut self, tower: &Tower, book: &Book) -> Result<(), Refusal> {
        self.numbers.clear();
        self.pairs.clear();
        self.steps.clear();
        let first = Pair {
            state: tower.start as u8,
            pending: pending::at_first(book),
        };
        self.numbers.insert(first, 0);
        self.pairs.push(first);
        while let Some(&pair) = self.pairs.get(self.steps.len()) {
            let mut steps = [NOT_ENABLED; MOST_ACTIONS];
            let state = usize::from(pair.state);
            let marks = tower.mask(state);
            self.onward.clear();
            for (action, target) in tower.targets(state).enumerate() {
                let Some(target) = target else {
                    continue;
                };
                let length = tower.step_length(state, action);
                let after = self.onward.after(book, &pair.pending, marks, length);
                let Some(pending) = *after else {
                    steps[action] = BROKEN;
                    continue;
                };
                let reached = Pair {
                    state: target as u8,
                    pending,
                };
                let fresh = self.pairs.len() as Number;
                let number = *self.numbers.entry(reached).or_insert(fresh);
                if number == fresh {
                    if self.pairs.len() == MOST_PAIRS {
                        return Err(Refusal::new(11));
                    }
                    self.pairs.push(reached);
                }
                steps[action] = number;
            }
            self.steps.push(steps);
        }
        Ok(())
    }

    /// The same under a book with two timed sides of `|`; 20 where some pair gives too many
    /// alternatives. Nobody asks for what is pending afterwards, so the pairs have their states alone.
    #[inline(never)]
    fn explore_sets(&mut self, tower: &Tower, rules: &S::Rules<'_>) -> Result<(), Refusal> {
        self.pairs.clear();
        self.steps.clear();
        self.with_sets.begin(rules, tower.start);
        let mut over_full = false;
        while let Some(state) = self.with_sets.at(self.steps.len()) {
            let mut steps = [NOT_ENABLED; MOST_ACTIONS];
            let tried = tower.targets(state).enumerate();
            let tried = tried.filter_map(|(action, target)| {
                Some(Tried {
                    action,
                    length: tower.step_length(state, action),
                    target: target?,
                })
            });
            let lead = |action: usize, pair: Option<Number>| steps[action] = pair.unwrap_or(BROKEN);
            let marks = tower.mask(state);
            over_full |= self
                .with_sets
                .step(rules, self.steps.len(), marks, tried, lead)?;
            self.steps.push(steps);
            self.pairs.push(Pair {
                state: state as u8,
                pending: [0; MOST_NODES],
            });
        }
        if over_full {
            return Err(Refusal::new(20));
        }
        Ok(())
    }

    /// Keeps the pairs from which neither a break nor a stop can be forced: a pair goes once an action
    /// is lost there that may not be withheld, or every action that goes on.
    fn remove(&mut self, tower: &Tower) {
        self.list_leading();
        let count = self.pairs.len();
        self.kept.clear();
        self.kept.resize(count, true);
        self.left.clear();
        self.to_remove.clear();
        for (pair, steps) in self.steps.iter().enumerate() {
            let onward = |action: &usize| steps[*action] < BROKEN && tower.goes_on(*action);
            let left = (0..tower.actions).filter(onward).count();
            let forced = |action: usize| tower.is_forced(action);
            let lost = (0..tower.actions).any(|a| steps[a] == BROKEN && forced(a));
            self.left.push(left as u8);
            if lost || left == 0 {
                self.kept[pair] = false;
                self.to_remove.push(pair as Number);
            }
        }
        while let Some(removed) = self.to_remove.pop() {
            let removed = usize::from(removed);
            let part = self.begins[removed]..self.begins[removed + 1];
            for &(pair, action) in &self.leading[part] {
                let (at, action) = (usize::from(pair), usize::from(action));
                self.left[at] -= u8::from(tower.goes_on(action));
                let lost = self.left[at] == 0 || tower.is_forced(action);
                if lost && self.kept[at] {
                    self.kept[at] = false;
                    self.to_remove.push(pair);
                }
            }
        }
    }

    /// Lists the steps that lead to each pair.
    fn list_leading(&mut self) {
        let count = self.pairs.len();
        self.begins.clear();
        self.begins.resize(count + 2, 0);
        for &target in self.steps.iter().flatten() {
            if target < BROKEN {
                self.begins[usize::from(target) + 2] += 1;
            }
        }
        for pair in 2..count + 2 {
            self.begins[pair] += self.begins[pair - 1];
        }
        self.leading.clear();
        self.leading.resize(self.begins[count + 1], (0, 0));
        for (pair, steps) in self.steps.iter().enumerate() {
            for (action, &target) in steps.iter().enumerate() {
                if target < BROKEN {
                    let place = &mut self.begins[usize::from(target) + 1];
                    self.leading[*place] = (pair as Number, action as u8);
                    *place += 1;
                }
            }
        }
    }

    /// Splits the kept pairs by state, and then by the classes that their actions lead to, until a
    /// pass splits no more. Answers the number of passes.
    fn refine(&mut self, actions: usize) -> usize {
        self.classes.clear();
        self.classes
            .extend(self.pairs.iter().map(|pair| Number::from(pair.state)));
        let mut class_count = 0;
        let mut passes = 0;
        loop {
            passes += 1;
            self.signatures.clear();
            self.split.clear();
            for (pair, steps) in self.steps.iter().enumerate() {
                if !self.kept[pair] {
                    self.split.push(0);
                    continue;
                }
                let mut signature = Signature {
                    numbers: [NOT_ENABLED; 1 + MOST_ACTIONS],
                    count: 1 + actions,
                };
                signature.numbers[0] = self.classes[pair];
                for (class, &target) in signature.numbers[1..].iter_mut().zip(&steps[..actions]) {
                    if target < BROKEN && self.kept[usize::from(target)] {
                        *class = self.classes[usize::from(target)];
                    }
                }
                let fresh = self.signatures.len() as Number;
                let class = *self.signatures.entry(signature).or_insert(fresh);
                self.split.push(class);
            }
            std::mem::swap(&mut self.classes, &mut self.split);
            if self.signatures.len() == class_count {
                return passes;
            }
            class_count = self.signatures.len();
        }
    }

    /// A row for each class that is reached, numbered as first met.
    fn number_rows(&mut self) {
        self.row_of_class.clear();
        self.row_of_class.resize(self.signatures.len(), NOT_ENABLED);
        self.rows.clear();
        self.rows.push(0);
        self.row_of_class[usize::from(self.classes[0])] = 0;
        let mut next = 0;
        while let Some(&pair) = self.rows.get(next) {
            next += 1;
            for &target in &self.steps[usize::from(pair)] {
                if target < BROKEN && self.kept[usize::from(target)] {
                    let class = self.classes[usize::from(target)];
                    let row = &mut self.row_of_class[usize::from(class)];
                    if *row == NOT_ENABLED {
                        *row = self.rows.len() as Number;
                        self.rows.push(target);
                    }
                }
            }
        }
    }

    /// The steps of a row: each action with its target row.
    fn row_steps(&self, pair: Number) -> impl Iterator<Item = (u8, Number)> + '_ {
        let steps = self.steps[usize::from(pair)].iter().enumerate();
        steps.filter_map(|(action, &target)| {
            let goes = target < BROKEN && self.kept[usize::from(target)];
            let row = |target| self.row_of_class[usize::from(self.classes[usize::from(target)])];
            goes.then(|| (action as u8, row(target)))
        })
    }

    fn write(&self, tower: &Tower, out: &mut [u8]) -> Result<usize, Refusal> {
        let rows = self.rows.len();
        let steps: usize = self
            .rows
            .iter()
            .map(|&row| self.row_steps(row).count())
            .sum();
        let steps_at = HEADER + ROW * rows;
        let length = steps_at + STEP * steps;
        let out = out.get_mut(..length).ok_or(Refusal::new(16))?;
        let header = [rows, steps, HEADER, steps_at, tower.states, tower.actions];
        let (head, body) = out.split_at_mut(HEADER);
        for (place, number) in head.chunks_exact_mut(2).zip(header) {
            place.copy_from_slice(&(number as u16).to_le_bytes());
        }
        let (row_places, step_places) = body.split_at_mut(ROW * rows);
        let mut step_places = step_places.chunks_exact_mut(STEP);
        let mut first = 0u16;
        for (place, &pair) in row_places.chunks_exact_mut(ROW).zip(&self.rows) {
            let mut count = 0;
            for ((action, target), step) in self.row_steps(pair).zip(&mut step_places) {
                step[0] = action;
                step[1..].copy_from_slice(&target.to_le_bytes());
                count += 1;
            }
            place[0] = self.pairs[usize::from(pair)].state;
            place[COUNT] = count;
            place[FIRST..].copy_from_slice(&first.to_le_bytes());
            first += u16::from(count);
        }
        Ok(length)
    }
}
