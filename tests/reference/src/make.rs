//! Makes the table that allows exactly the runs that good tables allow, with the fewest rows.

use crate::alternatives::{self, Alternatives, OverFull};
use crate::book::{self, Book};
use crate::table::{Row, Step, Table};
use crate::tower::{self, Tower};
use crate::{Refusal, MOST_PAIRS};
use std::collections::HashMap;

/// The maker's entry: the table file, or why there is none.
pub fn make(tower: &[u8], book: &[u8], output_length: usize) -> Result<Vec<u8>, Refusal> {
    let tower = tower::parse(tower)?;
    let book = book::read(tower.marks, book)?;
    let table = make_table(&tower, &book)?;
    let file = table.encode();
    if file.len() > output_length {
        return Err(Refusal::new(16));
    }
    Ok(file)
}

pub fn make_table(tower: &Tower, book: &Book) -> Result<Table, Refusal> {
    let pairs = Pairs::explore(tower, book).ok_or(Refusal::new(11))?;
    if pairs.over_full {
        return Err(Refusal::new(20));
    }
    let safe = pairs.safe(tower);
    if !safe[0] {
        return Err(Refusal::new(12));
    }
    let classes = pairs.classes(&safe);
    Ok(pairs.table(tower, &safe, &classes))
}

/// The number of pairs of a tower and a book, each counted once for each of its alternatives, or nothing
/// where there are over 1,000.
pub fn pair_count(tower: &Tower, book: &Book) -> Option<usize> {
    Pairs::explore(tower, book).map(|pairs| pairs.count)
}

/// A tower state and what is pending there.
type Pair = (usize, Alternatives);

/// The unbroken steps from a pair, which is tried by each enabled action: each action with the pair that
/// it leads to.
fn reached(
    tower: &Tower,
    book: &Book,
    state: usize,
    waiting: &Alternatives,
) -> Result<Vec<(usize, Pair)>, OverFull> {
    let mut reached = Vec::new();
    for (action, target) in tower.states[state].targets.iter().enumerate() {
        let Some(target) = *target else {
            continue;
        };
        let length = tower.step_length(state, action);
        let marks = tower.states[state].marks;
        let after = alternatives::after(book, waiting, marks, length)?;
        if !after.is_empty() {
            reached.push((action, (target, after)));
        }
    }
    Ok(reached)
}

/// The pairs met over all unbroken steps from the start, which is pair 0.
struct Pairs {
    /// The tower state of each pair.
    states: Vec<usize>,
    /// The pair that each action leads to, where it is enabled and breaks nothing.
    next: Vec<Vec<Option<usize>>>,
    /// How many they are, each counted once for each of its alternatives.
    count: usize,
    /// Whether some pair, tried by some enabled action, gives over 16 alternatives.
    over_full: bool,
}

impl Pairs {
    /// Meets every pair, or answers nothing where there are over 1,000. A pair that gives over 16
    /// alternatives by some action is stepped from by none, and counts itself.
    fn explore(tower: &Tower, book: &Book) -> Option<Pairs> {
        let first = (tower.start, alternatives::at_first(book));
        let mut count = first.1.len();
        let mut numbers = HashMap::from([(first.clone(), 0)]);
        let mut met = vec![first];
        let mut next = Vec::new();
        let mut over_full = false;
        while next.len() < met.len() {
            let mut steps = vec![None; tower.actions.len()];
            let (state, waiting) = &met[next.len()];
            let reached = reached(tower, book, *state, waiting);
            over_full |= reached.is_err();
            for (action, pair) in reached.unwrap_or_default() {
                let number = *numbers.entry(pair).or_insert_with_key(|pair| {
                    count += pair.1.len();
                    met.push(pair.clone());
                    met.len() - 1
                });
                if count > MOST_PAIRS {
                    return None;
                }
                steps[action] = Some(number);
            }
            next.push(steps);
        }
        Some(Pairs {
            states: met.into_iter().map(|(state, _)| state).collect(),
            next,
            count,
            over_full,
        })
    }

    /// The pairs from which play can go on for ever, whatever comes that is not ours and without waiting
    /// for the player. The others are removed one by one: a pair goes once an action is lost there that
    /// is not controllable, or every action that goes on.
    fn safe(&self, tower: &Tower) -> Vec<bool> {
        let count = self.states.len();
        let mut leading_here = vec![Vec::new(); count];
        let mut going_on = vec![0; count];
        let mut safe = vec![true; count];
        let mut to_remove = Vec::new();
        for pair in 0..count {
            for (action, target) in self.next[pair].iter().enumerate() {
                let kind = tower.kind(action);
                if let Some(target) = *target {
                    leading_here[target].push((pair, kind));
                    going_on[pair] += usize::from(kind.goes_on());
                } else if tower.target(self.states[pair], action).is_some() {
                    safe[pair] &= kind.controllable();
                }
            }
            safe[pair] &= going_on[pair] > 0;
            if !safe[pair] {
                to_remove.push(pair);
            }
        }
        while let Some(removed) = to_remove.pop() {
            for &(pair, kind) in &leading_here[removed] {
                going_on[pair] -= usize::from(kind.goes_on());
                let lost = !kind.controllable() || going_on[pair] == 0;
                if safe[pair] && lost {
                    safe[pair] = false;
                    to_remove.push(pair);
                }
            }
        }
        safe
    }

    /// A class for each pair: safe pairs are in one class if they have equal states and equal allowed
    /// runs onward. Classes start as the states and are split until no action splits them further.
    fn classes(&self, safe: &[bool]) -> Vec<usize> {
        let mut classes = self.states.clone();
        let mut class_count = 0;
        loop {
            let mut numbers = HashMap::new();
            let mut split = vec![0; classes.len()];
            for pair in (0..classes.len()).filter(|pair| safe[*pair]) {
                let class_after = |target: &Option<usize>| {
                    let target = target.filter(|target| safe[*target]);
                    target.map(|target| classes[target])
                };
                let after: Vec<Option<usize>> = self.next[pair].iter().map(class_after).collect();
                let fresh = numbers.len();
                split[pair] = *numbers.entry((classes[pair], after)).or_insert(fresh);
            }
            classes = split;
            if numbers.len() == class_count {
                return classes;
            }
            class_count = numbers.len();
        }
    }

    /// A row for each class that is reached, numbered as first met: rows in order, actions ascending.
    fn table(&self, tower: &Tower, safe: &[bool], classes: &[usize]) -> Table {
        let mut row_of_class = HashMap::from([(classes[0], 0)]);
        let mut pair_of_row = vec![0];
        let mut rows = Vec::new();
        while rows.len() < pair_of_row.len() {
            let pair = pair_of_row[rows.len()];
            let mut steps = Vec::new();
            for (action, target) in self.next[pair].iter().enumerate() {
                let Some(target_pair) = target.filter(|target| safe[*target]) else {
                    continue;
                };
                let target = *row_of_class.entry(classes[target_pair]).or_insert_with(|| {
                    pair_of_row.push(target_pair);
                    pair_of_row.len() - 1
                });
                steps.push(Step { action, target });
            }
            rows.push(Row {
                state: self.states[pair],
                steps,
            });
        }
        Table {
            states: tower.states.len(),
            actions: tower.actions.len(),
            rows,
        }
    }
}
