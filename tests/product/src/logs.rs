//! Stroke logs at random.

use crate::answer::Answer;
use crate::common::Random;
use crate::log::{line, malformed, row};
use crate::{edits, tables};
use reference::log::MOST_TICK;
use reference::table::{self, Table};
use reference::tower::{self, Tower};

/// Something that a log has, and the answer that shows it.
pub struct Shown {
    pub name: &'static str,
    pub by: Answer,
}

/// What has to come, and of how many cases at least one.
pub const KINDS: [(&str, usize); OTHERS.len() + UNFIT.len() + MALFORMED.len()] = {
    let mut kinds = [("", 500); OTHERS.len() + UNFIT.len() + MALFORMED.len()];
    let mut i = 0;
    while i < kinds.len() {
        if i < OTHERS.len() {
            kinds[i] = OTHERS[i];
        } else if i < OTHERS.len() + UNFIT.len() {
            kinds[i].0 = UNFIT[i - OTHERS.len()].0;
        } else {
            kinds[i].0 = MALFORMED[i - OTHERS.len() - UNFIT.len()].0;
        }
        i += 1;
    }
    kinds
};

const OTHERS: [(&str, usize); 19] = [
    ("14 a", 500),
    ("14 b", 500),
    ("14 c", 500),
    ("14 d", 500),
    (ROW, 10),
    (LINE, 10),
    (NO_LINE, 500),
    (ONE_LINE, 500),
    (LONG, 500),
    (ROW_FAR, 12_000),
    (LINE_FAR, 12_000),
    (MALFORMED_FAR, 12_000),
    (LAST_UNFIT, 100),
    (MALFORMED_LATER, 100),
    (MALFORMED_BEFORE, 500),
    (TO_THE_TOP, 500),
    (WRAPS, 500),
    (AGAIN, 500),
    (ABOVE, 500),
];

const ROW: &str = "row";
const LINE: &str = "line";
const NO_LINE: &str = "row, no line";
const ONE_LINE: &str = "row, one line";
const LONG: &str = "row, 1,000 lines or more";
const ROW_FAR: &str = "row, over 65,536 lines";
const LINE_FAR: &str = "line, past 65,535";
const MALFORMED_FAR: &str = "19, past 65,535";
const LAST_UNFIT: &str = "line, the last";
const MALFORMED_LATER: &str = "19, behind a line that does not fit";
const MALFORMED_BEFORE: &str = "19, before a line that does not fit";
const TO_THE_TOP: &str = "row, the next sum is above the last tick";
const WRAPS: &str = "line, a sum that wraps";
const AGAIN: &str = "line, the last tick for a sum above it";
const ABOVE: &str = "19, a sum above the last tick";

/// The kinds that an answer shows by itself.
pub fn of_answer(answer: &Answer) -> Vec<&'static str> {
    let far = |name: &'static str, line: usize| (line >= FAR).then_some(name);
    let (kind, far) = match (answer.number, &answer.values[..]) {
        (0, [0, _]) => (Some(ROW), None),
        (0, [1, line]) => (Some(LINE), far(LINE_FAR, *line)),
        (19, _) => (None, far(MALFORMED_FAR, answer.place)),
        _ => (answer.reason(), None),
    };
    kind.into_iter().chain(far).collect()
}

/// Where 16 bits end.
const FAR: usize = 1 << 16;

/// A log for a tower that is fit and a table, and what it has.
pub fn any(random: &mut Random, tower: &[u8], table: &[u8]) -> (Vec<u8>, Vec<Shown>) {
    let tower = tower::parse(tower).expect("a tower that is fit to use");
    // For a table of no use, some lines.
    let table = table::decode_for(&tower, table).unwrap_or_else(|_| tables::ring_table(1, 1, 0));
    let mut log = Draft::run(random, &tower, &table);
    log.set_out(random);
    match random.below(100) {
        0..=29 => {}
        30..=64 => log.make_unfit(random, &table),
        65..=89 => log.malform(random),
        _ => {
            log.make_unfit(random, &table);
            log.malform(random);
        }
    }
    let mut text = log.text(random);
    if random.once_in(20) {
        edits::edit(random, &mut text, 8);
    }
    (text, log.shown)
}

/// A line of a run, as it is or changed.
#[derive(Clone)]
struct Line {
    tick: u64,
    action: usize,
    /// Of its step, where it fits.
    length: u64,
    /// The row before it, where it fits.
    row: usize,
    /// How it is written so that it is not of the form.
    malformed: Option<Malform>,
}

/// A log before it is written.
struct Draft {
    lines: Vec<Line>,
    shown: Vec<Shown>,
}

impl Draft {
    /// A run of a table from row 0 on, with its first tick 0.
    fn run(random: &mut Random, tower: &Tower, table: &Table) -> Self {
        let most = match random.below(1_000) {
            0 | 1 => FAR + random.below(6_000),
            2..=21 => 1_000 + random.below(3_000),
            22..=99 => random.below(400),
            100..=149 => 0,
            150..=249 => 1,
            _ => 1 + random.below(12),
        };
        let mut lines = Vec::new();
        let (mut row, mut tick) = (0, 0);
        while lines.len() < most && !table.rows[row].steps.is_empty() {
            let here = &table.rows[row];
            let step = here.steps[random.below(here.steps.len())];
            let length = u64::from(tower.step_length(here.state, step.action));
            lines.push(Line {
                tick,
                action: step.action,
                length,
                row,
                malformed: None,
            });
            tick += length;
            row = step.target;
        }
        let mut log = Draft {
            lines,
            shown: Vec::new(),
        };
        log.ends_in(row);
        log
    }

    fn show(&mut self, name: &'static str, by: Answer) {
        self.shown.push(Shown { name, by });
    }

    /// Notes what a log has that fits and ends in this row.
    fn ends_in(&mut self, last: usize) {
        match self.lines.len() {
            0 => self.show(NO_LINE, row(last)),
            1 => self.show(ONE_LINE, row(last)),
            1_000.. => self.show(LONG, row(last)),
            _ => {}
        }
        if self.lines.len() > FAR {
            self.show(ROW_FAR, row(last));
        }
    }

    /// Notes a line that does not fit.
    fn unfit(&mut self, name: &'static str, at: usize) {
        self.show(name, line(at));
        if at + 1 == self.lines.len() {
            self.show(LAST_UNFIT, line(at));
        }
    }

    /// Gives the run another first tick, often one with which ticks come to the last one or past it.
    fn set_out(&mut self, random: &mut Random) {
        let Some(near) = self.place(random) else {
            return;
        };
        let first = match random.below(12) {
            0 => 0,
            1 => MOST_TICK,
            2..=4 => {
                let short = self.lines[near].tick + random.below(3) as u64;
                MOST_TICK.saturating_sub(short)
            }
            5 => 10_u64.pow(1 + random.below(9) as u32) - 1 - random.below(5) as u64,
            6 => random.below(300) as u64,
            _ => random.below(1 << 32) as u64,
        };
        for line in &mut self.lines {
            line.tick += first;
        }
        let past = self.lines.iter().position(|line| line.tick > MOST_TICK);
        let Some(past) = past else {
            return;
        };
        let above = self.lines[past..].iter_mut();
        match random.below(4) {
            0 => {
                let last = self.lines[past].row;
                self.lines.truncate(past);
                self.shown.clear();
                self.ends_in(last);
                self.show(TO_THE_TOP, row(last));
            }
            1 => {
                above.for_each(|line| line.tick %= MOST_TICK + 1);
                self.unfit(WRAPS, past);
            }
            2 => {
                above.for_each(|line| line.tick = MOST_TICK);
                self.unfit(AGAIN, past);
            }
            _ => self.show(ABOVE, malformed(past)),
        }
    }

    /// A line: any, but often the first, the last, or one where 16 bits end.
    fn place(&self, random: &mut Random) -> Option<usize> {
        let last = self.lines.len().checked_sub(1)?;
        Some(match random.below(10) {
            0 => 0,
            1..=3 => last,
            4..=6 if last > FAR => FAR - 1 + random.below(3).min(last + 1 - FAR),
            _ => random.below(last + 1),
        })
    }

    /// Changes a line, seldom two, so that it does not fit. Lines behind another tick are as far behind
    /// it as they were, or stay.
    fn make_unfit(&mut self, random: &mut Random, table: &Table) {
        for _ in 0..1 + random.below(5) / 4 {
            let Some(at) = self.place(random) else {
                return;
            };
            let (name, change) = UNFIT[random.below(UNFIT.len())];
            let mut changed = self.lines[at].clone();
            change(random, table, self.lines[..at].last(), &mut changed);
            let (from, to) = (self.lines[at].tick, changed.tick);
            self.lines[at] = changed;
            if from != to && random.once_in(2) {
                for line in &mut self.lines[at + 1..] {
                    line.tick = (line.tick + to).saturating_sub(from).min(MOST_TICK);
                }
            }
            self.unfit(name, at);
        }
    }

    /// Has a line, seldom two, written so that it is not of the form.
    fn malform(&mut self, random: &mut Random) {
        if self.lines.is_empty() {
            self.lines.push(Line {
                tick: 0,
                action: 0,
                length: 0,
                row: 0,
                malformed: None,
            });
        }
        let line_shown = |shown: &Shown| match shown.by.values[..] {
            [1, line] => Some(line),
            _ => None,
        };
        let unfit: Vec<usize> = self.shown.iter().filter_map(line_shown).collect();
        for _ in 0..1 + random.below(5) / 4 {
            let Some(at) = self.place(random) else {
                return;
            };
            let (name, change) = MALFORMED[random.below(MALFORMED.len())];
            self.lines[at].malformed = Some(change);
            self.show(name, malformed(at));
            if unfit.iter().any(|line| *line < at) {
                self.show(MALFORMED_LATER, malformed(at));
            }
            if unfit.iter().any(|line| *line > at) {
                self.show(MALFORMED_BEFORE, malformed(at));
            }
        }
    }

    /// The lines as text, with zeros before some of the numbers.
    fn text(&self, random: &mut Random) -> Vec<u8> {
        let mut text = Vec::new();
        for line in &self.lines {
            let [ticks, actions] = match random.below(6) {
                0 => [1 + random.below(10), 1],
                1 => [1, 2],
                2 => [10, 2],
                _ => [1, 1],
            };
            let (tick, action) = (line.tick, line.action);
            let written = format!("{tick:0ticks$} {action:0actions$}\n");
            match line.malformed {
                None => text.extend(written.bytes()),
                Some(change) => {
                    let mut written = written.into_bytes();
                    change(random, &mut written);
                    text.extend(written);
                }
            }
        }
        text
    }
}

/// Changes what a line says, by the one before it. It may happen to fit still.
type Unfit = fn(&mut Random, &Table, Option<&Line>, &mut Line);

const UNFIT: [(&str, Unfit); 11] = [
    ("line, an action below A", |random, table, _, line| {
        line.action = random.below(table.actions);
    }),
    ("line, action A", |_, table, _, line| {
        line.action = table.actions;
    }),
    ("line, an action from 16 on", |random, _, _, line| {
        line.action = 16 + random.below(84);
    }),
    ("line, one tick too late", |_, _, _, line| line.tick += 1),
    ("line, one tick too early", |_, _, _, line| {
        line.tick = line.tick.saturating_sub(1);
    }),
    ("line, later by its own length", |_, _, before, line| {
        if let Some(before) = before {
            line.tick = before.tick + line.length;
        }
    }),
    ("line, later by both lengths", |_, _, _, line| {
        line.tick += line.length;
    }),
    ("line, the tick before", |_, _, before, line| {
        if let Some(before) = before {
            line.tick = before.tick;
        }
    }),
    ("line, one bit of its tick", |random, _, _, line| {
        line.tick ^= 1 << random.below(32);
    }),
    ("line, tick 0", |_, _, _, line| line.tick = 0),
    ("line, any tick", |random, _, _, line| {
        line.tick = random.below(1 << 32) as u64;
    }),
];

/// Changes a line as it is written, so that it is not of the form.
type Malform = fn(&mut Random, &mut Vec<u8>);

const MALFORMED: [(&str, Malform); 20] = [
    ("19, no byte 10", |_, text| {
        text.pop();
    }),
    ("19, an empty line", |_, text| text.insert(0, b'\n')),
    ("19, a sign", |random, text| {
        let at = [0, space(text) + 1][random.below(2)];
        text.insert(at, b"+-"[random.below(2)]);
    }),
    ("19, a tab", |random, text| match random.below(3) {
        0 => text.insert(end(text), b'\t'),
        1 => text.insert(0, b'\t'),
        _ => {
            let at = space(text);
            text[at] = b'\t';
        }
    }),
    ("19, two spaces", |_, text| text.insert(space(text), b' ')),
    ("19, a space at the start", |_, text| text.insert(0, b' ')),
    ("19, a space at the end", |_, text| {
        text.insert(end(text), b' ')
    }),
    ("19, no space", |_, text| {
        text.remove(space(text));
    }),
    ("19, no tick", |_, text| {
        text.drain(..space(text));
    }),
    ("19, no action", |_, text| {
        text.drain(space(text) + 1..end(text));
    }),
    ("19, more than two numbers", |_, text| {
        let at = end(text);
        text.splice(at..at, *b" 0");
    }),
    ("19, eleven digits", |random, text| {
        let at = random.below(2) * space(text);
        while space(text) < 11 {
            text.insert(at, b'0');
        }
    }),
    ("19, just above the last tick", |_, text| {
        text.splice(..space(text), *b"4294967296");
    }),
    ("19, ten digits above the last tick", |random, text| {
        let above = 9_999_999_999 - MOST_TICK;
        let tick = MOST_TICK + 1 + random.below(above as usize) as u64;
        text.splice(..space(text), tick.to_string().into_bytes());
    }),
    ("19, an action of three digits", |random, text| {
        let at = [space(text) + 1, end(text)][random.below(2)];
        while end(text) - space(text) <= 3 {
            text.insert(at, b'0');
        }
    }),
    ("19, CR LF", |_, text| text.insert(end(text), b'\r')),
    ("19, byte 0", |random, text| {
        text.insert(random.below(end(text) + 1), 0);
    }),
    ("19, a letter", |random, text| {
        *any_digit(random, text) = b"aAexXoOlI"[random.below(9)];
    }),
    ("19, a byte beside the digits", |random, text| {
        *any_digit(random, text) = b"/:"[random.below(2)];
    }),
    ("19, a byte above 127", |random, text| {
        *any_digit(random, text) |= 0x80;
    }),
];

/// Where the space of a line is.
fn space(text: &[u8]) -> usize {
    let space = text.iter().position(|byte| *byte == b' ');
    space.expect("a line of the form")
}

/// Where the byte 10 of a line is.
fn end(text: &[u8]) -> usize {
    text.len() - 1
}

/// A digit of a line.
fn any_digit<'a>(random: &mut Random, text: &'a mut [u8]) -> &'a mut u8 {
    let digits = text.iter_mut().filter(|byte| byte.is_ascii_digit());
    let mut digits: Vec<&mut u8> = digits.collect();
    digits.swap_remove(random.below(digits.len()))
}
