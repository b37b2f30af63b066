//! What is the same for every entry: cases out of files and at random, and the comparison.

use crate::answer::Answer;
use crate::common::Random;
use reference::vectors;
use std::collections::BTreeMap;
use std::fmt;
use std::fs;
use std::path::Path;

/// One entry of the proved code, beside the reference's.
pub trait Entry {
    /// What a call is given, shown in hexadecimal and numbers.
    type Case: fmt::Display;

    const NAME: &'static str;

    /// How many cases are generated in a run.
    const GENERATED: usize;

    /// The numbers of the refusals that have to come.
    const REFUSALS: &'static [u8];

    /// What else has to come, and of how many cases at least one.
    const KINDS: &'static [(&'static str, usize)] = &[];

    /// The files of vectors whose lines have cases for this entry, if there are any.
    const FILES: &'static [&'static str];

    fn proved(case: &Self::Case) -> Answer;

    fn reference(case: &Self::Case) -> Answer;

    /// A case at random; at least a third have to be accepted.
    fn generate(random: &mut Random) -> Self::Case;

    fn accepted(answer: &Answer) -> bool {
        answer.number == 0
    }

    /// The kinds of a case, by the reference's answer.
    fn kinds(_: &Self::Case, _: &Answer) -> Vec<&'static str> {
        Vec::new()
    }

    /// The case of a line of vectors, from its inputs.
    fn of_line(file: &str, inputs: &[&str]) -> Option<Self::Case>;

    /// Whether an answer may stand where a line of vectors has this one.
    fn fits_line(file: &str, answer: &Answer, stated: &str) -> bool;
}

/// Something to run on every entry; true where it passes.
pub trait Test {
    fn on<E: Entry>(&self) -> bool;
}

/// The answers of the cases so far.
struct Tally {
    name: &'static str,
    numbers: BTreeMap<u8, usize>,
    kinds: BTreeMap<&'static str, usize>,
    accepted: usize,
    wrong: usize,
}

impl Tally {
    fn new(name: &'static str) -> Self {
        Tally {
            name,
            numbers: BTreeMap::new(),
            kinds: BTreeMap::new(),
            accepted: 0,
            wrong: 0,
        }
    }

    fn cases(&self) -> usize {
        self.numbers.values().sum()
    }

    /// Compares the two answers to a case, and prints the first few that differ.
    fn compare<E: Entry>(&mut self, case: &E::Case) -> Answer {
        let proved = E::proved(case);
        let reference = E::reference(case);
        if proved != reference {
            self.note_wrong(format!("{case} = {reference}, and not {proved}"));
        }
        *self.numbers.entry(reference.number).or_default() += 1;
        for kind in E::kinds(case, &reference) {
            *self.kinds.entry(kind).or_default() += 1;
        }
        self.accepted += usize::from(E::accepted(&reference));
        proved
    }

    /// Compares both answers to each line of a file of vectors with the one that it states.
    fn compare_lines<E: Entry>(&mut self, file: &str, path: &Path) {
        let text = fs::read_to_string(path).expect("a file of vectors");
        for (number, line) in text.lines().enumerate() {
            let place = format!("{}, line {}", path.display(), number + 1);
            let (inputs, stated) = line.split_once(" = ").expect("inputs and an answer");
            let inputs: Vec<&str> = inputs.split(' ').collect();
            let case = E::of_line(file, &inputs).unwrap_or_else(|| panic!("{place}"));
            let answer = self.compare::<E>(&case);
            if !E::fits_line(file, &answer, stated) {
                self.note_wrong(format!("{place}: {answer}, and not {stated}"));
            }
        }
    }

    fn note_wrong(&mut self, text: String) {
        self.wrong += 1;
        if self.wrong <= 5 {
            println!("{}: {text}", self.name);
        }
    }

    /// Prints what came, all lines at once: another entry may be at it, too.
    fn print(&self) {
        let (cases, accepted, wrong) = (self.cases(), self.accepted, self.wrong);
        let name = self.name;
        let mut text = format!("{name}: {cases} cases, {accepted} accepted, {wrong} wrong\n");
        for (number, count) in &self.numbers {
            text += &format!("    {number:>2}: {count}\n");
        }
        for (kind, count) in &self.kinds {
            text += &format!("    {kind}: {count}\n");
        }
        print!("{text}");
    }
}

/// The vectors of `tests/vectors`.
pub struct Vectors;

impl Test for Vectors {
    fn on<E: Entry>(&self) -> bool {
        if E::FILES.is_empty() {
            return true;
        }
        let mut tally = Tally::new(E::NAME);
        let folder = Path::new(env!("CARGO_MANIFEST_DIR")).join("../vectors");
        for file in E::FILES {
            for path in vectors::files(&folder, file) {
                tally.compare_lines::<E>(file, &path);
            }
        }
        tally.print();
        tally.cases() > 0 && tally.wrong == 0
    }
}

/// Generated cases, the same in every run.
pub struct Generated;

/// How often each refusal has to come at the least.
const LEAST: usize = 100;

impl Test for Generated {
    fn on<E: Entry>(&self) -> bool {
        let mut random = Random::new(0x5DEE_CE66_D1CE_4E5B);
        let mut tally = Tally::new(E::NAME);
        for _ in 0..E::GENERATED {
            tally.compare::<E>(&E::generate(&mut random));
        }
        tally.print();
        let count = |number: &u8| tally.numbers.get(number).copied().unwrap_or(0);
        let rare = E::REFUSALS.iter().filter(|number| count(number) < LEAST);
        let rare: Vec<&u8> = rare.collect();
        if !rare.is_empty() {
            println!("    came fewer than {LEAST} times: {rare:?}");
        }
        let kind_count = |kind: &str| tally.kinds.get(kind).copied().unwrap_or(0);
        let seldom = E::KINDS.iter();
        let seldom = seldom.filter(|(kind, within)| within * kind_count(kind) < tally.cases());
        let seldom: Vec<_> = seldom.collect();
        if !seldom.is_empty() {
            println!("    came fewer than once in so many cases: {seldom:?}");
        }
        let few = 3 * tally.accepted < tally.cases();
        if few {
            println!("    fewer than a third are accepted");
        }
        tally.wrong == 0 && rare.is_empty() && seldom.is_empty() && !few
    }
}

/// What the field of a file is where there is no such field.
pub const NOTHING: usize = usize::MAX;

/// A case that is one file.
pub struct File(pub Vec<u8>);

impl fmt::Display for File {
    fn fmt(&self, f: &mut fmt::Formatter) -> fmt::Result {
        write!(f, "{}", hexadecimal(&self.0))
    }
}

/// Bytes in hexadecimal; `-` is no bytes.
pub fn bytes(hexadecimal: &str) -> Option<Vec<u8>> {
    if hexadecimal == "-" {
        return Some(Vec::new());
    }
    let byte = |pair: &[u8]| u8::from_str_radix(std::str::from_utf8(pair).ok()?, 16).ok();
    let pairs = hexadecimal.as_bytes().chunks_exact(2);
    let whole = pairs.remainder().is_empty();
    whole.then(|| pairs.map(byte).collect())?
}

pub fn hexadecimal(bytes: &[u8]) -> String {
    match bytes {
        [] => "-".to_string(),
        _ => bytes.iter().map(|byte| format!("{byte:02x}")).collect(),
    }
}

/// The number of the refusal that a line of vectors states, or 0.
pub fn stated_number(stated: &str) -> u8 {
    let mut words = stated.split(' ');
    match (words.next(), words.next()) {
        (Some("refused"), Some(number)) => number.parse().expect("a number of the paper"),
        _ => 0,
    }
}
