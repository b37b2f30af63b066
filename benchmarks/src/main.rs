//! Measures the proved entries beside plain Rust that does the same work, on the same inputs; for sets of
//! alternatives beside tuned Rust, too. With the feature `before` the entries of another library are
//! measured, too.
//!
//! Prints the tables of docs/BENCHMARKS.md. The tests run each side once on every input and compare the
//! answers, with no time.

mod answer;
mod inputs;
mod measure;
mod plain;
mod proved;
mod tuned;
mod vectors;

use answer::Answer;
use inputs::{Broken, Either, Logged, Ruled};
use measure::{Growth, Pace, Times};
use plain::book::Book;
use plain::check::Checker;
use plain::follow::follow;
use plain::log::{Course, LogReader};
use plain::make::Maker;
use plain::table::MOST_BYTES;
use plain::why::Explainer;
use plain::{Refusal, MOST_PAIRS};
use proved::Library;
use std::hint::black_box;
use std::process::ExitCode;
use std::time::Duration;

/// The sizes at which the checker and the maker are measured.
const SIZES: [usize; 3] = [250, 500, 1_000];

/// How many times plain Rust's time a log may take, a book with two timed sides, and a run that shows why.
const MOST_OF_PLAIN: f64 = 1.0;

/// What is measured, in the lines of tables.
struct Report {
    pace: Pace,
    libraries: Vec<Box<dyn Library>>,
    /// How many of them have the entry that is measured.
    measured: usize,
    lines: Vec<String>,
    /// What is over its limit.
    failures: Vec<&'static str>,
}

impl Report {
    /// Measures everything.
    fn of(pace: Pace) -> Self {
        let mut report = Report {
            pace,
            libraries: proved::libraries(),
            measured: 0,
            lines: Vec::new(),
            failures: Vec::new(),
        };
        read_books(&mut report);
        follow_tables(&mut report);
        check_tables(&mut report);
        make_tables(&mut report);
        read_logs(&mut report);
        keep_either_promise(&mut report);
        show_why(&mut report);
        report
    }

    /// Begins a table whose first columns tell the input. Every library has the entry.
    fn begin(&mut self, title: &str, columns: &[&str]) {
        self.begin_with(title, columns, "");
    }

    /// The same with more columns behind the last.
    fn begin_with(&mut self, title: &str, columns: &[&str], more: &str) {
        self.measured = self.libraries.len();
        let columns = columns.join(" | ");
        self.lines.push(format!("\n### {title}\n"));
        let proved = match self.libraries.len() {
            1 => "proved",
            _ => "before | proved | proved / before",
        };
        let line = format!("| {columns} | {proved} | plain Rust | proved / plain |{more}");
        self.lines.push(line.clone());
        let rule = line.split('|').skip(2).map(|_| "|---");
        self.lines.push(rule.chain(["|"]).collect());
    }

    /// Compares the answers of the libraries to an input, which is accepted.
    fn compare<const N: usize>(
        &mut self,
        mut proved: impl FnMut(&mut dyn Library) -> Answer,
        plain: Result<[usize; N], Refusal>,
    ) -> Answer {
        let plain = Answer::of(plain);
        assert_eq!(plain.number, 0, "{plain}");
        for library in &mut self.libraries[..self.measured] {
            assert_eq!(proved(library.as_mut()), plain);
        }
        plain
    }

    /// Measures a call of each side. `work` is what each of them does in it.
    fn measure(
        &mut self,
        input: &[String],
        work: Work,
        proved: impl FnMut(&mut dyn Library),
        plain: impl FnMut(),
    ) -> Times {
        self.measure_with(input, work, proved, plain, None)
    }

    /// The same with a call of tuned Rust, where there is some.
    fn measure_with(
        &mut self,
        input: &[String],
        work: Work,
        proved: impl FnMut(&mut dyn Library),
        plain: impl FnMut(),
        tuned: Option<&mut dyn FnMut()>,
    ) -> Times {
        let libraries = &mut self.libraries[..self.measured];
        let times = self.pace.measure(libraries, proved, plain, tuned);
        let show = |time: Duration| work.show(time);
        let ratio = |time: Duration| format!("{:.2}", measure::ratio(times.proved, time));
        // A library without the entry has no time.
        let missing = vec!["-".to_string(); self.libraries.len() - self.measured];
        let mut columns = input.to_vec();
        columns.extend(times.before.map(show));
        columns.extend_from_slice(&missing);
        columns.push(show(times.proved));
        columns.extend(times.before.map(ratio));
        columns.extend(missing);
        columns.extend([show(times.plain), ratio(times.plain)]);
        columns.extend(times.tuned.map(show));
        columns.extend(times.tuned.map(ratio));
        self.lines.push(format!("| {} |", columns.join(" | ")));
        times
    }

    /// Judges how the time grows from the first size to the last.
    fn judge_growth(&mut self, times: &[Times]) {
        let growth = Growth::of(times[0], times[times.len() - 1]);
        let [from, to] = [SIZES[0], SIZES[SIZES.len() - 1]].map(grouped);
        self.lines.push(format!(
            "\nFrom {from} to {to} the time grows {:.2} times (proved) and {:.2} times (plain Rust): \
             {:.2} times as much (at most {:.1}).",
            growth.proved,
            growth.plain,
            growth.relative(),
            Growth::MOST
        ));
        if !growth.is_fine() {
            self.failures
                .push("a time grows too fast beside plain Rust's");
        }
    }

    /// Judges times, each beside plain Rust's.
    fn judge_ratios(&mut self, times: &[Times], failure: &'static str) {
        let ratios = times
            .iter()
            .map(|times| measure::ratio(times.proved, times.plain));
        let largest = ratios.fold(0.0, f64::max);
        self.lines.push(format!(
            "\nThe largest ratio is {largest:.2} (at most {MOST_OF_PLAIN:.1})."
        ));
        if largest > MOST_OF_PLAIN {
            self.failures.push(failure);
        }
    }
}

/// What is done in the time that is shown.
#[derive(Clone, Copy)]
enum Work {
    /// So many calls of the entry; shown is the time of one.
    Calls(usize),
    /// One call that reads so many bytes; shown is how many there are to a second, too.
    Bytes(usize),
}

impl Work {
    fn show(self, time: Duration) -> String {
        let seconds = time.as_secs_f64();
        match self {
            Work::Calls(calls) => show_time(seconds / calls as f64),
            Work::Bytes(bytes) => {
                let rate = bytes as f64 / seconds / 1e6;
                format!("{}, {rate:.0} MB/s", show_time(seconds))
            }
        }
    }
}

fn show_time(seconds: f64) -> String {
    let nanoseconds = seconds * 1e9;
    match nanoseconds {
        ..1e3 => format!("{nanoseconds:.1} ns"),
        ..1e6 => format!("{:.2} µs", nanoseconds / 1e3),
        _ => format!("{:.2} ms", nanoseconds / 1e6),
    }
}

/// A number with commas.
fn grouped(number: usize) -> String {
    if number < 1_000 {
        return number.to_string();
    }
    format!("{},{:03}", grouped(number / 1_000), number % 1_000)
}

fn read_books(report: &mut Report) {
    report.begin("Reading a rule book", &["book", "bytes", "lines", "nodes"]);
    let marks = 16;
    let books: [(&str, Vec<u8>); 3] = [
        ("rules of a round", inputs::ROUND_BOOK.into()),
        ("the same, with spaces", inputs::spaced_book()),
        ("16 brackets deep", inputs::bracketed_book()),
    ];
    for (name, book) in books {
        let plain = Book::read(marks, &book);
        let plain = plain.map(|book| [book.line_count(), book.node_count]);
        let answer = report.compare(|library| library.read_book(marks, &book), plain);
        let [lines, nodes, _] = answer.values.map(grouped);
        report.measure(
            &[name.to_string(), grouped(book.len()), lines, nodes],
            Work::Calls(1),
            |library| {
                black_box(library.read_book(marks, black_box(&book)));
            },
            || {
                let _ = black_box(Book::read(marks, black_box(&book)));
            },
        );
    }
}

fn follow_tables(report: &mut Report) {
    let columns = ["rows", "steps", "bytes", "actions followed"];
    report.begin("Following a table, for each action", &columns);
    let tables = [
        (inputs::small_table(), 1_000_000),
        (inputs::table_file(1), 2_000),
        (inputs::table_file(16), 500),
    ];
    for (table, length) in tables {
        let [rows, steps] = inputs::table_counts(&table).map(grouped);
        let actions = inputs::walk(&table, length);
        let mut row = 0;
        for &action in &actions {
            let plain = follow(&table, row, action).map(|row| [row, 0]);
            let answer = report.compare(|library| library.follow(&table, row, action), plain);
            row = answer.values[0];
        }
        report.measure(
            &[rows, steps, grouped(table.len()), grouped(length)],
            Work::Calls(length),
            |library| {
                black_box(library.follow_all(&table, &actions));
            },
            || {
                let next = |row, action: &usize| {
                    follow(black_box(&table), row, *action).unwrap_or_default()
                };
                black_box(actions.iter().fold(0, next));
            },
        );
    }
}

fn check_tables(report: &mut Report) {
    let columns = ["rows with what is pending", "states", "rows", "steps"];
    report.begin("Checking a table", &columns);
    let mut checker = Checker::new();
    let mut measure = |size: usize| {
        let ruled = inputs::with_items(size);
        let Ruled {
            tower, book, table, ..
        } = &ruled;
        let plain = checker.check(tower, book, table).map(|()| [0, 0]);
        report.compare(|library| library.check(tower, book, table), plain);
        let [rows, steps] = inputs::table_counts(table);
        report.measure(
            &[checker.met(), ruled.states(), rows, steps].map(grouped),
            Work::Calls(1),
            |library| {
                black_box(library.check(black_box(tower), book, table));
            },
            || {
                let _ = black_box(checker.check(black_box(tower), book, table));
            },
        )
    };
    let times = SIZES.map(&mut measure);
    report.judge_growth(&times);
}

fn make_tables(report: &mut Report) {
    let columns = [
        "tower and book",
        "pairs",
        "kept",
        "states",
        "rows",
        "steps",
        "removal passes",
        "refinement passes",
    ];
    report.begin("Making a table", &columns);
    let mut maker = Maker::new();
    let mut of_proved = vec![0; MOST_BYTES];
    let mut of_plain = vec![0; MOST_BYTES];
    let mut measure = |name: &str, ruled: Ruled| {
        let Ruled { tower, book, .. } = &ruled;
        let plain = maker.make(tower, book, &mut of_plain);
        let plain = plain.map(|length| [length, 0]);
        let make = |library: &mut dyn Library| {
            let answer = library.make(tower, book, &mut of_proved);
            let length = answer.values[0];
            assert!(of_proved[..length] == of_plain[..length]);
            answer
        };
        report.compare(make, plain);
        let size = ruled.size;
        let [rows, steps] = inputs::table_counts(&ruled.table);
        let numbers = [
            size.pairs,
            size.kept,
            ruled.states(),
            rows,
            steps,
            size.removal_passes,
            size.refinement_passes,
        ];
        let numbers = numbers.map(grouped);
        report.measure(
            &[&[name.to_string()], &numbers[..]].concat(),
            Work::Calls(1),
            |library| {
                black_box(library.make(black_box(tower), book, &mut of_proved));
            },
            || {
                let _ = black_box(maker.make(black_box(tower), book, &mut of_plain));
            },
        )
    };
    let times = SIZES.map(|size| measure("rounds", inputs::with_pairs(size)));
    measure("told apart by time alone", inputs::chain());
    measure("removed upwards", inputs::removed_upwards());
    measure("removed to and fro", inputs::removed_to_and_fro());
    report.judge_growth(&times);
}

fn read_logs(report: &mut Report) {
    let columns = ["log", "rows", "steps", "lines", "bytes"];
    report.begin("Reading a log", &columns);
    let libraries = report.libraries.iter();
    report.measured = libraries.filter(|library| library.reads_logs()).count();
    let mut reader = LogReader::new();
    let mut measure = |name: &str, logged: Logged| {
        let Logged { tower, table, log } = &logged;
        let plain = reader.read(tower, table, log).map(|course| match course {
            Course::Row(row) => [0, row],
            Course::Line(line) => [1, line],
        });
        report.compare(|library| library.read_log(tower, table, log), plain);
        let [rows, steps] = inputs::table_counts(table);
        let numbers = [rows, steps, logged.lines(), log.len()].map(grouped);
        report.measure(
            &[&[name.to_string()], &numbers[..]].concat(),
            Work::Bytes(log.len()),
            |library| {
                black_box(library.read_log(tower, table, black_box(log)));
            },
            || {
                let _ = black_box(reader.read(tower, table, black_box(log)));
            },
        )
    };
    let [small, rounds, largest] = [Logged::small, Logged::rounds, Logged::largest];
    let (bytes, ten_digits) = (10_000_000, 4_000_000_000);
    let times = [
        measure("the small tower", small().with_log(0, bytes)),
        measure(
            "the same, from tick 4,000,000,000",
            small().with_log(ten_digits, bytes),
        ),
        measure("rounds", rounds().with_log(0, bytes)),
        measure(
            "the same, wrong in line 99",
            rounds().with_log(0, bytes).wrong_in(99),
        ),
        measure("rounds, a year", rounds().with_log(0, 10 * bytes)),
        measure(
            "1,000 rows, from tick 4,000,000,000",
            largest().with_log(ten_digits, bytes),
        ),
    ];
    report.judge_ratios(&times, "a log takes longer than with plain Rust");
}

/// Makes and checks a table under a book with two timed sides of `|`. A library from before item 3 refuses
/// the book, and has no time.
fn keep_either_promise(report: &mut Report) {
    let columns = ["entry", "pairs", "alternatives", "states", "rows", "steps"];
    let more = " tuned Rust | proved / tuned |";
    report.begin_with("Either of two promises", &columns, more);
    let book = inputs::EITHER_BOOK.as_bytes();
    let libraries = report.libraries.iter_mut();
    let answers = libraries.map(|library| library.read_book(16, book));
    report.measured = answers.filter(|answer| answer.number == 0).count();
    let Either {
        tower,
        table,
        made,
        checked,
    } = &inputs::either();
    let [rows, steps] = inputs::table_counts(table);
    let input = |entry: &str, [pairs, alternatives]: [usize; 2]| {
        let states = usize::from(tower[0]);
        let numbers = [pairs, alternatives, states, rows, steps].map(grouped);
        [&[entry.to_string()], &numbers[..]].concat()
    };

    let (mut maker, mut tuned_maker) = (Maker::new(), Maker::tuned());
    let [mut of_proved, mut of_plain, mut of_tuned] = [(); 3].map(|()| vec![0; MOST_BYTES]);
    let plain = maker.make(tower, book, &mut of_plain);
    let tuned = tuned_maker.make(tower, book, &mut of_tuned);
    assert_eq!(tuned, plain);
    assert!(of_tuned[..table.len()] == table[..]);
    assert_eq!(tuned_maker.met_sets(), *made);
    let make = |library: &mut dyn Library| {
        let answer = library.make(tower, book, &mut of_proved);
        assert!(of_proved[..table.len()] == table[..]);
        answer
    };
    report.compare(make, plain.map(|length| [length, 0]));
    let making = report.measure_with(
        &input("making", *made),
        Work::Calls(1),
        |library| {
            black_box(library.make(black_box(tower), book, &mut of_proved));
        },
        || {
            let _ = black_box(maker.make(black_box(tower), book, &mut of_plain));
        },
        Some(&mut || {
            let _ = black_box(tuned_maker.make(black_box(tower), book, &mut of_tuned));
        }),
    );

    let (mut checker, mut tuned_checker) = (Checker::new(), Checker::tuned());
    let plain = checker.check(tower, book, table);
    let tuned = tuned_checker.check(tower, book, table);
    assert_eq!(tuned, plain);
    assert_eq!(tuned_checker.met_sets(), *checked);
    let plain = plain.map(|()| [0, 0]);
    report.compare(|library| library.check(tower, book, table), plain);
    let checking = report.measure_with(
        &input("checking", *checked),
        Work::Calls(1),
        |library| {
            black_box(library.check(black_box(tower), book, table));
        },
        || {
            let _ = black_box(checker.check(black_box(tower), book, table));
        },
        Some(&mut || {
            let _ = black_box(tuned_checker.check(black_box(tower), book, table));
        }),
    );
    let failure = "a book with two timed sides takes longer than with plain Rust";
    report.judge_ratios(&[making, checking], failure);
}

/// Shows why a table is turned down, where the run is as long as can be. A library from before item 4 has
/// no time.
fn show_why(report: &mut Report) {
    let columns = [
        "table and book",
        "rows with what is pending",
        "nodes",
        "actions of the run",
        "rows",
        "steps",
    ];
    report.begin("Showing why", &columns);
    let libraries = report.libraries.iter();
    report.measured = libraries.filter(|library| library.shows_why()).count();
    let mut explainer = Explainer::new();
    let [mut of_proved, mut of_plain] = [[0; MOST_PAIRS]; 2];
    let mut measure = |name: &str, broken: Broken| {
        let Broken { tower, book, table } = &broken;
        let plain = explainer.why(tower, book, table, &mut of_plain);
        let plain = plain.map(|shown| {
            let shown = shown.expect("a run");
            [shown.length, shown.line, shown.position]
        });
        let why = |library: &mut dyn Library| {
            let answer = library.why(tower, book, table, &mut of_proved);
            let length = answer.values[0];
            assert!(of_proved[..length] == of_plain[..length]);
            answer
        };
        let [length, ..] = report.compare(why, plain).values;
        let nodes = Book::read(usize::from(tower[2]), book).map(|book| book.node_count);
        let [rows, steps] = inputs::table_counts(table);
        let numbers = [explainer.met(), nodes.expect("a book"), length, rows, steps];
        report.measure(
            &[&[name.to_string()], &numbers.map(grouped)[..]].concat(),
            Work::Calls(1),
            |library| {
                black_box(library.why(black_box(tower), book, table, &mut of_proved));
            },
            || {
                let _ = black_box(explainer.why(black_box(tower), book, table, &mut of_plain));
            },
        )
    };
    let times = [
        measure("five laps of a ring", inputs::laps()),
        measure("25 laps, with ways back", inputs::ways_back()),
        measure("58 promises in one another", inputs::nested()),
    ];
    report.judge_ratios(&times, "showing why takes longer than with plain Rust");
}

fn main() -> ExitCode {
    vectors::compare();
    let report = Report::of(Pace::FULL);
    for line in &report.lines {
        println!("{line}");
    }
    for failure in &report.failures {
        eprintln!("{failure}");
    }
    if report.failures.is_empty() {
        ExitCode::SUCCESS
    } else {
        ExitCode::FAILURE
    }
}

#[cfg(test)]
mod tests {
    use super::inputs::{self, Broken};
    use super::plain::book::Book;
    use super::plain::why::{Explainer, Shown};
    use super::plain::{MOST_NODES, MOST_PAIRS};
    use super::{vectors, Pace, Report};

    /// All sides answer every input alike, and plain and tuned Rust the vectors as they state.
    #[test]
    fn same_answers() {
        assert!(vectors::compare() > 3_000);
        let report = Report::of(Pace::QUICK);
        let before = cfg!(feature = "before");
        assert_eq!(report.libraries.len(), 1 + usize::from(before));
        let rows = report.lines.iter().filter(|line| line.starts_with("| "));
        let (mut columns, mut inputs, mut tuned) = (0, 0, 0);
        for row in rows {
            let cells: Vec<&str> = row.split(" | ").collect();
            if cells.contains(&"plain Rust") {
                columns = cells.len();
                tuned += usize::from(cells[columns - 1] == "proved / tuned |");
                assert_eq!(cells.contains(&"proved / before"), before);
            } else {
                inputs += 1;
                assert_eq!(cells.len(), columns, "{row}");
            }
        }
        assert_eq!((inputs, tuned), (26, 1));
    }

    /// The inputs of item 4 are as large as may be: the rows with what is pending, and the run.
    #[test]
    fn runs_that_show_why() {
        for (broken, line, position) in [
            (inputs::laps(), 7, 0),
            (inputs::ways_back(), 9, 969),
            (inputs::nested(), 0, 0),
        ] {
            let Broken { tower, book, table } = &broken;
            let mut explainer = Explainer::new();
            let mut list = [0; MOST_PAIRS];
            let shown = explainer.why(tower, book, table, &mut list);
            let wanted = Shown {
                length: MOST_PAIRS,
                line,
                position,
            };
            assert_eq!(shown, Ok(Some(wanted)));
            assert_eq!(explainer.met(), MOST_PAIRS);
            let book = Book::read(usize::from(tower[2]), book).expect("a book");
            assert_eq!(book.node_count, MOST_NODES);
        }
    }

    /// The input of item 3 of the change requests is as large as stated.
    #[test]
    fn either_of_two_promises() {
        let either = inputs::either();
        assert_eq!(either.made, [380, 994]);
        assert_eq!(either.checked, [270, 725]);
        assert_eq!(inputs::table_counts(&either.table), [45, 472]);
    }
}
