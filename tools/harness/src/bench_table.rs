//! The table of the benchmark, how it was measured, and whether the target is met.

use std::env;

use crate::measure::{BATCH, ROUNDS};

/// What is measured, in the order of the columns.
pub const CORE: usize = 0;
pub const WHOLE: usize = 1;
const PORT: usize = 2;
const SUBJECTS: usize = 3;

/// The most that the library may take of the Rust's time on the median expression.
const TARGET: f64 = 0.5;

/// What was measured of one input: the times of one call in nanoseconds, and the library's stack.
pub struct Measured {
    pub times: [f64; SUBJECTS],
    pub stack: usize,
}

/// A line of the table.
pub struct Row {
    pub function: &'static str,
    pub class: String,
    pub records: (usize, usize),
    pub refusal: u64,
    pub inputs: Vec<Measured>,
}

fn median(mut numbers: Vec<f64>) -> f64 {
    numbers.sort_by(f64::total_cmp);
    let half = numbers.len() / 2;
    match numbers.len() % 2 {
        1 => numbers[half],
        _ => (numbers[half - 1] + numbers[half]) / 2.0,
    }
}

impl Row {
    fn time(&self, subject: usize) -> f64 {
        median(self.inputs.iter().map(|one| one.times[subject]).collect())
    }

    /// The library's time beside a subject's, for each input.
    fn ratios(&self, subject: usize) -> Vec<f64> {
        let ratio = |one: &Measured| one.times[PORT] / one.times[subject];
        self.inputs.iter().map(ratio).collect()
    }

    fn median_ratio(&self, subject: usize) -> f64 {
        median(self.ratios(subject))
    }

    fn worst_ratio(&self, subject: usize) -> f64 {
        self.ratios(subject).into_iter().fold(0.0, f64::max)
    }

    fn stack(&self) -> usize {
        self.inputs.iter().map(|one| one.stack).max().unwrap_or(0)
    }

    fn line(&self) -> String {
        let records = match self.records {
            (least, most) if least == most => grouped(least),
            (least, most) => format!("{} to {}", grouped(least), grouped(most)),
        };
        let class = match self.refusal {
            0 => self.class.clone(),
            refusal => format!("apart, refused by {refusal}: {}", self.class),
        };
        format!(
            "| `{}` | {class} | {records} | {} | {} | {} | {} | {} | {} | {} | {} |",
            self.function,
            figures(self.time(CORE) / 1e3),
            figures(self.time(WHOLE) / 1e3),
            figures(self.time(PORT) / 1e3),
            figures(self.median_ratio(WHOLE)),
            figures(self.worst_ratio(WHOLE)),
            figures(self.median_ratio(CORE)),
            figures(self.worst_ratio(CORE)),
            grouped(self.stack()),
        )
    }
}

/// A number in two figures or more.
fn figures(number: f64) -> String {
    match number {
        _ if number < 0.0995 => format!("{number:.4}"),
        _ if number < 9.95 => format!("{number:.2}"),
        _ if number < 99.5 => format!("{number:.1}"),
        _ => grouped(number.round() as usize),
    }
}

/// A number with a comma before each three figures.
fn grouped(number: usize) -> String {
    let digits = number.to_string();
    let mut text = String::new();
    for (i, digit) in digits.chars().enumerate() {
        if i > 0 && (digits.len() - i).is_multiple_of(3) {
            text.push(',');
        }
        text.push(digit);
    }
    text
}

/// What is printed.
pub fn text(rows: &[Row]) -> String {
    let mut text = String::from(
        "| Function | Input | Records | Rust alone, µs | Rust with bytes, µs | library, µs \
         | library / Rust with bytes, median | worst | library / Rust alone, median | worst \
         | stack, bytes |\n|---|---|---|---|---|---|---|---|---|---|---|\n",
    );
    for row in rows {
        text += &row.line();
        text.push('\n');
    }
    text.push('\n');
    text += &foot();
    text.push('\n');
    text += &verdict(rows);
    text
}

/// How it was measured, on what.
fn foot() -> String {
    let said = |name: &str| env::var(name).unwrap_or_else(|_| "unknown".to_string());
    let library = match env::var("BENCH_BUILT").as_deref() {
        Ok("1") => "built by `tools/build.sh` for this run",
        _ => "an archive that HOGZELT_LIB named",
    };
    let machine = format!(
        "Measured on {}: {}. Release builds, {};\nthe library: {library}.\n",
        said("BENCH_DATE"),
        said("BENCH_MACHINE"),
        said("BENCH_RUSTC"),
    );
    machine
        + &format!(
            "A time is that of one call: the median of {ROUNDS} rounds of at least {} ms, in each of which the three take \
             turns, after a\nwarm-up. ",
            BATCH.as_millis()
        )
        + METHOD
}

const METHOD: &str = "\
Over several inputs the median of their times is given; a ratio is that of one input. All three have the same
input bytes. The result slice of 57,360 bytes, or 16,448 words, is not cleared between calls: each call of the Rust with
bytes and of the library writes all of it. What a call of the Rust allocates and drops is in its time. \"Rust alone\" is
the published function on a tree or a form that is there; a pass changes a copy of the form, which is in its time. The
published sources have no evaluator, so there the values are those of the harness's recursive one. \"Rust with bytes\"
also reads the bytes, with the checks of document 01, and writes the result's; an atom that it reads for a
pass has its variables and no truth table. `run_passes` has the five passes in order, twice; the Rust with bytes makes
the same calls, each from bytes to bytes, the Rust alone on one form. The stack is the library's, the most over the inputs.
";

/// Whether the target is met, and how many inputs take longer than in the Rust.
fn verdict(rows: &[Row]) -> String {
    let accepted: Vec<&Row> = rows.iter().filter(|row| row.refusal == 0).collect();
    let slower: Vec<String> = accepted
        .iter()
        .filter(|row| row.median_ratio(WHOLE) > 1.0)
        .map(|row| format!("`{}` on {}", row.function, row.class))
        .collect();
    let ratios: Vec<f64> = accepted.iter().flat_map(|row| row.ratios(WHOLE)).collect();
    let longer = ratios.iter().filter(|&&ratio| ratio > 1.0).count();
    let ratio = rows[0].median_ratio(WHOLE);
    let met = |yes: bool| if yes { "met" } else { "not met" };
    let which = match slower.is_empty() {
        true => String::new(),
        false => format!("; slower are {}", slower.join(", ")),
    };
    format!(
        "- At most {TARGET:.2} of the Rust with bytes on the median expression: {}, {ratio:.2}.\n\
         - Not slower than the Rust with bytes in any class that is accepted: {}{which}. \
         Single inputs that take longer: {longer} of {}.\n",
        met(ratio <= TARGET),
        met(slower.is_empty()),
        ratios.len(),
    )
}
