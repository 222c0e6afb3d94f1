//! The harness: vectors for the replay program, and comparisons of the static library with the
//! published Rust and with the model of document 01. See run.sh for the commands.

// bridge.rs is compiled in each build of the published sources
#![allow(clippy::duplicate_mod)]

include!(concat!(env!("OUT_DIR"), "/published.rs"));

#[cfg(feature = "library")]
mod bench;
mod bench_forms;
mod bench_inputs;
#[cfg(feature = "library")]
mod bench_lists;
#[cfg(feature = "library")]
mod bench_passes;
#[cfg(feature = "library")]
mod bench_rust;
#[cfg(feature = "library")]
mod bench_table;
mod both;
mod bridge;
mod cases;
mod collide;
mod columns;
#[cfg(feature = "library")]
mod compare;
#[cfg(feature = "library")]
mod differences;
mod dump;
mod edges;
mod entry;
mod family;
mod form;
mod form_edges;
mod form_limits;
mod form_model;
mod form_random;
#[cfg(test)]
mod head_tests;
mod judge_cases;
#[cfg(feature = "library")]
mod judge_compare;
mod judge_forms;
mod judge_forms_random;
mod judge_model;
mod judge_random;
#[cfg(feature = "library")]
mod judge_stack;
#[cfg(test)]
mod judge_tests;
#[cfg(feature = "library")]
mod library;
#[cfg(feature = "library")]
mod library_forms;
mod list;
mod list_cases;
#[cfg(feature = "library")]
mod list_compare;
#[cfg(feature = "library")]
mod list_stack;
mod masks;
#[cfg(feature = "library")]
mod measure;
mod model;
mod normal_cases;
#[cfg(feature = "library")]
mod normal_compare;
mod normal_limits;
mod normal_model;
mod normal_random;
mod normal_small;
#[cfg(feature = "library")]
mod normal_stack;
mod normal_table;
mod number_cases;
#[cfg(test)]
mod number_tests;
mod numbers;
mod pass;
mod pass_atoms;
mod pass_cases;
#[cfg(any(feature = "library", test))]
mod pass_checks;
#[cfg(feature = "library")]
mod pass_compare;
mod pass_examples;
mod pass_groups;
#[cfg(feature = "library")]
mod pass_stack;
#[cfg(test)]
mod pass_tests;
mod prng;
mod published;
mod random;
mod record;
mod refusal;
mod rules_cases;
#[cfg(feature = "library")]
mod rules_compare;
mod rules_model;
mod rules_random;
#[cfg(feature = "library")]
mod rules_stack;
#[cfg(test)]
mod rules_tests;
#[cfg(test)]
mod slip_tests;
#[cfg(feature = "library")]
mod stack;
mod stacked_cases;
#[cfg(test)]
mod stacked_tests;
mod sum_cases;
#[cfg(test)]
mod sum_tests;
#[cfg(test)]
mod tests;
#[cfg(any(feature = "library", test))]
mod week;
#[cfg(feature = "library")]
mod week_compare;
#[cfg(test)]
mod week_tests;
mod written;

use std::io::{ErrorKind, Write};
use std::process::ExitCode;

fn main() -> ExitCode {
    let words: Vec<String> = std::env::args().skip(1).collect();
    let words: Vec<&str> = words.iter().map(String::as_str).collect();
    let done = match words[..] {
        ["vectors", out] => write_vectors(out),
        ["dump", file] => dump_vectors(file, 0, usize::MAX),
        ["dump", file, number] => {
            number_of(number).and_then(|number| dump_vectors(file, number, number))
        }
        ["both", ref words @ ..] => both::run(words),
        #[cfg(feature = "library")]
        ["compare"] => compare::run(),
        #[cfg(feature = "library")]
        ["compare", "normalize"] => normal_compare::run(),
        #[cfg(feature = "library")]
        ["compare", "passes"] => pass_compare::run(),
        #[cfg(feature = "library")]
        ["compare", "lists"] => list_compare::run(),
        #[cfg(feature = "library")]
        ["compare", "rules"] => rules_compare::run(),
        #[cfg(feature = "library")]
        ["compare", "weeks"] => week_compare::run(),
        #[cfg(feature = "library")]
        ["compare", "judge"] => judge_compare::run(),
        #[cfg(feature = "library")]
        ["stack"] => stack::run(),
        #[cfg(feature = "library")]
        ["bench"] => bench::run(None),
        #[cfg(feature = "library")]
        ["bench", document] => bench::run(Some(document)),
        _ => Err("no such command; run.sh lists them".to_string()),
    };
    match done {
        Ok(()) => ExitCode::SUCCESS,
        Err(message) => {
            eprintln!("harness: {message}");
            ExitCode::FAILURE
        }
    }
}

fn write_vectors(out: &str) -> Result<(), String> {
    let entries = cases::entries();
    let file = entry::write(&entries);
    std::fs::write(out, &file).map_err(|e| format!("{out}: {e}"))?;
    let counts = dump::counts(&entries);
    show(&format!(
        "{} entries, {} bytes\n{counts}",
        entries.len(),
        file.len()
    ))
}

fn dump_vectors(path: &str, first: usize, last: usize) -> Result<(), String> {
    let file = std::fs::read(path).map_err(|e| format!("{path}: {e}"))?;
    let entries = entry::read(&file)?;
    show(&dump::text(&entries, first, last))
}

/// Writes to standard output; a reader that stops early is no failure.
fn show(text: &str) -> Result<(), String> {
    match std::io::stdout().write_all(text.as_bytes()) {
        Err(e) if e.kind() != ErrorKind::BrokenPipe => Err(format!("standard output: {e}")),
        _ => Ok(()),
    }
}

fn number_of(word: &str) -> Result<usize, String> {
    word.parse().map_err(|_| format!("{word} is no number"))
}
