//! The stack and the time of normalising by rules 2: on the shapes of normalising, and on those
//! that are folded or rewritten the most.

use std::hint::black_box;

use crate::bench_inputs;
use crate::form::RESULT_BYTES;
use crate::library_forms as library;
use crate::measure::{medians, stack_used};
use crate::normal_stack;
use crate::record::{
    binary, bytes, left_chain, literal, nested, right_chain, unary, variable, Records, ADD, AND,
    MAX_RECORDS, NEG, NOT, OR, RECORD_BYTES, XOR,
};
use crate::rules_cases::nested_nots;
use crate::rules_model::{self, FIRST, SECOND};
use crate::stack::show_stack;

const FUNCTION: &str = "hogzelt_normalize_by_rules, rules 2";

/// How many times longer 1,022 nested Nots may take than 256. A walk of each subtree at each level
/// would take some sixteen times as long.
const MOST_TIMES_LONGER: f64 = 6.0;

/// The most stack that a call used.
pub fn stacks() -> Result<usize, String> {
    let mut most = 0;
    for (shape, tree) in normal_stack::shapes().into_iter().chain(shapes()) {
        let file = bytes(&tree);
        // the result slice is the caller's and not counted
        let mut out = vec![1; RESULT_BYTES];
        let mut answer = None;
        let call = &mut || answer = Some(library::by_rules_into(SECOND, &file, &mut out));
        let used = stack_used(call)?;
        let wanted = rules_model::answer(SECOND, &file, RESULT_BYTES);
        let numbers = [wanted.refusal, wanted.used, wanted.terms];
        if answer != Some(numbers) || out != wanted.out {
            return Err(format!("{FUNCTION} differs from the model: {shape}"));
        }
        most = show_stack(FUNCTION, shape, &file, used, most);
    }
    Ok(most)
}

/// Shapes that rules 2 rewrite, or whose fold goes deep.
fn shapes() -> Vec<(&'static str, Records)> {
    let w = 64;
    let depth = MAX_RECORDS - 1;
    let a = || variable(w, 0);
    let n = |i: usize| literal(w, 3 + i as u64);
    let not = |x: Records| unary(NOT, 0, x);
    let masked = |i: usize| match i {
        0 => a(),
        _ => n(i),
    };
    let below_and = |tree: Records| binary(AND, a(), tree);
    let mut all = vec![
        ("1,022 nested Not over Neg", nested_nots(w, depth - 1)),
        ("nested Neg and Not", nested(&[NEG, NOT], depth, a())),
        ("nested Not and Neg", nested(&[NOT, NEG], depth, a())),
        ("Not over nested Neg", not(nested(&[NEG], depth - 1, a()))),
        (
            "nested Not over a masked variable",
            nested(&[NOT], depth - 2, below_and(n(0))),
        ),
        (
            "nested Not over a variable masked by a sum",
            nested(&[NOT], depth - 4, below_and(left_chain(ADD, 2, n))),
        ),
        (
            "nested Not and Neg of a literal below And",
            below_and(nested(&[NOT, NEG], depth - 2, n(0))),
        ),
        (
            "nested Neg of a literal below And",
            below_and(nested(&[NEG], depth - 2, n(0))),
        ),
        (
            "left chain of Add of literals below And",
            below_and(left_chain(ADD, 511, n)),
        ),
        (
            "right chain of Add of literals below And",
            below_and(right_chain(ADD, 511, n)),
        ),
        (
            "nested Neg of a literal below nested Not and And",
            nested(
                &[NOT],
                depth / 2,
                below_and(nested(&[NEG], depth / 2 - 2, n(0))),
            ),
        ),
        (
            "Not over a left chain of Add",
            not(left_chain(ADD, 511, |_| a())),
        ),
        (
            "Not over a right chain of Add",
            not(right_chain(ADD, 511, |_| a())),
        ),
        (
            "Not and Add by turns, left",
            (0..depth / 3).fold(a(), |tree, _| not(binary(ADD, tree, a()))),
        ),
        (
            "Not and Add by turns, right",
            (0..depth / 3).fold(a(), |tree, _| not(binary(ADD, a(), tree))),
        ),
        (
            "Not and And with a literal by turns, left",
            (0..depth / 3).fold(a(), |tree, i| not(binary(AND, tree, n(i)))),
        ),
        (
            "Not and And with a literal by turns, right",
            (0..depth / 3).fold(a(), |tree, i| not(binary(AND, n(i), tree))),
        ),
    ];
    for (shape, kind) in [
        ("left chain of And with literals", AND),
        ("left chain of Or with literals (refused)", OR),
        ("left chain of Xor with literals (refused)", XOR),
    ] {
        all.push((shape, left_chain(kind, 512, masked)));
    }
    for (shape, kind) in [
        ("right chain of And with literals", AND),
        ("right chain of Or with literals (refused)", OR),
        ("right chain of Xor with literals (refused)", XOR),
    ] {
        all.push((shape, right_chain(kind, 512, masked)));
    }
    all
}

/// A table of times: the function without a number, by rules 1 and by rules 2, in one run.
pub fn times() -> Result<(), String> {
    println!(
        "| normalising, µs | records | without a number | rules 1 | rules 2 | ns per record |"
    );
    println!("|---|---|---|---|---|---|");
    let mut classes = bench_inputs::classes().into_iter();
    for _ in 0..2 {
        let class = classes.next().expect("a class");
        row(class.name, &class.files);
    }
    let nots = |count: usize| {
        let file = bytes(&nested_nots(64, count));
        row(&format!("{count} nested Not over Neg"), &[file])
    };
    let [_, quarter, _, whole] = [128, 256, 512, MAX_RECORDS - 2].map(nots);
    let ratio = whole / quarter;
    println!("time, {FUNCTION}, 1,022 nested Nots beside 256: {ratio:.2} times");
    match ratio > MOST_TIMES_LONGER {
        true => Err(format!(
            "1,022 nested Nots take more than {MOST_TIMES_LONGER} times as long as 256"
        )),
        false => Ok(()),
    }
}

/// Prints the times of one call, and gives that by rules 2.
fn row(name: &str, files: &[Vec<u8>]) -> f64 {
    let mut out = vec![1; RESULT_BYTES];
    let times: [f64; 3] = medians(|subject| {
        for file in files {
            black_box(match subject {
                0 => library::normalize_into(file, &mut out),
                1 => library::by_rules_into(FIRST, file, &mut out),
                _ => library::by_rules_into(SECOND, file, &mut out),
            });
        }
    });
    let records: usize = files.iter().map(|file| file.len() / RECORD_BYTES).sum();
    let [plain, first, second] = times.map(|time| time / files.len() as f64);
    println!(
        "| {name} | {:.1} | {:.2} | {:.2} | {:.2} | {:.1} |",
        records as f64 / files.len() as f64,
        plain / 1e3,
        first / 1e3,
        second / 1e3,
        times[2] / records as f64
    );
    second
}
