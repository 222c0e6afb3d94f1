//! The stack and the time of the judge: on the longest files, and on short ones.

use std::hint::black_box;

use crate::cases::SEED;
use crate::judge_cases::{shapes_of_most, Pair};
use crate::judge_compare::{judge, FUNCTION};
use crate::judge_model::{self, Verdict};
use crate::judge_random;
use crate::measure::{medians, stack_used};
use crate::normal_cases::add;
use crate::normal_stack;
use crate::prng::Prng;
use crate::record::{binary, bytes, literal, variable, Records, AND, MUL, RECORD_BYTES, XOR};
use crate::stack::show_stack;

/// Short pairs that are timed together.
const SHORT_PAIRS: usize = 100;

/// The most stack that a call used: on the longest files, and on the shapes of normalising, each
/// beside itself.
pub fn stacks() -> Result<usize, String> {
    let mut most = 0;
    let twice = |(shape, tree): (&'static str, Records)| (shape, tree.clone(), tree);
    let normalising = normal_stack::shapes().into_iter().map(twice);
    for (shape, left, right) in shapes_of_most().into_iter().chain(normalising) {
        let (left, right) = (bytes(&left), bytes(&right));
        let mut found = Verdict::refused(0);
        let used = stack_used(&mut || found = judge(&left, &right))?;
        if found != judge_model::answer(&left, &right) {
            return Err(format!("{FUNCTION} differs from the model: {shape}"));
        }
        most = show_stack(FUNCTION, shape, &[left, right].concat(), used, most);
    }
    Ok(most)
}

/// A table of times; equal pairs are looked at in every place.
pub fn times() {
    println!("| judging, µs | records | verdict | one call |\n|---|---|---|---|");
    for (name, left, right) in short() {
        row(
            name,
            &[Pair {
                left: bytes(&left),
                right: bytes(&right),
            }],
        );
    }
    let rng = &mut Prng::new(SEED + 3);
    row(
        "100 rewritings",
        &judge_random::rewritings(rng, SHORT_PAIRS),
    );
    row(
        "100 with a slip",
        &judge_random::one_place(rng, SHORT_PAIRS),
    );
    for (shape, left, right) in shapes_of_most() {
        row(
            shape,
            &[Pair {
                left: bytes(&left),
                right: bytes(&right),
            }],
        );
    }
}

/// x + y and (x ^ y) + 2 (x & y) at 8 and 64 bits, and x + y beside x.
fn short() -> Vec<(&'static str, Records, Records)> {
    let (x, y) = (|w| variable(w, 0), |w| variable(w, 1));
    let sum = |w| add(x(w), y(w));
    let carried = |w| {
        let twice = binary(MUL, literal(w, 2), binary(AND, x(w), y(w)));
        add(binary(XOR, x(w), y(w)), twice)
    };
    vec![
        ("x + y and (x ^ y) + 2 (x & y), w = 8", sum(8), carried(8)),
        ("the same, w = 64", sum(64), carried(64)),
        ("x + y and x, w = 64", sum(64), x(64)),
    ]
}

fn row(name: &str, pairs: &[Pair]) {
    let [time] = medians(|_| {
        for pair in pairs {
            black_box(judge(black_box(&pair.left), &pair.right));
        }
    });
    let bytes: usize = pairs
        .iter()
        .map(|pair| pair.left.len() + pair.right.len())
        .sum();
    let verdict = judge(&pairs[0].left, &pairs[0].right);
    let verdict = match (pairs.len(), verdict) {
        (1, Verdict::EQUAL) => "equal".to_string(),
        (
            1,
            Verdict {
                refusal: 0,
                place,
                index,
                ..
            },
        ) => format!("unlike at {place}, {index}"),
        (1, refused) => format!("refusal {}", refused.refusal),
        _ => "any".to_string(),
    };
    println!(
        "| {name} | {:.1} | {verdict} | {:.1} |",
        bytes as f64 / (RECORD_BYTES * pairs.len()) as f64,
        time / 1e3 / pairs.len() as f64
    );
}
