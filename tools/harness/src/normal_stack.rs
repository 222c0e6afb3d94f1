//! The stack and the time of normalising on the shapes that may take the most of either: the deepest
//! files, the longest sums, and tables that are nearly full.

use std::hint::black_box;

use crate::collide;
use crate::form::RESULT_BYTES;
use crate::library_forms as library;
use crate::measure::{stack_used, time_of};
use crate::normal_limits::chain;
use crate::normal_model;
use crate::number_cases::of_512;
use crate::record::{
    balanced, binary, bytes, left_chain, left_turns, literal, nested, right_chain, right_turns,
    unary, variable, Records, ADD, AND, MAX_RECORDS, MUL, NEG, NOT, OR, SHR, XOR,
};
use crate::stack::{show_stack, show_time};

const FUNCTION: &str = "hogzelt_normalize_to_semilinear";

/// How many times longer 1,023 nested Neg may take than a sum of 512 leaves of one variable, which
/// has as many records. A test of each subtree at each level would take some hundred times as long.
const MOST_TIMES_LONGER: f64 = 4.0;

/// The most stack that a call used.
pub fn stacks() -> Result<usize, String> {
    let mut most = 0;
    for (shape, tree) in shapes() {
        let file = bytes(&tree);
        // the result slice is the caller's and not counted
        let mut out = vec![1; RESULT_BYTES];
        let mut answer = None;
        let used = stack_used(&mut || answer = Some(library::normalize_into(&file, &mut out)))?;
        let wanted = normal_model::answer(&file, RESULT_BYTES);
        let numbers = [wanted.refusal, wanted.used, wanted.terms];
        if answer != Some(numbers) || out != wanted.out {
            return Err(format!("{FUNCTION} differs from the model: {shape}"));
        }
        most = show_stack(FUNCTION, shape, &file, used, most);
    }
    Ok(most)
}

/// Times for each shape, and whether nested Neg stays within its bound.
pub fn times() -> Result<(), String> {
    let mut out = vec![1; RESULT_BYTES];
    for (shape, tree) in shapes() {
        let file = bytes(&tree);
        show_time(FUNCTION, shape, &file, || {
            black_box(library::normalize_into(&file, &mut out));
        });
    }
    let mut time = |tree: Records| {
        let file = bytes(&tree);
        time_of(|| {
            black_box(library::normalize_into(&file, &mut out));
        })
    };
    let deep = time(nested(&[NEG], MAX_RECORDS - 1, variable(64, 0)));
    let wide = time(balanced(ADD, 0, 512, &|_| variable(64, 0)));
    println!(
        "time, {FUNCTION}, nested Neg beside a sum of 512 leaves: {:.2} times",
        deep / wide
    );
    if deep > MOST_TIMES_LONGER * wide {
        return Err(format!(
            "nested Neg takes more than {MOST_TIMES_LONGER} times as long as a sum"
        ));
    }
    Ok(())
}

/// `~5 + v1 + v1 + ..`, as long as a file may be.
pub fn over_not() -> Records {
    left_chain(ADD, 512, |i| match i {
        0 => unary(NOT, 0, literal(64, 5)),
        _ => variable(64, 1),
    })
}

/// The shapes, as long as a file may be, and one leaf.
pub fn shapes() -> Vec<(&'static str, Records)> {
    let leaf = |i: usize| variable(64, i as u16 % 256);
    let five = |i: usize| variable(64, i as u16 % 256 % 5);
    let depth = MAX_RECORDS - 1;
    let mask = |i: usize| 1 << (i % 64);
    let product = |i: usize| match i {
        0 => leaf(0),
        _ => literal(64, 3),
    };
    let negated_product = |tree: Records| binary(MUL, unary(NEG, 0, tree), literal(64, 3));
    let atom = |i: usize| binary(AND, leaf(i), literal(64, i as u64));
    let of_one_hash = |i: usize| collide::with_hash(atom(i), 0);
    vec![
        ("one leaf", leaf(0)),
        ("nested Neg", nested(&[NEG], depth, leaf(0))),
        ("nested Not", nested(&[NOT], depth, leaf(0))),
        ("nested Shr", nested(&[SHR], depth, leaf(0))),
        ("nested Not and Shr", nested(&[NOT, SHR], depth, leaf(0))),
        (
            "nested Not and Neg of a literal",
            nested(&[NOT, NEG], depth, literal(64, 3)),
        ),
        (
            "left chain of Add, nested Not and Neg of a literal in it",
            left_chain(ADD, 256, |i| match i {
                0 => nested(&[NOT, NEG], depth - 511, literal(64, 3)),
                _ => leaf(i),
            }),
        ),
        ("left chain of Add", left_chain(ADD, 512, leaf)),
        ("left chain of Add over ~5", over_not()),
        ("right chain of Add", right_chain(ADD, 512, leaf)),
        (
            "Neg and Add by turns, left",
            left_turns(NEG, ADD, 341, leaf(0)),
        ),
        (
            "Neg and Add by turns, right",
            right_turns(NEG, ADD, 341, leaf(0)),
        ),
        (
            "Neg and a product by turns",
            (0..341).fold(leaf(0), |tree, _| negated_product(tree)),
        ),
        ("Not and And by turns", left_turns(NOT, AND, 341, leaf(0))),
        ("balanced sum", balanced(ADD, 0, 512, &leaf)),
        (
            "balanced sum of one variable",
            balanced(ADD, 0, 512, &|_| leaf(0)),
        ),
        ("left chain of Mul", left_chain(MUL, 512, product)),
        ("256 atoms of 3", balanced(ADD, 0, 256, &atom)),
        (
            "256 atoms of 3, all of one hash",
            balanced(ADD, 0, 256, &of_one_hash),
        ),
        ("54 nested Xor", chain(leaf(0), &[XOR], 54, mask)),
        (
            "511 nested Xor (refused)",
            chain(leaf(0), &[XOR], 511, mask),
        ),
        (
            "500 nested Or over five variables (refused)",
            chain(left_chain(AND, 5, five), &[OR], 500, mask),
        ),
        ("one atom, left chain of And", left_chain(AND, 512, five)),
        ("one atom of 512 variables", of_512(XOR, 65_024)),
        ("one atom, right chain of Xor", right_chain(XOR, 512, five)),
        (
            "3 nested Xor over a chain of And",
            chain(left_chain(AND, 300, five), &[XOR], 3, mask),
        ),
    ]
}
