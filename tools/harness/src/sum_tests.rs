//! Numbers written as sums below bitwise operators: what they are where they are constants and
//! factors, that they are nonlinear beside a variable, and what the published Rust reads instead.

use crate::cases::SEED;
use crate::entry;
use crate::form::{Form, RESULT_BYTES};
use crate::form_model;
use crate::list;
use crate::model;
use crate::numbers;
use crate::parted;
use crate::parted::ir::partings;
use crate::prng::Prng;
use crate::published;
use crate::record::{
    binary, bytes, literal, unary, variable, Records, ADD, AND, MUL, NEG, NOT, OR, SHR, XOR,
};
use crate::sorted;
use crate::sum_cases::{worked, LISTS, NORMAL};
use crate::tests::terms_text;

const ROUNDS: usize = 4_000;

fn n(value: u64) -> Records {
    literal(8, value)
}

fn a() -> Records {
    variable(8, 0)
}

fn both(kind: u8, left: Records, right: Records) -> Records {
    binary(kind, left, right)
}

fn not(tree: Records) -> Records {
    unary(NOT, 0, tree)
}

/// 1 + 2, and 3 & (1 + 2).
fn three() -> Records {
    both(ADD, n(1), n(2))
}

fn masked() -> Records {
    both(AND, n(3), three())
}

/// The examples of the request, and some more.
#[test]
fn examples() {
    let minus_one = || unary(NEG, 0, n(1));
    let product = || both(MUL, a(), variable(8, 1));
    let cases = [
        (masked(), "3"),
        (both(MUL, n(0), masked()), "0"),
        (both(MUL, masked(), a()), "0, 3·(v0)"),
        (both(ADD, a(), not(minus_one())), "0, 1·(v0)"),
        (unary(SHR, 1, not(three())), "126"),
        (both(XOR, a(), masked()), "refusal 8"),
        (both(AND, a(), not(three())), "refusal 8"),
        (both(MUL, n(0), both(XOR, a(), masked())), "0"),
        (both(XOR, a(), minus_one()), "refusal 8"),
        (both(AND, a(), unary(SHR, 1, three())), "refusal 8"),
        (both(OR, masked(), n(8)), "11"),
        (both(MUL, both(AND, n(4), three()), product()), "0"),
        (both(MUL, masked(), product()), "refusal 8"),
    ];
    for (tree, wanted) in cases {
        assert_eq!(terms_text(&bytes(&tree)), wanted);
    }
}

fn constant(form: &Form) -> (u64, usize) {
    (form.constant, form.terms.len())
}

/// What the published Rust reads: the sum below the operator as 0.
#[test]
fn read_as_0_by_the_rust() {
    let minus_one = unary(NEG, 0, n(1));
    let product = both(MUL, a(), variable(8, 1));
    for (tree, wanted) in [
        (masked(), (0, 0)),
        (both(OR, three(), n(8)), (8, 0)),
        (not(minus_one.clone()), (255, 0)),
        (unary(SHR, 1, not(three())), (127, 0)),
        (both(MUL, masked(), a()), (0, 0)),
        // the factor 3 is taken for 0, which ends the descent
        (both(MUL, masked(), product.clone()), (0, 0)),
    ] {
        for rust in [
            published::normalized(&tree),
            sorted::bridge::normalized(&tree),
        ] {
            assert_eq!(rust.as_ref().map(constant), Ok(wanted));
        }
    }
    // and the factor 0 for 255
    let tree = both(MUL, not(minus_one), product);
    assert_eq!(published::normalized(&tree), Err(8));
    assert_eq!(terms_text(&bytes(&tree)), "0");
}

/// Let go, difference 8 leaves the answers of the Rust with sorted maps.
#[test]
fn difference_8_alone() {
    let mut needed = 0;
    for tree in worked() {
        let with = parted::bridge::normalized(&tree);
        let without = partings::with(partings::ALL, || parted::bridge::normalized(&tree));
        assert_eq!(without, sorted::bridge::normalized(&tree));
        needed += usize::from(with != without);
    }
    assert!(needed > worked().len() / 3);
}

/// The model gives what the Rust with the differences gives (`normalize_answer` looks), and keeps the
/// value.
#[test]
fn values_are_kept() {
    let rng = &mut Prng::new(SEED);
    let (mut accepted, mut refused) = (0, 0);
    for family in &NORMAL {
        for case in (family.make)(rng, ROUNDS) {
            let answer = entry::normalize_answer(&case.file, RESULT_BYTES);
            if answer.refusal != 0 {
                assert_eq!(answer.refusal, 8);
                refused += 1;
                continue;
            }
            accepted += 1;
            for _ in 0..4 {
                let vars = numbers::words(rng, &case.file);
                let wanted = model::answer(&case.file, &vars);
                assert_eq!(form_model::answer(answer.form(), &vars), wanted);
            }
        }
    }
    assert!(accepted > ROUNDS / 2 && refused > ROUNDS / 20);
}

/// So do lists of passes run from them.
#[test]
fn lists_keep_the_value() {
    let rng = &mut Prng::new(SEED);
    for family in &LISTS {
        for case in (family.make)(rng, ROUNDS / 10) {
            let ran = list::answer(&case);
            if ran.written.refusal == 0 {
                let vars = numbers::words(rng, &case.file);
                let wanted = model::answer(&case.file, &vars);
                assert_eq!(form_model::answer(ran.written.form(), &vars), wanted);
            }
        }
    }
}
