//! The forms of the benchmark, by class: those of the expressions, and the ones that may take the
//! passes and the columns the longest.

use crate::bench_inputs::Class;
use crate::cases::SEED;
use crate::form::{Form, HEAD_BYTE, MAX_ATOMS, RESULT_BYTES};
use crate::normal_model;
use crate::prng::Prng;
use crate::record::{binary, left_chain, literal, unary, variable, Records, AND, NOT, XOR};

/// Classes of forms; `expressions` are the files that the first one's forms are made of.
pub fn classes(expressions: &[Vec<u8>]) -> Vec<Class> {
    let one = |name, form: Form| Class {
        name,
        refusal: 0,
        files: vec![form.bytes()],
    };
    vec![
        Class {
            name: "the forms of these 100",
            refusal: 0,
            files: expressions.iter().map(|file| normalised(file)).collect(),
        },
        one("one group of 256 entries", one_group()),
        one("one group of 128 entries, which join", joining_group()),
        one("256 groups", groups()),
        one("256 atoms of 5 variables, 64 unlike places", places()),
        one("128 atoms that are flattened", complex()),
    ]
}

/// The bytes of an expression's form.
pub fn normalised(file: &[u8]) -> Vec<u8> {
    let answer = normal_model::answer(file, RESULT_BYTES);
    answer.out[..answer.used as usize].to_vec()
}

fn masked(tree: Records, mask: u64) -> Records {
    binary(AND, tree, literal(64, mask))
}

/// A group as long as it may be. Its coefficients are odd and its masks meet, so that no mask is cut
/// and no two entries join: any new atom would be one too many.
pub fn one_group() -> Form {
    let rng = &mut Prng::new(SEED + 6);
    let mut form = Form::new(64, 1);
    for _ in 0..MAX_ATOMS {
        let tree = masked(variable(64, 0), rng.word() | 1);
        form.push_term(HEAD_BYTE, tree, rng.word() | 1);
    }
    form
}

/// A group whose entries join two by two, so that the table has no room left.
fn joining_group() -> Form {
    let rng = &mut Prng::new(SEED + 7);
    let mut form = Form::new(64, 1);
    for _ in 0..64 {
        let (mask, coeff) = (rng.word(), rng.word() | 1);
        for mask in [mask, !mask & rng.word()] {
            form.push_term(HEAD_BYTE, masked(variable(64, 0), mask), coeff);
        }
    }
    form
}

/// A group for each variable.
fn groups() -> Form {
    let rng = &mut Prng::new(SEED + 8);
    let mut form = Form::new(64, 1);
    for number in 0..MAX_ATOMS {
        let tree = masked(variable(64, number as u16), rng.word());
        form.push_term(HEAD_BYTE, tree, rng.word() | 1);
    }
    form
}

/// As many atoms as there may be, of five variables each, and no two places alike.
pub fn places() -> Form {
    let rng = &mut Prng::new(SEED + 9);
    let mut form = Form::new(64, 1);
    for number in 0..MAX_ATOMS {
        let leaf = |i: usize| variable(64, (number + i) as u16 % 256);
        let tree = masked(left_chain(XOR, 5, leaf), rng.word());
        form.push_term(HEAD_BYTE, tree, rng.word() | 1);
    }
    form
}

/// Atoms of one variable that are flattened, so that the table has no room left.
fn complex() -> Form {
    let rng = &mut Prng::new(SEED + 10);
    let mut form = Form::new(64, 1);
    for number in 0..MAX_ATOMS / 2 {
        let tree = masked(variable(64, number as u16), rng.word());
        form.push_term(HEAD_BYTE, unary(NOT, 0, tree), rng.word() | 1);
    }
    form
}
