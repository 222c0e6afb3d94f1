//! Expressions whose numbers are written as sums below bitwise operators, as `3 & (1 + 2)`: worked
//! ones, random ones, and lists of passes run from them.

use crate::family::{family, Family};
use crate::form::RESULT_BYTES;
use crate::list::{self, words};
use crate::list_cases;
use crate::normal_cases as normal;
use crate::normal_random::{bitwise, constant, either, expressions, sum};
use crate::pass::PASSES;
use crate::prng::Prng;
use crate::record::{
    self, binary, literal, nested, unary, variable, Records, ADD, AND, MUL, NEG, NOT, OR, SHR, XOR,
};

/// Families of expressions to be normalised.
pub const NORMAL: [Family<normal::Case>; 2] = [
    family("numbers written as sums, worked", 0, 0, |_, _| {
        normal::cases(worked())
    }),
    family("numbers written as sums", 20_000, 200, random),
];

/// Families of lists of passes.
pub const LISTS: [Family<list::Case>; 2] = [
    family("numbers written as sums, worked", 0, 0, |_, _| lists()),
    family("numbers written as sums", 10_000, 40, random_lists),
];

/// The request's examples and others of each rule, at 8 bits, and the same shapes at other widths.
pub fn worked() -> Vec<Records> {
    let mut all = Vec::new();
    for w in [8, 1, 2, 63, 64] {
        all.extend(shapes(w));
    }
    all
}

fn shapes(w: u8) -> Vec<Records> {
    let n = |value: u64| literal(w, value);
    let (a, b) = (|| variable(w, 0), || variable(w, 1));
    let three = || binary(ADD, n(1), n(2));
    let masked = || binary(AND, n(3), three());
    let not = |x: Records| unary(NOT, 0, x);
    let neg = |x: Records| unary(NEG, 0, x);
    let half = |x: Records| unary(SHR, 1, x);
    let both = |kind: u8, x: Records, y: Records| binary(kind, x, y);
    vec![
        // constants
        masked(),
        both(MUL, n(0), masked()),
        half(not(three())),
        half(three()),
        both(OR, three(), n(4)),
        both(XOR, neg(n(1)), both(MUL, n(5), n(7))),
        not(not(neg(n(3)))),
        neg(masked()),
        both(ADD, both(XOR, n(3), neg(n(1))), n(1)),
        both(AND, both(OR, masked(), half(neg(n(1)))), not(three())),
        both(MUL, masked(), not(both(MUL, n(2), n(3)))),
        nested(&[NOT, NEG], 40, three()),
        nested(&[NEG, NOT, SHR], 40, neg(n(1))),
        // summands and factors
        both(MUL, masked(), a()),
        both(MUL, a(), masked()),
        both(ADD, a(), not(neg(n(1)))),
        both(ADD, both(XOR, a(), n(15)), masked()),
        both(MUL, not(three()), both(ADD, a(), both(MUL, b(), masked()))),
        neg(both(MUL, both(ADD, a(), masked()), half(not(three())))),
        // the factor is 0, and not the 0 that the Rust reads; and the other way round
        both(MUL, both(AND, n(4), three()), both(MUL, a(), b())),
        both(MUL, not(neg(n(1))), both(MUL, a(), b())),
        both(MUL, masked(), both(MUL, a(), b())),
        both(ADD, both(MUL, a(), b()), masked()),
        // below an operator that also has a variable
        both(XOR, a(), masked()),
        both(OR, masked(), a()),
        both(AND, a(), not(three())),
        both(AND, not(a()), masked()),
        both(XOR, a(), neg(n(1))),
        both(AND, a(), half(three())),
        not(both(XOR, a(), masked())),
        half(both(AND, a(), not(three()))),
        both(AND, both(OR, a(), b()), both(XOR, masked(), n(1))),
        both(ADD, b(), both(XOR, a(), masked())),
        // but not where the coefficient is 0
        both(MUL, n(0), both(XOR, a(), masked())),
        both(MUL, both(AND, n(4), three()), both(XOR, a(), masked())),
    ]
}

/// A tree without a variable: an And, Or, Xor or Not with an Add, Mul or Neg below it.
fn written(rng: &mut Prng, w: u8) -> Records {
    let first = constant(rng, 4, w);
    let second = constant(rng, 4, w);
    let below = match rng.below(4) {
        0 => unary(NEG, 0, first),
        1 => binary(MUL, first, second),
        _ => binary(ADD, first, second),
    };
    let over = match rng.below(4) {
        0 => unary(NOT, 0, below),
        _ => {
            let kind = rng.pick(&[AND, OR, XOR]);
            let other = constant(rng, 5, w);
            either(rng, kind, below, other)
        }
    };
    match rng.below(6) {
        0 => unary(SHR, rng.below(usize::from(w)) as u8, over),
        1 => unary(NEG, 0, over),
        2 => unary(NOT, 0, unary(SHR, 1, over)),
        _ => over,
    }
}

/// Sums of atoms, of numbers, and of atoms and sums times numbers. One term in sixteen has a number
/// below a bitwise operator with a variable.
fn random(rng: &mut Prng, count: usize) -> Vec<normal::Case> {
    expressions(rng, count, |rng, w| {
        let mut terms = vec![written(rng, w)];
        for _ in 0..rng.below(6) {
            let mut term = bitwise(rng, 5, w);
            if rng.one_in(16) {
                let kind = rng.pick(&[AND, OR, XOR]);
                let number = written(rng, w);
                term = either(rng, kind, term, number);
            }
            for _ in 0..rng.below(3) {
                let number = written(rng, w);
                let kind = rng.pick(&[ADD, MUL, MUL]);
                term = either(rng, kind, number, term);
            }
            terms.push(term);
        }
        sum(rng, terms)
    })
}

/// From each of the worked expressions one of three lists, one after the other.
fn lists() -> Vec<list::Case> {
    let whole = PASSES.map(|pass| (pass, RESULT_BYTES));
    let lists = [
        words(&whole),
        words(&[whole[4], (PASSES[0], RESULT_BYTES - 1), whole[3]]),
        Vec::new(),
    ];
    let trees = worked().into_iter().enumerate();
    trees
        .map(|(number, tree)| list_cases::case(record::bytes(&tree), lists[number % 3].clone()))
        .collect()
}

fn random_lists(rng: &mut Prng, count: usize) -> Vec<list::Case> {
    (0..count)
        .map(|_| {
            let file = random(rng, 1).remove(0).file;
            list_cases::case(file, list_cases::random_words(rng, &PASSES))
        })
        .collect()
}
