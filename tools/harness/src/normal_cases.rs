//! Expressions to be normalised, by family: those of document 01, all small ones (normal_small.rs),
//! one of each shape at every width, the limits of the table (normal_limits.rs), and random ones
//! (normal_random.rs).

use crate::collide;
use crate::family::{family, Family};
use crate::form::RESULT_BYTES;
use crate::normal_limits as limits;
use crate::normal_random as random_cases;
use crate::normal_small;
use crate::published;
use crate::record::{
    self, binary, literal, nested, unary, variable, Records, ADD, AND, MUL, NEG, NOT, OR, SHR, XOR,
};

/// A call: the bytes of an expression, valid or not, and the length of the result slice.
#[derive(Clone)]
pub struct Case {
    pub file: Vec<u8>,
    pub length: usize,
}

/// All families.
pub const FAMILIES: [Family<Case>; 20] = [
    family("examples", 0, 0, |_, _| examples()),
    family("all small ones", 0, 100, |_, n| normal_small::all(n)),
    family("shapes at every width", 0, 200, |_, n| every_width(n)),
    family("sums of atoms", 60_000, 250, random_cases::sums),
    family("any expression", 10_000, 150, random_cases::any),
    family("one truth table", 9_000, 120, random_cases::tables),
    family("lowering", 12_000, 150, random_cases::lowering),
    family("one hash", 5_000, 100, collide::collisions),
    family("products by constants", 8_000, 150, random_cases::products),
    family("sums below constants", 4_000, 100, random_cases::constants),
    family("nonlinear", 4_000, 100, random_cases::nonlinear),
    family("chains of Xor and Or", 3_000, 12, limits::chains),
    family("deep", 0, 0, |_, _| limits::deep()),
    family("edges of the table", 0, 0, |_, _| limits::edges()),
    family("many atoms", 800, 4, limits::atoms),
    family("many tree records", 800, 2, limits::tree_records),
    family("under a factor 0", 400, 6, limits::zero_factor),
    family("casts and shift counts", 4_000, 150, random_cases::casts),
    family("damaged", 12_000, 250, random_cases::damaged),
    family("lengths", 2_000, 60, random_cases::lengths),
];

/// A call with a result slice of the right length.
pub fn case(records: &[record::Record]) -> Case {
    Case {
        file: record::bytes(records),
        length: RESULT_BYTES,
    }
}

pub fn cases(list: Vec<Records>) -> Vec<Case> {
    list.iter().map(|records| case(records)).collect()
}

pub fn add(left: Records, right: Records) -> Records {
    binary(ADD, left, right)
}

/// Document 01's worked examples and those of its rules that normalising shows.
pub fn examples() -> Vec<Case> {
    let n = |value: u64| literal(8, value);
    let (a, b) = (|| variable(8, 0), || variable(8, 1));
    let sum = || add(n(1), n(2));
    let product = || binary(MUL, a(), b());
    let not = |x: Records| unary(NOT, 0, x);
    let neg = |x: Records| unary(NEG, 0, x);
    let shr = |x: Records, count: u8| unary(SHR, count, x);
    let and = |x: Records, y: Records| binary(AND, x, y);
    let or = |x: Records, y: Records| binary(OR, x, y);
    let xor = |x: Records, y: Records| binary(XOR, x, y);
    let mul = |x: Records, y: Records| binary(MUL, x, y);
    let mut all = vec![
        n(5),
        xor(a(), n(15)),
        or(a(), n(15)),
        and(not(a()), n(15)),
        mul(n(0), product()),
        product(),
        xor(a(), neg(n(1))),
        and(n(3), sum()),
        add(and(a(), b()), and(b(), a())),
        xor(variable(1, 0), literal(1, 1)),
        mul(n(16), and(a(), n(255))),
        add(and(a(), n(15)), and(a(), n(240))),
        and(a(), n(15)),
        // sums below operators, with a variable and without
        mul(n(0), and(n(3), sum())),
        and(a(), not(sum())),
        and(a(), sum()),
        and(a(), shr(sum(), 1)),
        shr(sum(), 1),
        not(neg(n(1))),
        not(shr(neg(n(1)), 1)),
        and(a(), not(neg(n(1)))),
        // only a coefficient of 0 on the way down ends the descent
        mul(mul(a(), n(0)), b()),
        shr(mul(n(0), a()), 1),
        mul(n(256), product()),
        mul(n(16), mul(n(16), product())),
        // nothing is simplified
        xor(a(), n(0)),
        or(n(0), a()),
        xor(a(), n(255)),
        and(a(), n(0)),
        and(a(), n(271)),
        xor(a(), n(271)),
        add(xor(a(), n(271)), and(a(), n(271))),
        add(xor(a(), n(271)), and(a(), n(15))),
        mul(n(128), xor(a(), n(15))),
        mul(n(128), or(a(), n(15))),
        // lowering, once and again
        and(not(not(a())), n(15)),
        xor(not(a()), n(15)),
        or(n(15), not(a())),
        not(xor(a(), n(15))),
        shr(or(a(), n(15)), 1),
        and(xor(a(), n(15)), n(60)),
        xor(n(15), xor(a(), n(60))),
        and(not(n(15)), not(a())),
        // sharing
        add(not(not(a())), a()),
        add(shr(a(), 0), a()),
        add(
            add(or(a(), b()), not(and(not(a()), not(b())))),
            xor(a(), b()),
        ),
        add(a(), neg(a())),
        mul(n(256), a()),
        add(xor(a(), a()), b()),
        // values at w bits
        mul(not(n(0)), a()),
        shr(not(n(3)), 1),
        add(mul(shr(not(n(3)), 1), a()), n(300)),
        neg(neg(a())),
    ];
    // one hash and the same variables
    let first = and(and(a(), b()), n(7));
    let second = collide::with_hash(and(and(b(), a()), n(0)), published::hash(&first));
    let third = collide::with_hash(and(or(b(), a()), n(0)), published::hash(&first));
    for list in [
        vec![&first, &second],
        vec![&first, &second, &first],
        vec![&first, &second, &second],
        vec![&first, &second, &third, &second, &first],
    ] {
        all.push(record::left_chain(ADD, list.len(), |i| list[i].clone()));
    }
    cases(all)
}

/// The same shapes at each width from 1 to 64, with literals at its edges: all of them, or about
/// `count`, evenly spaced.
fn every_width(count: usize) -> Vec<Case> {
    let mut all = Vec::new();
    for w in 1..=64 {
        let top = u64::MAX >> (64 - w);
        for value in [1, top, top / 2, top.wrapping_add(1), u64::MAX] {
            let (a, b) = (|| variable(w, 0), || variable(w, 1));
            let n = || literal(w, value);
            all.extend([
                binary(XOR, a(), n()),
                binary(OR, n(), a()),
                binary(AND, unary(NOT, 0, a()), n()),
                binary(AND, n(), unary(SHR, w - 1, a())),
                add(binary(MUL, n(), binary(XOR, b(), n())), a()),
                binary(MUL, unary(NEG, 0, add(a(), n())), unary(NOT, 0, n())),
                add(nested(&[NOT, SHR], 2, n()), binary(MUL, b(), n())),
            ]);
        }
    }
    // an odd step meets all shapes
    let step = all.len().checked_div(count).map_or(1, |step| step | 1);
    cases(all.into_iter().step_by(step).collect())
}
