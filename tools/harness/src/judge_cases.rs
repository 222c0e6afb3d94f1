//! Pairs for the judge (request #102): verdicts by hand, each refusal beside each other, the
//! longest files, the same shapes at every width, and random pairs (judge_random.rs).

use crate::family::{family, Family};
use crate::judge_model::Verdict;
use crate::judge_random as random_pairs;
use crate::normal_cases::add;
use crate::normal_limits::chain;
use crate::prng::Prng;
use crate::record::{
    balanced, binary, bytes, left_chain, literal, nested, right_chain, unary, variable, Record,
    Records, ADD, AND, MAX_RECORDS, MUL, NEG, NOT, OR, SHR, TRUNC, XOR,
};

/// The bytes of two expressions, valid or not.
#[derive(Clone)]
pub struct Pair {
    pub left: Vec<u8>,
    pub right: Vec<u8>,
}

pub fn pair(left: &[Record], right: &[Record]) -> Pair {
    Pair {
        left: bytes(left),
        right: bytes(right),
    }
}

/// All families.
pub const FAMILIES: [Family<Pair>; 14] = [
    family("by hand", 0, 0, |_, _| {
        by_hand().into_iter().map(|(pair, _)| pair).collect()
    }),
    family("refusals beside each other", 0, 0, |_, _| refusals()),
    family("widths 1 to 64", 0, 64, |_, n| every_width(n)),
    family("longest files", 0, 12, |_, n| longest(n)),
    family("rewritings", 70_000, 80, random_pairs::rewritings),
    family("one place", 40_000, 60, random_pairs::one_place),
    family("any two", 30_000, 40, random_pairs::any_two),
    family("alike at zeros", 20_000, 30, random_pairs::alike_at_zeros),
    family("small", 60_000, 40, random_pairs::small),
    family(
        "variables of two bytes",
        15_000,
        40,
        random_pairs::wide_numbers,
    ),
    family("many variables", 10_000, 30, random_pairs::many_variables),
    family("shifts", 15_000, 40, random_pairs::shifts),
    family("damaged", 20_000, 60, random_pairs::damaged),
    family("long", 400, 4, random_pairs::long),
];

/// All that is stored.
pub fn stored(rng: &mut Prng) -> Vec<Pair> {
    let made = FAMILIES
        .iter()
        .map(|family| (family.make)(rng, family.stored));
    made.flatten().collect()
}

fn sum_of(list: &[Records]) -> Records {
    balanced(ADD, 0, list.len(), &|i| list[i].clone())
}

/// The sum of so many variables from `first` on.
fn variables(w: u8, first: u16, count: usize) -> Records {
    balanced(ADD, 0, count, &|i| variable(w, first + i as u16))
}

/// The request's words and what follows from them, with the verdict that they have.
pub fn by_hand() -> Vec<(Pair, Verdict)> {
    let n = |value: u64| literal(8, value);
    let v = |number: u16| variable(8, number);
    let (a, b) = (|| v(0), || v(1));
    let not = |x: Records| unary(NOT, 0, x);
    let neg = |x: Records| unary(NEG, 0, x);
    let half = |x: Records| unary(SHR, 1, x);
    let both = |kind: u8, x: Records, y: Records| binary(kind, x, y);
    let times = |factor: u64, x: Records| binary(MUL, n(factor), x);
    let mask = |x: Records, value: u64| binary(AND, x, n(value));
    let wide = |number: u16| variable(64, number);
    let (equal, refused) = (Verdict::EQUAL, Verdict::refused);
    let at = Verdict::unlike;
    let list = [
        // equal
        (
            both(XOR, a(), b()),
            add(add(a(), b()), neg(times(2, both(AND, a(), b())))),
            equal,
        ),
        (
            times(128, both(XOR, a(), b())),
            times(128, add(a(), b())),
            equal,
        ),
        (both(AND, a(), half(not(n(3)))), mask(a(), 126), equal),
        (
            unary(NOT, 0, wide(0)),
            add(unary(NEG, 0, wide(0)), literal(64, u64::MAX)),
            equal,
        ),
        (unary(SHR, 0, a()), a(), equal),
        (n(271), n(15), equal),
        (times(0, v(65_535)), n(256), equal),
        (both(OR, a(), n(15)), add(mask(a(), 240), n(15)), equal),
        (v(256), v(256), equal),
        (mask(mask(a(), 60), 15), mask(a(), 12), equal),
        (times(16, mask(a(), 255)), times(16, mask(a(), 15)), equal),
        // unlike, by place and then by index
        (both(OR, a(), b()), add(a(), b()), at(0, 3)),
        (a(), add(a(), n(1)), at(0, 0)),
        (n(1), n(2), at(0, 0)),
        (mask(a(), 15), mask(a(), 31), at(4, 1)),
        (mask(a(), 127), a(), at(7, 1)),
        (a(), b(), at(0, 1)),
        (add(a(), b()), add(a(), times(2, b())), at(0, 2)),
        (mask(a(), 2), times(2, mask(b(), 1)), at(0, 2)),
        (add(both(AND, a(), b()), mask(a(), 2)), n(0), at(0, 3)),
        (times(128, a()), n(0), at(0, 1)),
        (times(64, mask(a(), 254)), n(0), at(1, 1)),
        (variables(8, 0, 5), variables(8, 0, 4), at(0, 16)),
        // variables under a factor of 0 take their place in the index
        (add(times(0, a()), b()), n(0), at(0, 2)),
        (b(), times(0, both(MUL, a(), v(2))), at(0, 2)),
        (mask(v(4), 16), times(0, variables(8, 0, 4)), at(4, 16)),
        // variables that share their low byte
        (v(0), v(256), at(0, 1)),
        (v(256), times(0, v(0)), at(0, 2)),
        (v(65_535), times(0, v(255)), at(0, 2)),
        (mask(v(256), 8), mask(v(512), 8), at(3, 1)),
        // refusals of the two together
        (times(0, half(a())), n(0), refused(13)),
        (a(), half(a()), refused(13)),
        (half(a()), half(a()), refused(13)),
        (unary(SHR, 63, not(a())), n(0), refused(13)),
        (both(AND, a(), unary(SHR, 1, not(a()))), n(0), refused(13)),
        (a(), variable(9, 0), refused(11)),
        (half(variables(8, 0, 1)), variables(9, 0, 6), refused(11)),
        (add(a(), times(0, variables(8, 0, 6))), a(), refused(12)),
        (variables(8, 0, 3), variables(8, 3, 3), refused(12)),
        (variables(8, 0, 6), half(a()), refused(12)),
        (variables(8, 0, 5), times(0, half(a())), refused(13)),
        (
            n(0),
            times(0, add(half(a()), variables(8, 0, 6))),
            refused(12),
        ),
        (variable(9, 0), both(MUL, a(), b()), refused(8)),
        (both(MUL, a(), b()), Records::new(), refused(8)),
        (Records::new(), both(MUL, a(), b()), refused(1)),
    ];
    let made = list
        .iter()
        .map(|(left, right, verdict)| (pair(left, right), *verdict));
    made.collect()
}

/// Files of each refusal and of some that are accepted, every one beside every other one.
fn refusals() -> Vec<Pair> {
    let (a, b) = (|| variable(8, 0), || variable(8, 1));
    let half = |x: Records| unary(SHR, 1, x);
    let trees = [
        vec![],
        vec![Record::new(ADD, 0, 1, 8, 0)],
        literal(65, 0),
        unary(TRUNC, 8, a()),
        unary(SHR, 64, a()),
        binary(MUL, a(), b()),
        chain(a(), &[XOR], 55, |i| i as u64),
        a(),
        add(a(), b()),
        variable(9, 0),
        variables(8, 2, 5),
        half(a()),
        half(variables(9, 0, 1)),
        binary(MUL, literal(8, 0), half(variables(8, 0, 6))),
    ];
    let of = |left: &Records| trees.iter().map(|right| pair(left, right)).collect();
    trees.iter().map(of).collect::<Vec<Vec<Pair>>>().concat()
}

/// Equal shapes, and shapes that differ at the highest place alone, at each width: all of them, or
/// one at each width.
fn every_width(count: usize) -> Vec<Pair> {
    let mut all = Vec::new();
    for w in 1..=64u8 {
        let top = 1 << (w - 1);
        let n = |value: u64| literal(w, value);
        let (a, b) = (|| variable(w, 0), || variable(w, 1));
        let masked = |x: Records, value: u64| binary(AND, x, n(value));
        let ones = u64::MAX >> (64 - w);
        let mut shapes = vec![
            (unary(NOT, 0, a()), add(unary(NEG, 0, a()), n(u64::MAX))),
            (masked(a(), ones), a()),
            (a(), masked(a(), ones - top)),
            (binary(XOR, a(), n(top)), add(a(), n(top))),
            (
                binary(MUL, n(top), binary(OR, a(), b())),
                binary(MUL, n(top), add(a(), b())),
            ),
            (
                binary(OR, masked(a(), top), masked(b(), top)),
                add(masked(a(), top), masked(b(), top)),
            ),
        ];
        if count > 0 {
            shapes = vec![shapes.remove(usize::from(w) % shapes.len())];
        }
        all.extend(shapes.iter().map(|(left, right)| pair(left, right)));
    }
    all
}

/// Files of as many records as there may be on both sides: all of them, or the first `count`.
fn longest(count: usize) -> Vec<Pair> {
    let mut all: Vec<Pair> = shapes_of_most()
        .into_iter()
        .map(|(_, left, right)| pair(&left, &right))
        .collect();
    if count > 0 {
        all.truncate(count);
    }
    all
}

/// By name: the pairs that may take the most stack or time.
pub fn shapes_of_most() -> Vec<(&'static str, Records, Records)> {
    let w = 64;
    let depth = MAX_RECORDS - 2;
    let leaf = |i: usize| variable(w, i as u16 % 5);
    let masked = |i: usize| binary(AND, leaf(i), literal(w, u64::MAX - i as u64));
    let below = |kind: u8| nested(&[kind], depth, leaf(0));
    let atoms = |first: usize| {
        let list: Vec<Records> = (first..first + 255).map(masked).collect();
        sum_of(&list)
    };
    let one_atom = |kind: u8| left_chain(kind, MAX_RECORDS / 2, leaf);
    vec![
        ("nested Not", below(NOT), below(NOT)),
        ("nested Neg", below(NEG), below(NEG)),
        ("nested Shr by 0", below(SHR), below(SHR)),
        ("nested Not beside Neg", below(NOT), below(NEG)),
        (
            "left chain of Add",
            left_chain(ADD, 512, leaf),
            left_chain(ADD, 512, leaf),
        ),
        (
            "right chain of Add",
            right_chain(ADD, 512, leaf),
            right_chain(ADD, 512, leaf),
        ),
        (
            "left chain of Add beside right",
            left_chain(ADD, 512, leaf),
            right_chain(ADD, 512, leaf),
        ),
        ("255 atoms", atoms(0), atoms(0)),
        ("255 atoms, unlike", atoms(0), atoms(1)),
        ("one atom, Xor", one_atom(XOR), one_atom(XOR)),
        ("one atom, And and Or", one_atom(AND), one_atom(OR)),
        (
            "right chain of And",
            right_chain(AND, 512, leaf),
            left_chain(AND, 512, leaf),
        ),
        (
            "nested Shr of a literal",
            nested(&[SHR], depth, literal(w, 5)),
            literal(w, 5),
        ),
        ("nested Not beside a leaf", below(NOT), leaf(0)),
        ("a leaf beside nested Neg", leaf(0), below(NEG)),
    ]
}
