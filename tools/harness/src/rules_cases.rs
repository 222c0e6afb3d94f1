//! Calls of normalising by rules (request #109): worked tangles, random ones (rules_random.rs),
//! tables that are full under one of the rules alone, the deepest files, those of normalising, and
//! other numbers than those of rules.

use crate::collide;
use crate::family::{family, Family};
use crate::form::RESULT_BYTES;
use crate::normal_cases as normal;
use crate::normal_limits::chain;
use crate::prng::Prng;
use crate::published;
use crate::record::{
    balanced, binary, bytes, left_chain, literal, nested, right_chain, unary, variable, Record,
    Records, ADD, AND, MAX_RECORDS, MUL, NEG, NOT, OR, SHR, TRUNC, XOR,
};
use crate::rules_model::{FIRST, SECOND};
use crate::rules_random as random_cases;
use crate::{number_cases, sum_cases};

/// A call: the number of the rules, the bytes of an expression, valid or not, and the length of the
/// result slice.
#[derive(Clone)]
pub struct Case {
    pub rules: u64,
    pub file: Vec<u8>,
    pub length: usize,
}

/// Families of tangles for rules 2.
pub const FAMILIES: [Family<normal::Case>; 7] = [
    family("rules 2, worked", 0, 0, |_, _| normal::cases(worked())),
    family("rules 2, limits", 0, 0, |_, _| normal::cases(limits())),
    family("rules 2, deep", 0, 4, |_, n| deep(n)),
    family("Not over sums", 80_000, 160, random_cases::tangles),
    family("Not over sums, small", 30_000, 60, random_cases::small),
    family("nested Nots", 8_000, 12, random_cases::nested),
    family("tables below Not", 800, 2, random_cases::tables),
];

/// Every so many of the stored cases of a family of normalising are stored under rules 2.
const STORED_EVERY: usize = 16;
/// Longer files of these families are not stored again.
const STORED_BYTES: usize = 1024;

/// Every so many of the calls with result slices of other lengths are stored.
const OTHERS_EVERY: usize = 7;

/// Numbers that are no rules.
pub const OTHERS: [u64; 8] = [
    0,
    3,
    18,
    257,
    (1 << 32) + 1,
    (1 << 32) + 2,
    1 << 63,
    u64::MAX,
];

pub fn under(rules: u64, case: normal::Case) -> Case {
    Case {
        rules,
        file: case.file,
        length: case.length,
    }
}

/// The families of normalising.
pub fn normalising() -> impl Iterator<Item = &'static Family<normal::Case>> {
    let families = normal::FAMILIES.iter().chain(&number_cases::NORMAL);
    families.chain(&sum_cases::NORMAL)
}

/// All that is stored: tangles under rules 2, the worked ones of 8 bits under rules 1 too, short
/// ones of the families of normalising, and other numbers.
pub fn stored(rng: &mut Prng) -> Vec<Case> {
    let mut all = Vec::new();
    for family in &FAMILIES {
        let made = (family.make)(rng, family.stored).into_iter();
        all.extend(made.map(|case| under(SECOND, case)));
    }
    let again = normal::cases(shapes(8)).into_iter();
    all.extend(again.map(|case| under(FIRST, case)));
    for family in normalising() {
        let made = (family.make)(rng, family.stored).into_iter();
        let short = made.filter(|case| case.file.len() <= STORED_BYTES);
        let some = short.step_by(STORED_EVERY);
        all.extend(some.map(|case| under(SECOND, case)));
    }
    all.extend(others());
    all
}

/// The request's examples and others of each rule, at 8 bits, and the same shapes at other widths.
pub fn worked() -> Vec<Records> {
    [8, 1, 2, 63, 64].into_iter().flat_map(shapes).collect()
}

fn shapes(w: u8) -> Vec<Records> {
    let n = |value: u64| literal(w, value);
    let (a, b) = (|| variable(w, 0), || variable(w, 1));
    let not = |x: Records| unary(NOT, 0, x);
    let neg = |x: Records| unary(NEG, 0, x);
    let half = |x: Records| unary(SHR, 1, x);
    let both = |kind: u8, x: Records, y: Records| binary(kind, x, y);
    let sum = || both(ADD, a(), b());
    let three = || both(ADD, n(1), n(2));
    let product = || both(MUL, a(), b());
    vec![
        // literals
        both(XOR, a(), neg(n(1))),
        both(AND, a(), n(271)),
        both(ADD, both(AND, a(), n(271)), both(AND, a(), n(15))),
        both(AND, a(), n(u64::MAX)),
        both(OR, n(u64::MAX), a()),
        both(XOR, a(), both(AND, n(3), three())),
        both(AND, three(), both(OR, b(), neg(n(3)))),
        both(AND, a(), half(three())),
        both(AND, a(), half(not(n(271)))),
        both(AND, not(a()), neg(n(241))),
        half(both(AND, a(), three())),
        both(AND, half(a()), both(MUL, n(3), n(5))),
        both(AND, a(), both(AND, n(271), not(n(3)))),
        both(
            ADD,
            both(AND, a(), n(3)),
            both(AND, a(), both(OR, n(1), n(2))),
        ),
        // no bitwise operator above them
        n(271),
        both(MUL, n(271), a()),
        both(ADD, three(), a()),
        half(three()),
        half(a()),
        // Nots that stay
        not(a()),
        not(not(a())),
        not(both(AND, three(), a())),
        not(both(XOR, a(), neg(n(1)))),
        not(half(not(a()))),
        not(n(5)),
        not(three()),
        // Nots over sums
        not(sum()),
        not(both(ADD, not(a()), b())),
        not(both(MUL, n(3), a())),
        not(neg(a())),
        neg(not(neg(a()))),
        not(not(both(ADD, a(), n(1)))),
        not(not(not(sum()))),
        not(both(ADD, a(), three())),
        not(both(ADD, both(AND, a(), three()), not(neg(b())))),
        not(both(MUL, not(three()), not(sum()))),
        both(MUL, n(3), not(sum())),
        both(ADD, not(sum()), not(both(XOR, a(), b()))),
        not(both(MUL, n(0), product())),
        both(MUL, n(0), not(product())),
        not(both(MUL, n(0), half(sum()))),
        both(MUL, not(neg(n(1))), not(product())),
        // still not linear
        both(AND, a(), not(both(ADD, b(), n(1)))),
        not(product()),
        both(AND, not(sum()), n(15)),
        half(not(sum())),
        not(half(neg(a()))),
        both(XOR, sum(), three()),
        both(OR, both(MUL, n(0), a()), n(3)),
    ]
}

/// A sum of the list, balanced.
fn sum_of(list: &[Records]) -> Records {
    balanced(ADD, 0, list.len(), &|i| list[i].clone())
}

/// `a & 15`, `a & 271` and so on: so many masks that are one at 8 bits.
pub fn one_mask(count: usize) -> Vec<Records> {
    let mask = |k: u64| literal(8, 15 + 256 * k);
    (0..count as u64)
        .map(|k| binary(AND, variable(8, 0), mask(k)))
        .collect()
}

/// So many atoms under rules 2: variables, and ten terms, by turns of two unlike trees that have
/// one hash once `L | 0` is the literal L. As they are given the ten share two atoms.
pub fn by_turns(atoms: usize) -> Vec<Records> {
    const TURNS: usize = 10;
    let (a, zero) = (|| variable(64, 0), || literal(64, 0));
    let first = binary(AND, a(), literal(64, 7));
    let shifted = || unary(SHR, 0, a());
    let second = collide::with_hash(binary(AND, shifted(), zero()), published::hash(&first));
    let mask = vec![second[second.len() - 2]];
    let second = binary(AND, shifted(), binary(OR, mask, zero()));
    let variables = (1..=atoms - TURNS).map(|i| variable(64, i as u16));
    let turns = (0..TURNS).map(|i| [&first, &second][i % 2].clone());
    variables.chain(turns).collect()
}

/// Tables that are full under one of the rules alone, or under both.
fn limits() -> Vec<Records> {
    let (w, word) = (8, |i: usize| i as u64);
    let v = |i: usize| variable(w, i as u16);
    let not = |x: Records| unary(NOT, 0, x);
    let sum_of_variables = |count: usize| balanced(ADD, 0, count, &v);
    let too_many = || chain(v(0), &[XOR], 55, word);
    let long_mask = |kinds: &[u8]| {
        let mask = nested(kinds, 799, literal(w, 15));
        chain(binary(AND, v(0), mask), &[XOR], 3, word)
    };
    vec![
        // as they are given
        sum_of(&one_mask(255)),
        sum_of(&one_mask(256)),
        sum_of(&[one_mask(255), vec![v(1), v(2)]].concat()),
        long_mask(&[NOT]),
        long_mask(&[NOT, NEG]),
        // as they are rewritten
        not(sum_of_variables(256)),
        not(sum_of_variables(257)),
        not(binary(ADD, too_many(), literal(w, 1))),
        sum_of(&by_turns(256)),
        sum_of(&by_turns(257)),
        // under both, and under a factor of 0
        too_many(),
        not(binary(MUL, literal(w, 0), too_many())),
    ]
}

/// The longest files, of which the first is the one that is rewritten to the most records: all of
/// them, or the first `count`.
fn deep(count: usize) -> Vec<normal::Case> {
    let depth = MAX_RECORDS - 1;
    let v = |i: usize| variable(8, i as u16 % 5);
    let not = |x: Records| unary(NOT, 0, x);
    let n = |value: usize| literal(8, value as u64);
    let turns = |tree: Records, make: &dyn Fn(Records) -> Records| {
        (0..depth / 3).fold(tree, |tree, _| not(make(tree)))
    };
    let masked = |i: usize| match i % 2 {
        0 => v(i),
        _ => n(255 + i),
    };
    let mut all = vec![
        nested_nots(8, depth - 1),
        nested(&[NEG, NOT], depth, v(0)),
        nested(&[NOT], depth, v(0)),
        binary(AND, v(0), nested(&[NEG, NOT], depth - 2, n(3))),
        nested_nots(8, depth - 2),
        nested_nots(8, 512),
        nested(&[NOT, NEG], depth, v(0)),
        nested(&[NOT, NEG], depth, n(3)),
        nested(&[NOT, SHR], depth, v(0)),
        not(nested(&[NEG], depth - 1, v(0))),
        not(left_chain(ADD, 511, v)),
        not(right_chain(ADD, 511, v)),
        turns(v(0), &|tree| binary(ADD, tree, v(1))),
        turns(v(0), &|tree| binary(ADD, v(1), tree)),
        turns(v(0), &|tree| binary(MUL, tree, n(3))),
        turns(n(5), &|tree| binary(XOR, n(3), tree)),
    ];
    for kind in [AND, OR, XOR] {
        all.push(left_chain(kind, 512, masked));
        all.push(right_chain(kind, 512, masked));
    }
    if count > 0 {
        all.truncate(count);
    }
    normal::cases(all)
}

/// So many Nots over `-a`.
pub fn nested_nots(w: u8, count: usize) -> Records {
    nested(&[NOT], count, unary(NEG, 0, variable(w, 0)))
}

/// Files of each refusal and accepted ones, with result slices of the right length and of others,
/// by each of the rules and by other numbers.
pub fn numbered() -> Vec<Case> {
    let rules = [&[FIRST, SECOND], &OTHERS[..]].concat();
    let lengths = [RESULT_BYTES, 0, 1, 57_344, 57_359, 57_361, 57_376];
    let mut all = Vec::new();
    for length in lengths {
        for &rules in &rules {
            all.extend(of_each_refusal().into_iter().map(|file| Case {
                rules,
                file,
                length,
            }));
        }
    }
    all
}

/// Files that are accepted by both rules, by rules 2 alone and by none.
fn of_each_refusal() -> Vec<Vec<u8>> {
    let (a, b) = (|| variable(8, 0), || variable(8, 1));
    let trees = [
        binary(XOR, a(), literal(8, 271)),
        unary(NOT, 0, binary(ADD, a(), b())),
        vec![],
        vec![Record::new(ADD, 0, 1, 8, 0)],
        literal(65, 0),
        unary(TRUNC, 8, a()),
        unary(SHR, 64, a()),
        binary(MUL, a(), b()),
        chain(a(), &[XOR], 55, |i| i as u64),
    ];
    trees.iter().map(|tree| bytes(tree)).collect()
}

/// Those of `numbered` that are stored: all with a result slice of the right length, and some of
/// the others.
fn others() -> Vec<Case> {
    let right = |case: &Case| case.length == RESULT_BYTES;
    let (mut all, others): (Vec<Case>, Vec<Case>) = numbered().into_iter().partition(right);
    all.extend(others.into_iter().step_by(OTHERS_EVERY));
    all
}
