//! Expressions whose atom table is nearly full or too full, and the deepest ones.

use crate::form::{MAX_ATOMS, MAX_TREE_RECORDS};
use crate::normal_cases::{add, case, cases, Case};
use crate::prng::Prng;
use crate::random;
use crate::record::{
    balanced, binary, left_chain, literal, nested, right_chain, unary, variable, Records, ADD, AND,
    MAX_RECORDS, MUL, NEG, NOT, OR, SHR, XOR,
};

/// `x` with `count` literals one after the other, by turns of the kinds, the literal right in the
/// first and left in every third.
pub fn chain(x: Records, kinds: &[u8], count: usize, word: impl Fn(usize) -> u64) -> Records {
    let w = x[0].width;
    (0..count).fold(x, |tree, i| {
        let (kind, mask) = (kinds[i % kinds.len()], literal(w, word(i)));
        match i % 3 {
            2 => binary(kind, mask, tree),
            _ => binary(kind, tree, mask),
        }
    })
}

/// Chains of Xor and Or with literals. Those of n literals over one variable make (n + 1)² tree
/// records: 54 are accepted, 55 are not.
pub fn chains(rng: &mut Prng, count: usize) -> Vec<Case> {
    (0..count)
        .map(|_| {
            let w = random::width(rng);
            let leaf = match rng.below(5) {
                0 => unary(SHR, rng.byte() % 2, variable(w, 1)),
                1 => unary(NOT, 0, variable(w, 2)),
                2 => binary(AND, variable(w, 0), variable(w, 1)),
                _ => variable(w, u16::from(rng.byte())),
            };
            let kinds = rng.pick(&[[XOR, XOR], [OR, OR], [XOR, OR]]);
            let length = match rng.below(4) {
                0 => 1 + rng.below(12),
                1 => 45 + rng.below(9),
                2 => rng.pick(&[53, 54, 55]),
                _ => 55 + rng.below(12),
            };
            let word = random::word(rng, w);
            let step = rng.word() | 1;
            case(&chain(leaf, &kinds, length, |i| {
                word.wrapping_add(step.wrapping_mul(i as u64))
            }))
        })
        .collect()
}

/// The longest files: nested unary records, and chains of sums.
pub fn deep() -> Vec<Case> {
    let depth = MAX_RECORDS - 1;
    let leaf = |i: usize| variable(8, i as u16 % 256);
    let halves = nested(&[NEG], depth / 2, nested(&[NOT], depth / 2, leaf(0)));
    cases(vec![
        nested(&[NEG], depth, leaf(0)),
        nested(&[NEG], depth - 1, leaf(0)),
        nested(&[NOT], depth, leaf(0)),
        nested(&[SHR], depth, leaf(0)),
        nested(&[NOT, SHR], depth, leaf(0)),
        nested(&[NEG, NOT], depth, leaf(0)),
        nested(&[NEG, NOT], depth, literal(8, 3)),
        nested(&[NEG], depth, literal(8, 3)),
        halves,
        left_chain(ADD, 512, leaf),
        right_chain(ADD, 512, leaf),
        balanced(ADD, 0, 512, &leaf),
        left_chain(AND, 512, leaf),
        right_chain(XOR, 512, leaf),
        left_chain(AND, 512, |i| variable(8, i as u16 % 256 % 5)),
        right_chain(OR, 512, |i| variable(8, i as u16 % 256 % 5)),
        left_chain(MUL, 512, |i| match i {
            0 => variable(8, 0),
            _ => literal(8, 3),
        }),
    ])
}

/// The variables 0 to `count` - 1, and shifted variables from 256 on.
fn atom(w: u8, number: usize) -> Records {
    let leaf = variable(w, number as u16 % 256);
    match number / MAX_ATOMS {
        0 => leaf,
        shift => unary(SHR, shift as u8, leaf),
    }
}

/// The sum of `count` atoms.
fn atoms_sum(w: u8, count: usize) -> Records {
    balanced(ADD, 0, count, &|i| atom(w, i))
}

/// A chain of `count` literals over a leaf, and as many other atoms as give `total` tree records.
fn records_sum(w: u8, leaf: Records, kind: u8, count: usize, total: usize) -> Records {
    let size = leaf.len();
    let made = (count + 1) * size + count * (count + 1);
    let whole = chain(leaf, &[kind], count, |i| 1 + i as u64);
    (0..total.saturating_sub(made)).fold(whole, |sum, i| add(sum, variable(w, 255 - i as u16)))
}

/// Tables at their limits: 255 to 257 atoms, also with one that is not used, with a product of
/// variables behind them and under a factor; 3,071 to 3,073 tree records; 54 and 55 nested Xor.
pub fn edges() -> Vec<Case> {
    let mut all = Vec::new();
    let w = 8;
    let product = || binary(MUL, variable(w, 0), variable(w, 1));
    all.push(atoms_sum(w, 255));
    for count in [256, 257] {
        let sum = || atoms_sum(w, count);
        let last = || unary(NEG, 0, atom(w, count - 1));
        all.extend([
            sum(),
            add(sum(), last()),
            add(sum(), product()),
            add(product(), sum()),
            add(sum(), binary(MUL, literal(w, 0), product())),
            binary(MUL, literal(w, 0), sum()),
            binary(MUL, sum(), literal(w, 256)),
            binary(MUL, sum(), literal(w, 3)),
            add(sum(), literal(w, 7)),
        ]);
    }
    for total in 3071..=3073 {
        all.push(records_sum(w, variable(w, 0), XOR, 54, total));
        all.push(records_sum(w, variable(w, 0), OR, 53, total));
        let big = left_chain(AND, 382, |i| variable(w, i as u16 % 256 % 7));
        all.push(records_sum(w, big, XOR, 3, total));
    }
    for count in [54, 55] {
        for kind in [XOR, OR] {
            all.push(chain(variable(w, 0), &[kind], count, |i| i as u64));
        }
    }
    // with one literal throughout, and at one bit, where Xor makes no And
    all.push(chain(variable(w, 0), &[XOR], 60, |_| 1));
    all.push(chain(variable(1, 0), &[XOR], 60, |i| i as u64));
    all.push(chain(variable(1, 0), &[OR], 55, |i| i as u64));
    cases(all)
}

/// Sums that make about 256 atoms of different kinds, some of them unused.
pub fn atoms(rng: &mut Prng, count: usize) -> Vec<Case> {
    (0..count)
        .map(|_| {
            let w = random::width(rng);
            let wanted = rng.pick(&[250, 254, 255, 256, 257, 257, 258, 260]);
            let sum = many_atoms(rng, wanted, w);
            let sum = match rng.below(8) {
                0 => add(sum, binary(MUL, variable(w, 3), variable(w, 4))),
                1 => unary(NEG, 0, sum),
                _ => sum,
            };
            case(&sum)
        })
        .collect()
}

/// A sum that makes `wanted` atoms at most widths: at one bit Xor makes one and not two.
fn many_atoms(rng: &mut Prng, wanted: usize, w: u8) -> Records {
    let mut terms = Vec::new();
    let (mut made, mut number) = (0, 0);
    while made < wanted {
        let leaf = variable(w, number as u16 % 256);
        // each variable is taken once in each round
        let round = 1 + (number / 256) as u8;
        let (term, atoms) = match rng.below(6) {
            0 if made + 2 <= wanted && round == 1 => {
                let mask = literal(w, random::word(rng, w));
                (binary(rng.pick(&[XOR, OR]), leaf, mask), 2)
            }
            1 if round == 1 => (unary(NOT, 0, leaf), 1),
            2 => (unary(SHR, round, leaf), 1),
            _ if round == 1 => (leaf, 1),
            _ => (unary(SHR, round, leaf), 1),
        };
        // a term that takes another away, so that its atom is unused
        if rng.one_in(16) && round == 1 && terms.len() < 200 {
            terms.push(unary(NEG, 0, term.clone()));
        }
        terms.push(term);
        made += atoms;
        number += 1;
    }
    let last = terms.len();
    balanced(ADD, 0, last, &|i| terms[i].clone())
}

/// Chains over larger leaves that make about 3,072 tree records.
pub fn tree_records(rng: &mut Prng, count: usize) -> Vec<Case> {
    (0..count)
        .map(|_| {
            let w = random::width(rng);
            let length = 4 + rng.below(50);
            let own = length * (length + 1);
            let size = ((MAX_TREE_RECORDS - own) / (length + 1)).max(1);
            let leaf = big_leaf(rng, size, w);
            let made = (length + 1) * leaf.len() + own;
            let total = MAX_TREE_RECORDS + rng.below(5) - 2;
            let mut sum = chain(leaf, &[rng.pick(&[XOR, OR])], length, |i| 1 + 2 * i as u64);
            for i in 0..total.saturating_sub(made) {
                let extra = variable(w, 255 - i as u16);
                sum = match rng.one_in(2) {
                    true => add(sum, extra),
                    false => add(extra, sum),
                };
            }
            case(&sum)
        })
        .collect()
}

/// A bitwise tree of `size` records that is no Not: nested shifts, or a chain of And.
fn big_leaf(rng: &mut Prng, size: usize, w: u8) -> Records {
    let variables = 1 + rng.below(7);
    let leaf = |i: usize| variable(w, (i % variables) as u16);
    match rng.below(3) {
        0 => nested(&[SHR], size - 1, leaf(0)),
        1 => nested(
            &[SHR],
            (size - 1) % 2,
            left_chain(AND, size.div_ceil(2), leaf),
        ),
        _ => nested(
            &[SHR],
            (size - 1) % 2,
            right_chain(XOR, size.div_ceil(2), leaf),
        ),
    }
}

/// Too many atoms or records, or a product of variables, under a factor that is 0 modulo 2^w.
pub fn zero_factor(rng: &mut Prng, count: usize) -> Vec<Case> {
    (0..count)
        .map(|_| {
            let w = random::width(rng);
            let whole = match rng.below(4) {
                0 => many_atoms(rng, 257, w),
                1 => chain(variable(w, 0), &[XOR], 55 + rng.below(20), |i| i as u64),
                2 => binary(MUL, variable(w, 0), variable(w, 1)),
                _ => unary(NOT, 0, add(variable(w, 0), literal(w, 1))),
            };
            let zero = literal(w, 0);
            let whole = match (rng.below(4), w) {
                (0, _) => binary(MUL, zero, whole),
                (1, _) => binary(MUL, whole, zero),
                (2, 1..=63) => binary(MUL, literal(w, 1 << w), whole),
                _ => {
                    let half = literal(w, 1 << (w / 2));
                    let other = literal(w, 1 << (w - w / 2).min(63));
                    binary(MUL, half, binary(MUL, whole, other))
                }
            };
            case(&add(variable(w, 9), whole))
        })
        .collect()
}
