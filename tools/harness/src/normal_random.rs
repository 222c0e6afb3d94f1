//! Random expressions to be normalised, each made so that one part of normalising is often met.

use crate::form::RESULT_BYTES;
use crate::normal_cases::{add, case, Case};
use crate::prng::Prng;
use crate::random::{self, Kinds};
use crate::record::{
    self, binary, literal, unary, variable, Record, Records, ADD, AND, CONSTANT, MAX_RECORDS, MUL,
    NEG, NOT, OR, SHR, VARIABLE, XOR,
};

/// `count` calls on expressions that `make` makes at random widths.
pub fn expressions(
    rng: &mut Prng,
    count: usize,
    make: impl Fn(&mut Prng, u8) -> Records,
) -> Vec<Case> {
    (0..count)
        .map(|_| {
            let w = random::width(rng);
            case(&make(rng, w))
        })
        .collect()
}

pub fn number(rng: &mut Prng, w: u8) -> Records {
    let word = random::word(rng, w);
    literal(w, word)
}

/// A bitwise tree of up to `most` records, with literals and shifts.
pub fn bitwise(rng: &mut Prng, most: usize, w: u8) -> Records {
    let count = 1 + rng.below(most);
    random::expression(rng, count, w, Kinds::Atom)
}

/// A tree without literals and shifts, over the first `variables` of the variables.
pub fn pure(rng: &mut Prng, records: usize, variables: usize, w: u8) -> Records {
    match records {
        1 => variable(w, rng.below(variables) as u16),
        2 => unary(NOT, 0, pure(rng, 1, variables, w)),
        _ if rng.one_in(3) => unary(NOT, 0, pure(rng, records - 1, variables, w)),
        _ => {
            let left = 1 + rng.below(records - 2);
            let first = pure(rng, left, variables, w);
            let second = pure(rng, records - 1 - left, variables, w);
            binary(rng.pick(&[AND, OR, XOR]), first, second)
        }
    }
}

/// A tree without variables and, half of the time, without Add, Mul and Neg.
pub fn constant(rng: &mut Prng, most: usize, w: u8) -> Records {
    let count = 1 + rng.below(most);
    let kinds = match rng.one_in(2) {
        true => Kinds::Atom,
        false => Kinds::Accepted,
    };
    let mut tree = random::expression(rng, count, w, kinds);
    for record in &mut tree {
        if record.kind == VARIABLE {
            *record = Record::new(CONSTANT, 0, 1, w, random::word(rng, w));
        }
    }
    tree
}

/// The two in either order.
pub fn either(rng: &mut Prng, kind: u8, first: Records, second: Records) -> Records {
    match rng.one_in(2) {
        true => binary(kind, first, second),
        false => binary(kind, second, first),
    }
}

/// The tree as a term: itself, its negative, or times a number.
pub fn weighted(rng: &mut Prng, tree: Records, w: u8) -> Records {
    match rng.below(6) {
        0 | 1 => tree,
        2 => unary(NEG, 0, tree),
        _ => {
            let factor = number(rng, w);
            either(rng, MUL, factor, tree)
        }
    }
}

/// A sum of the terms, in a chain or two by two.
pub fn sum(rng: &mut Prng, mut terms: Vec<Records>) -> Records {
    while terms.len() > 1 {
        let at = match rng.one_in(2) {
            true => 0,
            false => rng.below(terms.len() - 1),
        };
        let left = terms.remove(at);
        let right = terms.remove(at);
        terms.insert(at, add(left, right));
    }
    terms.remove(0)
}

/// Sums of weighted atoms, some of them met again as they are or with the children exchanged.
pub fn sums(rng: &mut Prng, count: usize) -> Vec<Case> {
    expressions(rng, count, |rng, w| {
        let mut atoms: Vec<Records> = Vec::new();
        let mut terms = Vec::new();
        for _ in 0..2 + rng.below(9) {
            let atom = match rng.below(8) {
                0 | 1 if !atoms.is_empty() => atoms[rng.below(atoms.len())].clone(),
                2 => variable(w, u16::from(rng.byte() % 8)),
                3 | 4 => {
                    let records = 1 + rng.below(6);
                    pure(rng, records, 3, w)
                }
                5 => number(rng, w),
                _ => bitwise(rng, 7, w),
            };
            atoms.push(atom.clone());
            let term = match rng.below(10) {
                0 if terms.len() > 1 => {
                    let inner = add(terms.pop().expect("a term"), atom);
                    weighted(rng, inner, w)
                }
                _ => weighted(rng, atom, w),
            };
            terms.push(term);
        }
        sum(rng, terms)
    })
}

/// Any expression of 1 to 40 records.
pub fn any(rng: &mut Prng, count: usize) -> Vec<Case> {
    expressions(rng, count, |rng, w| {
        let records = 1 + rng.below(40);
        random::expression(rng, records, w, Kinds::Accepted)
    })
}

/// Sums of trees over one to seven variables, many of them of one truth table.
pub fn tables(rng: &mut Prng, count: usize) -> Vec<Case> {
    expressions(rng, count, |rng, w| {
        let variables = 1 + rng.below(7);
        let most = rng.pick(&[3, 5, 9, 21]);
        let mut terms = Vec::new();
        for _ in 0..2 + rng.below(8) {
            let records = 1 + rng.below(most);
            let mut tree = pure(rng, records, variables, w);
            match rng.below(12) {
                0 => tree = unary(SHR, rng.pick(&[0, 1]), tree),
                1 => tree = unary(NOT, 0, unary(NOT, 0, tree)),
                2 => {
                    let mask = literal(w, u64::MAX);
                    tree = either(rng, AND, tree, mask);
                }
                _ => {}
            }
            terms.push(weighted(rng, tree, w));
        }
        sum(rng, terms)
    })
}

/// Or, Xor and And of Not with constants on either side, one in another, and what they leave.
pub fn lowering(rng: &mut Prng, count: usize) -> Vec<Case> {
    expressions(rng, count, |rng, w| {
        let mut terms = Vec::new();
        for _ in 0..1 + rng.below(4) {
            let mut tree = match rng.below(3) {
                0 => variable(w, u16::from(rng.byte() % 4)),
                1 => pure(rng, 3, 2, w),
                _ => bitwise(rng, 5, w),
            };
            for _ in 0..rng.below(5) {
                let mask = match rng.one_in(4) {
                    true => bitwise_constant(rng, w),
                    false => number(rng, w),
                };
                tree = match rng.below(6) {
                    0 | 1 => either(rng, XOR, tree, mask),
                    2 | 3 => either(rng, OR, tree, mask),
                    4 => either(rng, AND, unary(NOT, 0, tree), mask),
                    _ => unary(rng.pick(&[NOT, SHR]), 0, tree),
                };
                // a term like those that lowering makes
                if rng.one_in(4) {
                    let word = random::word(rng, w);
                    let masked = binary(AND, tree.clone(), literal(w, word));
                    terms.push(masked);
                }
            }
            terms.push(weighted(rng, tree, w));
        }
        sum(rng, terms)
    })
}

/// A tree without variables, Add, Mul and Neg.
fn bitwise_constant(rng: &mut Prng, w: u8) -> Records {
    let mut tree = bitwise(rng, 5, w);
    for record in &mut tree {
        if record.kind == VARIABLE {
            *record = Record::new(CONSTANT, 0, 1, w, random::word(rng, w));
        }
    }
    tree
}

/// Sums times constants, in one another, with factors that are 0 modulo 2^w.
pub fn products(rng: &mut Prng, count: usize) -> Vec<Case> {
    expressions(rng, count, |rng, w| {
        let mut tree = bitwise(rng, 5, w);
        for _ in 0..1 + rng.below(5) {
            tree = match rng.below(4) {
                0 => {
                    let other = bitwise(rng, 5, w);
                    either(rng, ADD, tree, other)
                }
                1 => unary(NEG, 0, tree),
                _ => {
                    let factor = match rng.below(4) {
                        0 => constant(rng, 5, w),
                        1 => literal(w, 1 << rng.below(64)),
                        _ => number(rng, w),
                    };
                    either(rng, MUL, factor, tree)
                }
            };
        }
        tree
    })
}

/// Constant trees as terms, factors, masks and operands, most of them with sums in them.
pub fn constants(rng: &mut Prng, count: usize) -> Vec<Case> {
    expressions(rng, count, |rng, w| {
        let inner = constant(rng, 9, w);
        let other = bitwise(rng, 5, w);
        let kind = rng.pick(&[ADD, MUL, AND, OR, XOR]);
        let tree = either(rng, kind, inner, other);
        match rng.below(4) {
            0 => unary(rng.pick(&[NOT, NEG, SHR]), 0, tree),
            1 => binary(MUL, literal(w, 0), tree),
            2 => {
                let outer = constant(rng, 5, w);
                either(rng, MUL, outer, tree)
            }
            _ => tree,
        }
    })
}

/// Products of variables, and bitwise operators over sums, below sums, factors and factors of 0.
pub fn nonlinear(rng: &mut Prng, count: usize) -> Vec<Case> {
    expressions(rng, count, |rng, w| {
        let x = variable(w, u16::from(rng.byte() % 4));
        let y = variable(w, u16::from(rng.byte() % 4));
        let sum_of_two = add(x.clone(), y.clone());
        let mask = number(rng, w);
        let mut tree = match rng.below(8) {
            0 => binary(MUL, x, y),
            1 => unary(NOT, 0, sum_of_two),
            2 => unary(SHR, 1, sum_of_two),
            3 => either(rng, AND, sum_of_two, mask),
            4 => either(rng, XOR, sum_of_two, x),
            5 => either(rng, OR, unary(NEG, 0, x), mask),
            6 => unary(SHR, 0, binary(MUL, literal(w, 0), x)),
            _ => binary(MUL, binary(MUL, x, literal(w, 0)), y),
        };
        for _ in 0..rng.below(4) {
            tree = match rng.below(3) {
                0 => {
                    let other = bitwise(rng, 5, w);
                    either(rng, ADD, tree, other)
                }
                _ => weighted(rng, tree, w),
            };
        }
        tree
    })
}

/// Expressions over all kinds, and bitwise ones with shift counts up to 255.
pub fn casts(rng: &mut Prng, count: usize) -> Vec<Case> {
    expressions(rng, count, |rng, w| {
        let tree = match rng.one_in(2) {
            true => {
                let records = 2 + rng.below(12);
                random::expression(rng, records, w, Kinds::All)
            }
            false => unary(SHR, rng.byte(), bitwise(rng, 5, w)),
        };
        let other = constant(rng, 4, w);
        either(rng, ADD, tree, other)
    })
}

/// Damaged copies of expressions that are mostly accepted.
pub fn damaged(rng: &mut Prng, count: usize) -> Vec<Case> {
    let mut all = sums(rng, count);
    for one in &mut all {
        one.file = random::damaged(rng, &one.file);
    }
    all
}

/// Result slices of other lengths beside valid and damaged files, and files of other lengths.
pub fn lengths(rng: &mut Prng, count: usize) -> Vec<Case> {
    let mut all = sums(rng, count);
    let longest = MAX_RECORDS * record::RECORD_BYTES;
    for one in &mut all {
        one.length = match rng.below(4) {
            0 => rng.pick(&[0, 1, 15, 16, 57_344, 57_359, 57_361, 57_375, 57_376]),
            1 => rng.below(RESULT_BYTES + 16),
            _ => RESULT_BYTES,
        };
        match rng.below(4) {
            0 => one.file = random::damaged(rng, &one.file),
            1 => {
                let size = rng.pick(&[0, 1, 15, 17, 31, longest - 16, longest, longest + 16]);
                one.file.resize(size, 0);
            }
            _ => {}
        }
    }
    all
}
