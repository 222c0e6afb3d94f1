//! Trees of a wanted structural hash. A literal is hashed by an odd factor, and each step of
//! `structural_hash` can be undone for its last child, so that a literal at the end of the right
//! children can be chosen to give any hash.

use crate::normal_cases::Case;
use crate::normal_random::{either, expressions, number, sum, weighted};
use crate::prng::Prng;
use crate::published;
use crate::record::{
    arity, binary, literal, unary, variable, Record, Records, AND, CONSTANT, NOT, OR, SHR, XOR,
};

/// The odd factor of literals and shift counts, which is also added at each step.
const FACTOR: u64 = 0x9E37_79B9_7F4A_7C15;

/// The tree with another literal at the end of its right children, so that it has the hash `wanted`.
/// Its last leaf must be a literal.
pub fn with_hash(mut tree: Records, wanted: u64) -> Records {
    let mut end = tree.len();
    let mut wanted = wanted;
    while tree[end - 1].kind != CONSTANT {
        wanted = child_hash(&tree[..end], wanted);
        end -= 1;
    }
    tree[end - 1].literal = wanted.wrapping_mul(inverse(FACTOR));
    tree
}

/// The hash that the last child must have for the whole to have the hash `wanted`.
fn child_hash(tree: &[Record], wanted: u64) -> u64 {
    let root = tree[tree.len() - 1];
    let mut before = u64::from(root.kind);
    if root.kind == SHR {
        before ^= u64::from(root.arg).wrapping_mul(FACTOR);
    }
    if arity(root.kind) == 2 {
        let right = usize::from(tree[tree.len() - 2].size);
        let left = &tree[..tree.len() - 1 - right];
        before ^= published::hash(left).wrapping_add(added(before));
    }
    (wanted ^ before).wrapping_sub(added(before))
}

/// What `structural_hash` adds to the hash of a child.
fn added(before: u64) -> u64 {
    FACTOR.wrapping_add(before << 6).wrapping_add(before >> 2)
}

/// The number that gives 1 with an odd factor, modulo 2^64: each step doubles the bits that hold.
fn inverse(factor: u64) -> u64 {
    (0..6).fold(factor, |x, _| {
        x.wrapping_mul(2u64.wrapping_sub(factor.wrapping_mul(x)))
    })
}

/// Unlike trees of one hash, mostly over the same variables, met in every order.
pub fn collisions(rng: &mut Prng, count: usize) -> Vec<Case> {
    collisions_over(rng, count, |_| (0..8).collect())
}

/// The same over the first of the variables that `choose` gives, which are eight.
pub fn collisions_over(
    rng: &mut Prng,
    count: usize,
    choose: fn(&mut Prng) -> Vec<u16>,
) -> Vec<Case> {
    expressions(rng, count, |rng, w| {
        let numbers = choose(rng);
        let variables = rng.pick(&[1, 2, 2, 2, 3, 6, 7]);
        let first = all_variables(rng, &numbers, variables, w);
        let first = match rng.below(4) {
            0 => first,
            1 => unary(SHR, rng.byte() % 3, first),
            _ => {
                let mask = number(rng, w);
                binary(AND, first, mask)
            }
        };
        let hash = published::hash(&first);
        let mut trees = vec![first];
        for _ in 0..1 + rng.below(3) {
            let over = match rng.one_in(8) {
                true => variables + 1,
                false => variables,
            };
            let tree = all_variables(rng, &numbers, over, w);
            let mut tree = binary(AND, tree, literal(w, 0));
            if rng.one_in(3) {
                tree = unary(rng.pick(&[NOT, SHR]), 0, tree);
            }
            trees.push(with_hash(tree, hash));
        }
        let terms = (0..2 + rng.below(5))
            .map(|i| {
                let at = match i < trees.len() {
                    true => i,
                    false => rng.below(trees.len()),
                };
                let tree = trees[at].clone();
                match rng.one_in(3) {
                    true => weighted(rng, tree, w),
                    false => tree,
                }
            })
            .collect();
        sum(rng, terms)
    })
}

/// A bitwise tree over exactly the first `count` of the variables.
fn all_variables(rng: &mut Prng, numbers: &[u16], count: usize, w: u8) -> Records {
    let first = rng.below(count);
    let kinds = [AND, OR, XOR];
    (1..count).fold(variable(w, numbers[first]), |tree, i| {
        let leaf = variable(w, numbers[(first + i) % count]);
        let kind = rng.pick(&kinds);
        either(rng, kind, tree, leaf)
    })
}
