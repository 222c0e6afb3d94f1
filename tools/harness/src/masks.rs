//! Inputs of `reduce_mask`, `can_change_mask_to` and `can_change_coefficient_to`.

use crate::entry::{CHANGE_COEFFICIENT, CHANGE_MASK, REDUCE_MASK};
use crate::prng::Prng;

/// One call: the entry type, three numbers in the order of the function's parameters (the third 0
/// for `reduce_mask`), and the width.
#[derive(Clone, Copy, Debug)]
pub struct Call {
    pub kind: u8,
    pub numbers: [u64; 3],
    pub w: u32,
}

pub const WIDTHS: [u32; 9] = [0, 1, 7, 8, 63, 64, 65, 100, u32::MAX];

/// The calls with numbers at the edges of each width.
pub fn edges() -> Vec<Call> {
    let mut calls = Vec::new();
    for w in WIDTHS {
        edge_calls(w, &mut calls);
    }
    calls
}

fn edge_calls(w: u32, calls: &mut Vec<Call>) {
    let coefficients = edge_coefficients(w);
    let masks = [0, 1, low_ones(w), u64::MAX];
    for &c in &coefficients {
        for mask in masks {
            push(calls, REDUCE_MASK, [c, mask, 0], w);
        }
        for bit in edge_bits(c, w) {
            push(calls, CHANGE_MASK, [c, 0, 1 << bit], w);
            push(calls, CHANGE_MASK, [c, u64::MAX, !(1 << bit)], w);
            push(calls, CHANGE_COEFFICIENT, [c, 0, 1 << bit], w);
        }
        push(calls, CHANGE_MASK, [c, low_ones(w), u64::MAX], w);
        push(calls, CHANGE_COEFFICIENT, [c, c, 1], w);
        push(calls, CHANGE_COEFFICIENT, [c, c, 0], w);
        push(calls, CHANGE_COEFFICIENT, [c, c.wrapping_neg(), 1], w);
        push(calls, CHANGE_COEFFICIENT, [c, low_ones(w), 1 << 63], w);
    }
}

/// Coefficients at the edges of w bits.
fn edge_coefficients(w: u32) -> [u64; 8] {
    let top = 1u64.checked_shl(w).unwrap_or(0);
    let half = 1u64.checked_shl(w.saturating_sub(1)).unwrap_or(0);
    [0, 1, 6, half, half | 1, top, 1 << 63, u64::MAX]
}

/// The bits around the place where the coefficient stops reaching a w-bit sum.
fn edge_bits(c: u64, w: u32) -> [u32; 3] {
    let place = w.saturating_sub(c.trailing_zeros()).min(63);
    [0, place.saturating_sub(1), place]
}

fn low_ones(w: u32) -> u64 {
    match 1u64.checked_shl(w) {
        Some(top) => top - 1,
        None => u64::MAX,
    }
}

fn push(calls: &mut Vec<Call>, kind: u8, numbers: [u64; 3], w: u32) {
    calls.push(Call { kind, numbers, w });
}

/// A random call of one of the three functions, true and false answers both likely.
pub fn random(rng: &mut Prng, kind: u8) -> Call {
    let w = width(rng);
    let c = coefficient(rng);
    let numbers = match kind {
        REDUCE_MASK => [c, mask(rng), 0],
        CHANGE_MASK => {
            let old = mask(rng);
            [c, old, old ^ mostly_dead(rng, c, w)]
        }
        _ => {
            let difference = coefficient(rng);
            let mask = mostly_dead(rng, difference, w);
            [c, c.wrapping_add(difference), mask]
        }
    };
    Call { kind, numbers, w }
}

fn width(rng: &mut Prng) -> u32 {
    match rng.below(8) {
        0..=4 => rng.pick(&WIDTHS),
        5 | 6 => 1 + rng.below(64) as u32,
        _ => rng.word() as u32,
    }
}

fn coefficient(rng: &mut Prng) -> u64 {
    match rng.below(6) {
        0 => rng.pick(&[0, 1, 2, u64::MAX, 1 << 63]),
        1 => rng.word() % 256,
        2 => 1 << rng.below(64),
        3 | 4 => (rng.word() | 1) << rng.below(64),
        _ => rng.word(),
    }
}

fn mask(rng: &mut Prng) -> u64 {
    match rng.below(6) {
        0 => 0,
        1 => u64::MAX,
        2 => 1 << rng.below(64),
        3 => low_ones(rng.below(65) as u32),
        _ => rng.word(),
    }
}

/// Bits that mostly lie where the coefficient no longer reaches a w-bit sum, at times with one bit
/// at the last place that it does reach.
fn mostly_dead(rng: &mut Prng, c: u64, w: u32) -> u64 {
    let reach = low_ones(w.saturating_sub(c.trailing_zeros()));
    match rng.below(4) {
        0 => mask(rng),
        1 => (mask(rng) & !reach) | (reach ^ (reach >> 1)),
        _ => mask(rng) & !reach,
    }
}
