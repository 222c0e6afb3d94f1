//! Random expressions, assignments and damaged files.

use crate::prng::Prng;
use crate::record::{
    self, binary, literal, unary, variable, Record, Records, AND, CONCAT, NOT, RECORD_BYTES, SHR,
    TRUNC,
};

const WIDTHS: [u8; 10] = [1, 2, 7, 8, 16, 31, 32, 33, 63, 64];

/// Which kinds a random expression may hold.
#[derive(Clone, Copy)]
pub enum Kinds {
    /// kinds 0 to 9 with shift counts up to 63: always accepted
    Accepted,
    /// all kinds and all shift counts
    All,
    /// the kinds of an atom: 0, 1, 4 to 7 and 9 with shift counts up to 63
    Atom,
}

/// A width from 1 to 64, the edges more often than the rest.
pub fn width(rng: &mut Prng) -> u8 {
    if rng.one_in(2) {
        rng.pick(&WIDTHS)
    } else {
        1 + rng.below(64) as u8
    }
}

/// A word that is often at an edge of w bits, or above them.
pub fn word(rng: &mut Prng, w: u8) -> u64 {
    let top = 1u64.checked_shl(u32::from(w)).unwrap_or(0);
    match rng.below(16) {
        0 => 0,
        1 => 1,
        2 => top.wrapping_sub(1),
        3 => top,
        4 => top.wrapping_add(rng.word() % 16),
        5 => u64::MAX,
        6 => 1 << rng.below(64),
        7 => rng.word() % 16,
        _ => rng.word(),
    }
}

/// An expression of exactly `count` records.
pub fn expression(rng: &mut Prng, count: usize, w: u8, kinds: Kinds) -> Records {
    match count {
        1 => leaf(rng, w),
        2 => unary_over(rng, count, w, kinds),
        _ if rng.one_in(3) => unary_over(rng, count, w, kinds),
        _ => {
            let left_count = 1 + rng.below(count - 2);
            let left = expression(rng, left_count, w, kinds);
            let right = expression(rng, count - 1 - left_count, w, kinds);
            binary(binary_kind(rng, kinds), left, right)
        }
    }
}

fn leaf(rng: &mut Prng, w: u8) -> Records {
    match rng.below(8) {
        0..=2 => literal(w, word(rng, w)),
        3 => variable(w, u16::from(rng.byte())),
        _ => variable(w, u16::from(rng.byte() % 8)),
    }
}

fn unary_over(rng: &mut Prng, count: usize, w: u8, kinds: Kinds) -> Records {
    let child = expression(rng, count - 1, w, kinds);
    let kind = match kinds {
        Kinds::All if rng.one_in(8) => SHR + 1 + rng.byte() % (TRUNC - SHR),
        Kinds::Atom => rng.pick(&[NOT, SHR]),
        _ => NOT + rng.byte() % (SHR - NOT + 1),
    };
    let arg = match kind {
        SHR => shift_count(rng, w, kinds),
        _ if kind > SHR => rng.byte(),
        _ => 0,
    };
    unary(kind, arg, child)
}

fn shift_count(rng: &mut Prng, w: u8, kinds: Kinds) -> u8 {
    match (kinds, rng.below(8)) {
        (Kinds::All, 0) => 64 + rng.byte() % 192,
        (_, 0) => rng.pick(&[0, w - 1, w.min(63), 63]),
        (_, 1) => rng.byte() % 64,
        // small counts keep most values away from 0
        _ => rng.byte() % w.min(4),
    }
}

fn binary_kind(rng: &mut Prng, kinds: Kinds) -> u8 {
    match kinds {
        Kinds::All if rng.one_in(16) => CONCAT,
        Kinds::Atom => AND + rng.byte() % 3,
        _ => record::ADD + rng.byte() % 5,
    }
}

/// Assignment words: a few for most expressions, sometimes none, sometimes one for each variable below
/// 256.
pub fn assignment(rng: &mut Prng, w: u8) -> Vec<u64> {
    let count = match rng.below(48) {
        0 => 256,
        1..=3 => 0,
        4..=15 => 1 + rng.below(9),
        _ => 8,
    };
    (0..count).map(|_| word(rng, w)).collect()
}

/// A file that differs from `file` in one or two places; it may still be accepted.
pub fn damaged(rng: &mut Prng, file: &[u8]) -> Vec<u8> {
    let mut copy = damage(rng, file);
    if rng.one_in(4) && copy.len() >= RECORD_BYTES {
        copy = damage(rng, &copy);
    }
    copy
}

fn damage(rng: &mut Prng, file: &[u8]) -> Vec<u8> {
    let mut copy = file.to_vec();
    let records = file.len() / RECORD_BYTES;
    let start = RECORD_BYTES * rng.below(records);
    match rng.below(10) {
        0 => copy[start + rng.below(RECORD_BYTES)] ^= 1 << rng.below(8),
        1 => copy[start + rng.below(RECORD_BYTES)] = rng.byte(),
        2 => copy[start] = rng.byte() % 16,
        3 => copy[start + 2] = copy[start + 2].wrapping_add(1),
        4 => copy[start + 2] = copy[start + 2].wrapping_sub(1),
        5 => copy[start + 4] = width(rng),
        6 => copy.truncate(copy.len() - 1 - rng.below(RECORD_BYTES)),
        7 => drop(copy.drain(start..start + RECORD_BYTES)),
        8 => copy.extend_from_slice(&file[start..start + RECORD_BYTES]),
        _ => swap_records(&mut copy, start, RECORD_BYTES * rng.below(records)),
    }
    copy
}

fn swap_records(file: &mut [u8], a: usize, b: usize) {
    let first = Record::from_bytes(&file[a..]);
    let second = Record::from_bytes(&file[b..]);
    file[a..a + RECORD_BYTES].copy_from_slice(&second.to_bytes());
    file[b..b + RECORD_BYTES].copy_from_slice(&first.to_bytes());
}
