//! Random semilinear forms and damaged copies of them.

use crate::form::{Form, Term, ATOM, MAX_ATOMS, MAX_TREE_RECORDS, SUM, TERM};
use crate::model;
use crate::prng::Prng;
use crate::published;
use crate::random::{self, Kinds};
use crate::record::{self, Record, Records, RECORD_BYTES, VARIABLE};

/// A number from 0 to 2^w - 1, often at an edge.
pub fn number(rng: &mut Prng, w: u8) -> u64 {
    (u128::from(random::word(rng, w)) % (1 << w)) as u64
}

/// A tree of exactly `count` records that an atom may have.
pub fn atom_tree(rng: &mut Prng, count: usize, w: u8) -> Records {
    let mut tree = random::expression(rng, count, w, Kinds::Atom);
    if tree.iter().all(|r| r.kind != VARIABLE) {
        // the first record is a leaf
        tree[0] = Record::new(VARIABLE, u16::from(rng.byte() % 8), 1, w, 0);
    }
    tree
}

/// A valid form of `atoms` atoms with trees of 1 to `most` records, and terms for some of them: for
/// all once in four times, for none once in sixteen.
pub fn form(rng: &mut Prng, atoms: usize, most: usize, w: u8) -> Form {
    let mut form = Form::new(w, number(rng, w));
    for _ in 0..atoms {
        let count = 1 + rng.below(most);
        let tree = atom_tree(rng, count, w);
        form.push(rng.byte() % 5, tree);
    }
    let keep = match rng.below(16) {
        0 => 0,
        1..=4 => 4,
        _ => 1 + rng.below(3),
    };
    for atom in 0..atoms as u16 {
        if rng.below(4) < keep {
            let coeff = number(rng, w).max(1);
            form.terms.push(Term { atom, coeff });
        }
    }
    form
}

/// A valid form with as many atoms and tree records as there may be.
pub fn full(rng: &mut Prng, w: u8) -> Form {
    let mut form = Form::new(w, number(rng, w));
    let mut left = MAX_TREE_RECORDS;
    for others in (0..MAX_ATOMS).rev() {
        let count = if others == 0 {
            left
        } else {
            1 + rng.below((left - others).min(23))
        };
        let coeff = number(rng, w).max(1);
        let tree = atom_tree(rng, count, w);
        form.push_term(rng.byte() % 5, tree, coeff);
        left -= count;
    }
    form
}

/// Bytes that differ from those of a valid form in one or two places, half of them with the hashes
/// set right afterwards. They may still be a form.
pub fn damaged(rng: &mut Prng, form: &Form) -> Vec<u8> {
    let mut records = form.records();
    damage(rng, &mut records, form.width);
    if rng.one_in(4) {
        damage(rng, &mut records, form.width);
    }
    if rng.one_in(2) {
        rehash(&mut records);
    }
    let bytes = record::bytes(&records);
    match rng.below(32) {
        0 => bytes[..bytes.len() - 1 - rng.below(RECORD_BYTES)].to_vec(),
        1..=4 => random::damaged(rng, &bytes),
        _ => bytes,
    }
}

/// Changes a field of one record, or moves, adds or takes away a record.
fn damage(rng: &mut Prng, records: &mut Records, w: u8) {
    let (at, other) = (rng.below(records.len()), rng.below(records.len()));
    let record = &mut records[at];
    match rng.below(12) {
        0 => record.kind = rng.byte() % 16,
        1 => record.kind = rng.pick(&[0, 1, SUM - 1, SUM, ATOM, TERM, TERM + 1]),
        2 => record.arg = rng.pick(&[0, 1, 4, 5, 63, 64, 255]),
        3 => record.size = record.size.wrapping_add(rng.pick(&[1, u16::MAX, 256])),
        4 => record.size = rng.below(12) as u16,
        5 => record.width = random::width(rng),
        6 => {
            let bit = 1u8 << rng.below(8);
            match rng.below(3) {
                0 => record.arg = (record.arg % 256) | (u16::from(bit) << 8),
                place => record.zeros[place - 1] = bit,
            }
        }
        7 => record.literal = random::word(rng, w),
        8 => record.literal ^= 1 << rng.below(64),
        9 => records.swap(at, other),
        10 => {
            let added = if rng.one_in(4) { ZERO } else { *record };
            records.insert(other, added);
        }
        _ if records.len() > 1 => {
            records.remove(at);
        }
        _ => {}
    }
}

/// A record of zero bytes only.
pub const ZERO: Record = Record {
    kind: 0,
    arg: 0,
    size: 0,
    width: 0,
    zeros: [0; 2],
    literal: 0,
};

/// Sets the hash of each atom whose tree is well formed, from the front as far as heads follow on
/// trees. A shift count of 64 or more has a hash too.
pub fn rehash(records: &mut [Record]) {
    let mut at = 0;
    while records.get(at).is_some_and(|record| record.kind == ATOM) {
        let next = at + 1 + usize::from(records[at].size);
        let Some(tree) = records.get(at + 1..next) else {
            return;
        };
        if model::well_formed(tree) {
            records[at].literal = published::hash(tree);
        }
        at = next;
    }
}
