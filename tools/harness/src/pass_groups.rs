//! Forms written directly, of groups: atoms over one basis and masks, with masks and coefficients
//! that are made to meet the steps of the passes.

use crate::collide;
use crate::form::{Form, MAX_ATOMS, MAX_TREE_RECORDS};
use crate::form_random::number;
use crate::normal_random::either;
use crate::numbers;
use crate::prng::Prng;
use crate::published;
use crate::random;
use crate::record::{binary, literal, nested, unary, variable, Records, AND, NOT, OR, SHR, XOR};

/// An atom of a form in the making: its tree, and its coefficient, 0 where it has no term.
pub struct Entry {
    pub tree: Records,
    pub coeff: u64,
}

/// The form of the entries in a random order, as many of them as the table takes.
pub fn form_of(rng: &mut Prng, mut entries: Vec<Entry>, w: u8) -> Form {
    let mut form = Form::new(w, number(rng, w));
    let mut records = 0;
    while !entries.is_empty() && form.atoms.len() < MAX_ATOMS {
        let at = match rng.one_in(2) {
            true => entries.len() - 1,
            false => rng.below(entries.len()),
        };
        let entry = entries.swap_remove(at);
        records += entry.tree.len();
        if records > MAX_TREE_RECORDS {
            break;
        }
        let byte = rng.byte() % 5;
        match entry.coeff {
            0 => form.push(byte, entry.tree),
            coeff => form.push_term(byte, entry.tree, coeff),
        }
    }
    form
}

fn top(w: u8) -> u64 {
    u64::MAX >> (64 - w)
}

/// A mask below 2^w; `before` are those of the group so far.
pub fn mask(rng: &mut Prng, before: &[u64], w: u8) -> u64 {
    let place = rng.below(usize::from(w));
    let known = match before {
        [] => 0,
        _ => rng.pick(before),
    };
    let mask = match rng.below(12) {
        0 => 0,
        1 => top(w),
        2 => 1 << place,
        3 => top(w) >> place,
        4 => top(w) << place,
        5 => known,
        6 | 7 => !known,
        // apart from a mask before, or from all of them
        8 => !known & rng.word(),
        9 => !before.iter().fold(0, |all, mask| all | mask) & rng.word(),
        _ => rng.word(),
    };
    mask & top(w)
}

/// A coefficient from 1 to 2^w - 1; `before` are those of the group so far.
pub fn coefficient(rng: &mut Prng, before: &[u64], w: u8) -> u64 {
    let place = rng.below(usize::from(w));
    let (one, two) = match before {
        [] => (1, 1),
        _ => (rng.pick(before), rng.pick(before)),
    };
    let coeff = match rng.below(12) {
        0 => 1,
        1 => u64::MAX,
        2 => 1 << (w - 1),
        3 | 4 => one,
        5 => one.wrapping_neg(),
        6 => one.wrapping_add(two),
        7 => one.wrapping_sub(two),
        // like one before, but for high bits
        8 => one ^ 1 << place,
        9 => rng.word() << place,
        10 => rng.word() % 4,
        _ => rng.word(),
    };
    (coeff & top(w)).max(1)
}

/// A tree without variables that is a mask, often the literal itself. Its value at 64 bits, cut, may
/// be another than at w bits.
pub fn mask_tree(rng: &mut Prng, mask: u64, w: u8) -> Records {
    let high = match w {
        64 => 0,
        _ => rng.word() << w,
    };
    match rng.below(16) {
        0 => literal(w, mask | high),
        1 => unary(NOT, 0, literal(w, !mask)),
        2 => unary(NOT, 0, literal(w, !mask ^ high)),
        3 => {
            let part = rng.word();
            binary(OR, literal(w, mask & part), literal(w, mask & !part))
        }
        4 => {
            let other = rng.word();
            binary(XOR, literal(w, mask ^ other), literal(w, other))
        }
        5 => {
            let count = rng.byte() % w.min(63);
            let inner = unary(NOT, 0, literal(w, !(mask << count)));
            unary(SHR, count, inner)
        }
        _ => literal(w, mask),
    }
}

/// A basis: most often a variable.
pub fn basis(rng: &mut Prng, w: u8) -> Records {
    let x = variable(w, u16::from(rng.byte() % 4));
    let y = variable(w, u16::from(rng.byte() % 6));
    match rng.below(12) {
        0 => binary(AND, x, y),
        1 => binary(XOR, x, y),
        2 => unary(NOT, 0, x),
        3 => {
            let word = random::word(rng, w);
            binary(AND, x, literal(w, word))
        }
        4 => {
            let word = random::word(rng, w);
            either(rng, OR, x, literal(w, word))
        }
        5 => unary(SHR, rng.byte() % w.min(4), x),
        6 => variable(w, u16::from(rng.byte())),
        _ => x,
    }
}

/// `count` entries over a basis. A full mask is often left out, and one entry in `unused` has no
/// term.
fn group(rng: &mut Prng, basis: &Records, count: usize, unused: usize, w: u8) -> Vec<Entry> {
    let (mut masks, mut coeffs) = (Vec::new(), Vec::new());
    let mut entries = Vec::new();
    for _ in 0..count {
        let mask = mask(rng, &masks, w);
        let coeff = coefficient(rng, &coeffs, w);
        masks.push(mask);
        coeffs.push(coeff);
        let bare = mask == top(w) && !rng.one_in(3);
        let tree = match bare {
            true => basis.clone(),
            false => {
                let mask = mask_tree(rng, mask, w);
                match rng.one_in(4) {
                    true => binary(AND, mask, basis.clone()),
                    false => binary(AND, basis.clone(), mask),
                }
            }
        };
        let coeff = match rng.one_in(unused) {
            true => 0,
            false => coeff,
        };
        entries.push(Entry { tree, coeff });
    }
    entries
}

/// The size of a group: mostly small, now and then of up to 256 entries.
fn size(rng: &mut Prng) -> usize {
    match rng.below(400) {
        0 => MAX_ATOMS,
        1..=3 => 1 + rng.below(MAX_ATOMS),
        4..=40 => 1 + rng.below(24),
        _ => 1 + rng.below(7),
    }
}

/// Forms of one group.
pub fn one(rng: &mut Prng, w: u8) -> Form {
    let basis = basis(rng, w);
    let count = size(rng);
    let entries = group(rng, &basis, count, 24, w);
    form_of(rng, entries, w)
}

/// Forms of one group whose masks are apart and whose coefficients are few: sums of two coefficients
/// are met, as the collapse of three terms needs them.
pub fn apart(rng: &mut Prng, w: u8) -> Form {
    let basis = basis(rng, w);
    let (a, b) = (coefficient(rng, &[], w), coefficient(rng, &[], w));
    let choices = [a, b, a.wrapping_add(b), a.wrapping_sub(b), a.wrapping_neg()];
    let mut left = top(w);
    let mut entries = Vec::new();
    for _ in 0..2 + rng.below(6) {
        let mask = left & rng.word();
        left &= !mask;
        let coeff = rng.pick(&choices) & top(w);
        let mask = mask_tree(rng, mask, w);
        entries.push(Entry {
            tree: binary(AND, basis.clone(), mask),
            coeff: coeff.max(1),
        });
    }
    form_of(rng, entries, w)
}

/// Forms of several groups and of atoms that are in none.
pub fn several(rng: &mut Prng, w: u8) -> Form {
    let mut entries = Vec::new();
    for _ in 0..2 + rng.below(5) {
        let basis = basis(rng, w);
        let count = 1 + rng.below(5);
        entries.extend(group(rng, &basis, count, 12, w));
        if rng.one_in(3) {
            let coeff = coefficient(rng, &[], w);
            let tree = nested(&[NOT], 1 + rng.below(3), basis);
            entries.push(Entry { tree, coeff });
        }
    }
    form_of(rng, entries, w)
}

/// Forms whose table has bare atoms, used or not, beside groups of complements.
pub fn bare(rng: &mut Prng, w: u8) -> Form {
    let basis = basis(rng, w);
    let mask = mask(rng, &[], w);
    let (one, two) = (coefficient(rng, &[], w), coefficient(rng, &[], w));
    let masked = |mask: u64, coeff: u64| Entry {
        tree: binary(AND, basis.clone(), literal(w, mask)),
        coeff,
    };
    let mut entries = vec![masked(mask, one), masked(!mask & top(w), two)];
    for _ in 0..rng.below(3) {
        let coeff = match rng.below(4) {
            0 => one,
            1 => two.wrapping_neg() & top(w),
            2 => coefficient(rng, &[one, two], w),
            _ => 0,
        };
        entries.push(Entry {
            tree: basis.clone(),
            coeff,
        });
    }
    if rng.one_in(3) {
        entries.extend(group(rng, &basis, 2, 8, w));
    }
    form_of(rng, entries, w)
}

/// Forms of bases and bare atoms that are unlike and of one hash.
pub fn colliding(rng: &mut Prng, w: u8) -> Form {
    let first = basis(rng, w);
    colliding_with(rng, first, |rng| u16::from(rng.byte() % 3), w)
}

/// The same over variables of two bytes.
pub fn colliding_over_all(rng: &mut Prng, w: u8) -> Form {
    let mut first = basis(rng, w);
    numbers::rename(rng, &mut first);
    colliding_with(rng, first, numbers::number, w)
}

/// The form with a first basis, and others over the variables that `choose` gives.
fn colliding_with(rng: &mut Prng, first: Records, choose: fn(&mut Prng) -> u16, w: u8) -> Form {
    let hash = published::hash(&first);
    let mut bases = vec![first];
    for _ in 0..1 + rng.below(3) {
        let over = variable(w, choose(rng));
        let kind = rng.pick(&[AND, OR, XOR]);
        let mut tree = binary(kind, over, literal(w, 0));
        if rng.one_in(4) {
            tree = unary(rng.pick(&[NOT, SHR]), 0, tree);
        }
        bases.push(collide::with_hash(tree, hash));
    }
    let mut entries = Vec::new();
    for basis in &bases {
        let count = 1 + rng.below(4);
        entries.extend(group(rng, basis, count, 12, w));
        if rng.one_in(2) {
            let coeff = coefficient(rng, &[], w);
            let tree = basis.clone();
            entries.push(Entry { tree, coeff });
        }
    }
    form_of(rng, entries, w)
}
