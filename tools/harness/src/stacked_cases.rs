//! Masks upon masks, as `(a & 60) & 15`: worked forms, random ones, the longest chains, and lists of
//! passes run from sums with such atoms.

use crate::family::{family, Family};
use crate::form::{Form, HEAD_BYTE, MAX_TREE_RECORDS, RESULT_BYTES};
use crate::list::{self, words};
use crate::list_cases;
use crate::normal_random::either;
use crate::pass::PASSES;
use crate::pass_cases as passes;
use crate::pass_groups::{basis, coefficient, form_of, mask, mask_tree, Entry};
use crate::prng::Prng;
use crate::random;
use crate::record::{binary, literal, nested, unary, variable, Records, AND, NOT, OR, SHR, XOR};

/// Families of forms for the passes and the columns.
pub const FORMS: [Family<passes::Case>; 3] = [
    family("masks upon masks, worked", 0, 0, |_, _| {
        worked().iter().map(passes::case).collect()
    }),
    family("masks upon masks", 24_000, 60, |rng, n| {
        passes::made(rng, n, stacked)
    }),
    family("long chains of masks", 400, 2, |rng, n| {
        passes::made(rng, n, long)
    }),
];

/// Families of lists of passes.
pub const LISTS: [Family<list::Case>; 2] = [
    family("masks upon masks, worked", 0, 0, |_, _| lists()),
    family("masks upon masks", 12_000, 40, random_lists),
];

/// The examples of the request and others of each rule, at 8 bits, and the same shapes at other widths.
pub fn worked() -> Vec<Form> {
    [8, 1, 2, 63, 64].into_iter().flat_map(shapes).collect()
}

/// Forms of an atom `(x & m) & n` and others beside it; numbers are cut to the width.
fn shapes(w: u8) -> Vec<Form> {
    let top = u64::MAX >> (64 - w);
    let n = |value: u64| literal(w, value);
    let (a, b) = (|| variable(w, 0), || variable(w, 1));
    let and = |x: Records, mask: u64| binary(AND, x, n(mask));
    let under = |mask: u64, x: Records| binary(AND, n(mask), x);
    let twice = |x: Records, m: u64, k: u64| and(and(x, m), k);
    let not = |x: Records| unary(NOT, 0, x);
    let halved = |value: u64| unary(SHR, 1, not(n(value)));
    let form = |terms: &[(u64, Records)]| {
        let mut form = Form::new(w, 9 & top);
        for (coeff, tree) in terms {
            match coeff & top {
                0 => form.push(HEAD_BYTE, tree.clone()),
                coeff => form.push_term(HEAD_BYTE, tree.clone(), coeff),
            }
        }
        form
    };
    let minus = |value: u64| value.wrapping_neg();
    let mut all = Vec::new();
    // beside a term of the same variable, the masks on either side and in three steps
    for tree in [
        twice(a(), 60, 15),
        under(15, under(60, a())),
        under(15, and(a(), 60)),
        and(under(60, a()), 15),
        and(twice(a(), 61, 14), minus(3)),
        twice(a(), minus(4), 15),
    ] {
        all.push(form(&[(1, tree.clone())]));
        all.push(form(&[(1, tree.clone()), (1, and(a(), 3))]));
        all.push(form(&[(1, tree), (3, and(a(), 3)), (0, a())]));
    }
    // no common bit; a mask that is cut, and one that is not
    all.extend([
        form(&[(1, twice(a(), 48, 15))]),
        form(&[(1, twice(a(), 48, 15)), (1, and(a(), 3))]),
        form(&[(16, twice(a(), 60, 255))]),
        form(&[(16, twice(a(), 12, 255))]),
        form(&[(1, twice(a(), minus(1), minus(1)))]),
        form(&[(1, twice(a(), minus(1), minus(1))), (1, a())]),
    ]);
    // bases that are no variables
    for basis in [
        binary(XOR, a(), b()),
        binary(AND, a(), b()),
        binary(OR, and(a(), 60), b()),
        binary(AND, and(a(), 60), b()),
        not(and(a(), 60)),
        unary(SHR, 1, and(a(), 60)),
        unary(SHR, 0, and(a(), 60)),
    ] {
        all.push(form(&[(1, twice(basis.clone(), 60, 15))]));
        all.push(form(&[
            (1, twice(basis.clone(), 60, 15)),
            (1, and(basis, 3)),
        ]));
    }
    // masks that are trees, read at w bits
    all.extend([
        form(&[
            (1, binary(AND, binary(AND, a(), halved(3)), n(255))),
            (1, and(a(), 1)),
        ]),
        form(&[
            (1, binary(AND, halved(3), binary(AND, halved(0), a()))),
            (1, and(a(), 1)),
        ]),
        form(&[
            (1, and(binary(AND, a(), binary(AND, n(60), n(61))), 15)),
            (2, and(a(), 3)),
        ]),
    ]);
    // complements by the joined masks, and by the outer ones alone
    all.extend([
        form(&[(1, twice(a(), 63, 15)), (minus(1), and(a(), minus(16)))]),
        form(&[
            (1, twice(a(), 60, 15)),
            (minus(1), twice(a(), 60, minus(16))),
        ]),
        form(&[(1, twice(a(), 60, 15)), (1, twice(a(), 60, minus(16)))]),
        form(&[(1, twice(a(), 60, 15)), (2, twice(a(), 60, minus(16)))]),
    ]);
    // flattening: what has one variable and is no variable under masks
    all.extend([
        form(&[(1, twice(not(a()), 60, 15))]),
        form(&[(1, not(twice(a(), 60, 15)))]),
        form(&[(3, twice(binary(OR, a(), n(3)), 60, 15)), (1, and(a(), 3))]),
    ]);
    all
}

/// The tree below masks that come to `joined`, one to five of them, on either side.
fn under_masks(rng: &mut Prng, mut tree: Records, joined: u64, w: u8) -> Records {
    let count = 1 + rng.below(5);
    let mut masks: Vec<u64> = (0..count).map(|_| joined | rng.word()).collect();
    let common = masks.iter().fold(u64::MAX, |all, mask| all & mask);
    let last = rng.below(count);
    masks[last] &= !(common & !joined);
    for mask in masks {
        let mask = match rng.one_in(8) {
            // as long as what it stands over, or longer
            true => nested(&[NOT, NOT], 2 * tree.len(), literal(w, mask)),
            false => mask_tree(rng, mask, w),
        };
        tree = either(rng, AND, tree, mask);
    }
    tree
}

/// Forms of one to four groups, with most atoms under several masks.
pub fn stacked(rng: &mut Prng, w: u8) -> Form {
    let mut entries = Vec::new();
    for _ in 0..rng.pick(&[1, 1, 2, 4]) {
        let basis = basis(rng, w);
        let (mut masks, mut coeffs) = (Vec::new(), Vec::new());
        for _ in 0..1 + rng.below(6) {
            let mask = mask(rng, &masks, w);
            let coeff = coefficient(rng, &coeffs, w);
            masks.push(mask);
            coeffs.push(coeff);
            let tree = match rng.below(6) {
                0 => binary(AND, basis.clone(), literal(w, mask)),
                1 if rng.one_in(2) => basis.clone(),
                2 if rng.one_in(3) => {
                    let inner = under_masks(rng, basis.clone(), mask, w);
                    unary(NOT, 0, inner)
                }
                _ => under_masks(rng, basis.clone(), mask, w),
            };
            let coeff = match rng.one_in(12) {
                true => 0,
                false => coeff,
            };
            entries.push(Entry { tree, coeff });
        }
    }
    form_of(rng, entries, w)
}

/// `count` masks upon a tree, mask i on the left where `left` says so.
pub fn chain(
    tree: Records,
    count: usize,
    left: impl Fn(usize) -> bool,
    mask: impl Fn(usize) -> Records,
) -> Records {
    (0..count).fold(tree, |tree, i| match left(i) {
        true => binary(AND, mask(i), tree),
        false => binary(AND, tree, mask(i)),
    })
}

/// A variable under masks, each a tree as long as all below it: the longest of at most `records`.
#[cfg_attr(not(any(feature = "library", test)), allow(dead_code))]
pub fn doubling(w: u8, records: usize) -> Records {
    let mut tree = variable(w, 0);
    while 2 * tree.len() < records {
        let mask = nested(&[NOT], tree.len() - 1, literal(w, u64::MAX >> 1));
        tree = binary(AND, tree, mask);
    }
    tree
}

/// Forms of one long chain of masks and a few atoms beside it.
fn long(rng: &mut Prng, w: u8) -> Form {
    let room = rng.pick(&[1, 4, 12, 40, 400, 2_000]);
    let tree = basis(rng, w);
    let count = (MAX_TREE_RECORDS - room - tree.len()) / 2;
    let (side, word) = (rng.below(3), rng.word() & rng.word() & rng.word());
    let left = |i: usize| [false, true, i % 2 == 1][side];
    // every mask has all bits but a few, which are not those of the others
    let mask = |i: usize| literal(w, !(word & word.rotate_left(i as u32)));
    let below = tree.clone();
    let mut form = Form::new(w, 0);
    form.push_term(HEAD_BYTE, chain(tree, count, left, mask), 1);
    let mut left = MAX_TREE_RECORDS - form.atoms[0].tree.len();
    while left > 0 {
        let mask = mask_tree(rng, word, w);
        let tree = match rng.one_in(3) {
            true => below.clone(),
            false => binary(AND, below.clone(), mask),
        };
        if tree.len() > left || form.atoms.len() > 4 {
            break;
        }
        left -= tree.len();
        let coeff = coefficient(rng, &[1], w);
        form.push_term(HEAD_BYTE, tree, coeff);
    }
    form
}

/// From sums with the atoms of the worked forms: each pass alone and the five in order, by turns.
fn lists() -> Vec<list::Case> {
    let whole = PASSES.map(|pass| (pass, RESULT_BYTES));
    let files = worked()
        .into_iter()
        .filter_map(|form| list_cases::sum_of(&form));
    files
        .enumerate()
        .map(|(number, file)| {
            let list = match number % 6 {
                5 => words(&whole),
                pass => words(&[whole[pass], whole[4]]),
            };
            list_cases::case(file, list)
        })
        .collect()
}

fn random_lists(rng: &mut Prng, count: usize) -> Vec<list::Case> {
    let mut all = Vec::new();
    while all.len() < count {
        let w = random::width(rng);
        if let Some(file) = list_cases::sum_of(&stacked(rng, w)) {
            all.push(list_cases::case(
                file,
                list_cases::random_words(rng, &PASSES),
            ));
        }
    }
    all
}
