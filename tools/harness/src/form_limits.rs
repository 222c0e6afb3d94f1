//! Semilinear forms at the limits of document 01: numbers at the edges of the width, used and unused
//! atoms, the limits of the table, and lengths of forms and of result slices.

use crate::entry::{self, Entry};
use crate::form::{Form, HEAD_BYTE, MAX_ATOMS, MAX_TREE_RECORDS, RESULT_BYTES};
use crate::form_edges::{base, both, changed, compact, cut, most, of_tree, value};
use crate::form_random;
use crate::prng::Prng;
use crate::record::{
    self, binary, left_chain, literal, nested, right_chain, unary, variable, AND, NOT, OR,
    RECORD_BYTES, SHR, XOR,
};

/// Forms at the limits, each a case of one or both entry types of forms.
pub fn entries(rng: &mut Prng) -> Vec<Entry> {
    [
        numbers(),
        assignments(),
        unused(),
        result_lengths(),
        atom_limit(),
        record_limit(),
        longest(rng),
        zero_tail(),
    ]
    .concat()
}

/// Constants, coefficients and literals at the edges of the width.
fn numbers() -> Vec<Entry> {
    let mut all = Vec::new();
    for w in [1, 2, 8, 31, 32, 33, 63, 64] {
        all.extend(both(base(w).bytes()));
        let top = most(w).wrapping_add(1);
        let edges = [0, 1, most(w), top, top.wrapping_add(1), 1 << 63, u64::MAX];
        for edge in edges {
            all.extend(both(Form::new(w, edge).bytes()));
            let mut form = of_tree(w, variable(w, 0));
            form.terms[0].coeff = edge;
            all.extend(both(form.bytes()));
            let tree = unary(SHR, 1, binary(XOR, literal(w, edge), variable(w, 1)));
            all.extend(both(of_tree(w, tree).bytes()));
        }
        for count in [0, 1, w - 1, w, 63, 64] {
            let tree = unary(SHR, count, unary(NOT, 0, variable(w, 9)));
            all.extend(both(of_tree(w, tree).bytes()));
        }
    }
    all
}

/// Values under assignments of every length, with words at the edges of the width.
fn assignments() -> Vec<Entry> {
    let mut all = Vec::new();
    for w in [1, 8, 63, 64] {
        let mut form = Form::new(w, most(w));
        for number in [0, 1, 254, 255] {
            form.push_term(HEAD_BYTE, variable(w, number), most(w) >> (number % 2));
        }
        form.push_term(1, binary(OR, variable(w, 0), variable(w, 2)), 1);
        let top = most(w).wrapping_add(1);
        let words = [
            vec![],
            vec![0],
            vec![most(w)],
            vec![top, top],
            vec![u64::MAX, most(w), u64::MAX],
            vec![u64::MAX; 255],
            (0..256).map(|i| 0x0101_0101_0101_0101 * i).collect(),
        ];
        for list in words {
            all.push(entry::form_value(form.bytes(), list));
        }
    }
    all
}

/// Five atoms, with 0 to 4 in byte 1 of their heads and terms for each choice of them; equal atoms;
/// forms without terms or atoms.
fn unused() -> Vec<Entry> {
    let mut all = Vec::new();
    let trees = [
        (0, binary(AND, variable(8, 0), literal(8, 271))),
        (1, binary(OR, variable(8, 0), variable(8, 1))),
        (2, binary(XOR, literal(8, 15), variable(8, 1))),
        (3, unary(NOT, 0, variable(8, 0))),
        (4, variable(8, 255)),
    ];
    for choice in 0..32 {
        let mut form = Form::new(8, choice);
        for (bit, (byte, tree)) in trees.iter().enumerate() {
            if choice >> bit & 1 == 1 {
                form.push_term(*byte, tree.clone(), 200 + bit as u64);
            } else {
                form.push(*byte, tree.clone());
            }
        }
        all.extend(both(form.bytes()));
    }
    for used in [[true, true], [true, false], [false, true]] {
        let mut twice = Form::new(64, 1);
        for (number, used) in used.into_iter().enumerate() {
            let coeff = u64::MAX - number as u64;
            if used {
                twice.push_term(HEAD_BYTE, variable(64, 3), coeff);
            } else {
                twice.push(HEAD_BYTE, variable(64, 3));
            }
        }
        all.extend(both(twice.bytes()));
    }
    all
}

/// Result slices of other lengths: refusal 1 comes before 2, and 2 before 10.
fn result_lengths() -> Vec<Entry> {
    let valid = base(8).bytes();
    let invalid = record::bytes(&changed(|r| r[0].arg = 5));
    let short = cut(valid.clone(), valid.len() - 1);
    let lengths = [
        0, 1, 15, 16, 176, 57_344, 57_359, 57_360, 57_361, 57_375, 57_376,
    ];
    let mut all = Vec::new();
    for length in lengths {
        for bytes in [&valid, &invalid, &short, &Vec::new()] {
            all.push(entry::compact(bytes.clone(), length));
        }
    }
    all
}

/// `count` atoms, a variable each, with terms for each `step`-th from `first` on.
fn variables(w: u8, count: usize, first: usize, step: usize) -> Form {
    let mut form = Form::new(w, 1);
    for number in 0..count {
        let tree = variable(w, number as u16 % 256);
        if number >= first && (number - first).is_multiple_of(step) {
            form.push_term(HEAD_BYTE, tree, 1 + number as u64 % most(w));
        } else {
            form.push(HEAD_BYTE, tree);
        }
    }
    form
}

fn atom_limit() -> Vec<Entry> {
    let mut all = Vec::new();
    all.extend(both(variables(8, MAX_ATOMS, 0, 1).bytes()));
    all.push(compact(variables(64, MAX_ATOMS, 0, 255).bytes()));
    all.push(compact(variables(63, MAX_ATOMS, 1, 2).bytes()));
    all.push(compact(variables(8, MAX_ATOMS, MAX_ATOMS, 1).bytes()));
    all.push(value(variables(8, MAX_ATOMS + 1, 0, 1).bytes()));
    all.push(compact(variables(8, MAX_ATOMS + 1, MAX_ATOMS, 1).bytes()));
    all
}

fn record_limit() -> Vec<Entry> {
    let w = 64;
    let nots = |count: usize| nested(&[NOT], count - 1, variable(w, 0));
    let leaf = |i: usize| match i % 5 {
        0 => literal(w, !(1 << (i % 64))),
        _ => variable(w, (i % 2) as u16),
    };
    let leaves = MAX_TREE_RECORDS / 2;
    let most = MAX_TREE_RECORDS;
    let mut unused = of_tree(w, nots(most - 1));
    unused.terms.clear();
    unused.push_term(HEAD_BYTE, variable(w, 1), 3);
    let mut two = of_tree(w, nots(most - 2));
    two.push_term(1, binary(OR, variable(w, 0), variable(w, 1)), 2);
    vec![
        compact(of_tree(w, nots(most)).bytes()),
        compact(unused.bytes()),
        value(of_tree(w, unary(NOT, 0, left_chain(AND, leaves, leaf))).bytes()),
        value(of_tree(w, unary(NOT, 0, right_chain(XOR, leaves, leaf))).bytes()),
        value(of_tree(w, nots(most + 1)).bytes()),
        compact(two.bytes()),
    ]
}

/// The longest form, and it with a byte and with a record more.
fn longest(rng: &mut Prng) -> Vec<Entry> {
    let bytes = form_random::full(rng, 64).bytes();
    assert_eq!(bytes.len(), RESULT_BYTES);
    let mut all = both(bytes.clone()).to_vec();
    all.push(value(cut(bytes.clone(), RESULT_BYTES + 1)));
    all.push(compact(cut(bytes, RESULT_BYTES + RECORD_BYTES)));
    all
}

/// A whole result slice is no form for its zeros; its used part is one.
fn zero_tail() -> Vec<Entry> {
    let used = base(8).bytes();
    let whole = cut(used.clone(), RESULT_BYTES);
    let mut all = both(used).to_vec();
    all.extend(both(whole));
    all
}
