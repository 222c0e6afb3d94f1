//! Semilinear forms that are changed in one field, record or place, for each rule of document 01.
//! The model gives the expected answers; accepted forms are also compacted by the published Rust.

use crate::entry::{self, Entry};
use crate::form::{Atom, Form, Term, ATOM, HEAD_BYTE, RESULT_BYTES, SUM, TERM};
use crate::form_random::{rehash, ZERO};
use crate::published;
use crate::record::{
    self, arity, binary, literal, unary, variable, Record, Records, AND, CONCAT, CONSTANT, NOT, OR,
    SHR, VARIABLE, XOR,
};

/// Changed forms, each a case of both entry types of forms.
pub fn entries() -> Vec<Entry> {
    [
        lengths(),
        single_bytes(),
        heads(),
        trees(),
        terms(),
        sums(),
        orders(),
        widths(),
    ]
    .concat()
}

/// The assignment v0 = 0x...D5, v1 = 0x...3A, with bits above every width but 64.
const VARS: [u64; 2] = [0x0123_4567_89AB_CDD5, 0xFEDC_BA98_7654_323A];

pub fn value(bytes: Vec<u8>) -> Entry {
    entry::form_value(bytes, VARS.to_vec())
}

pub fn compact(bytes: Vec<u8>) -> Entry {
    entry::compact(bytes, RESULT_BYTES)
}

/// The bytes as a case of both functions.
pub fn both(bytes: Vec<u8>) -> [Entry; 2] {
    [value(bytes.clone()), compact(bytes)]
}

fn both_of(records: &[Record]) -> [Entry; 2] {
    both(record::bytes(records))
}

pub fn cut(mut bytes: Vec<u8>, length: usize) -> Vec<u8> {
    bytes.resize(length, 0);
    bytes
}

/// 2^w - 1.
pub fn most(w: u8) -> u64 {
    u64::MAX >> (64 - w)
}

/// `3·(v0 & 15) + 5·~(v1 >> 1) + 7`, numbers cut to w bits, with 0 and 3 in byte 1 of the heads.
pub fn base(w: u8) -> Form {
    let mut form = Form::new(w, 7 & most(w));
    let masked = binary(AND, variable(w, 0), literal(w, 15));
    form.push_term(0, masked, 3 & most(w));
    let shifted = unary(NOT, 0, unary(SHR, 1, variable(w, 1)));
    form.push_term(3, shifted, 5 & most(w));
    form
}

/// The places of the records of `base`.
const TREES: [usize; 6] = [1, 2, 3, 5, 6, 7];
const HEADS: [usize; 2] = [0, 4];
const TERMS: [usize; 2] = [8, 9];
const SUM_AT: usize = 10;

/// `base` at 8 bits with its records changed.
pub fn changed(change: impl Fn(&mut Records)) -> Records {
    let mut records = base(8).records();
    change(&mut records);
    records
}

fn lengths() -> Vec<Entry> {
    let whole = base(8).bytes();
    let sum = Form::new(8, 7).bytes();
    let mut all = Vec::new();
    for length in [0, 1, 8, 15, 16, 17, 31, 32, 160, 175, 177, 192] {
        all.extend(both(cut(whole.clone(), length)));
    }
    for length in [15, 16, 17, 32] {
        all.extend(both(cut(sum.clone(), length)));
    }
    all
}

/// The lowest and the highest bit of each byte of a form turned, one at a time.
fn single_bytes() -> Vec<Entry> {
    let whole = base(8).bytes();
    let mut all = both(whole.clone()).to_vec();
    for at in 0..whole.len() {
        for bit in [1, 128] {
            let mut bytes = whole.clone();
            bytes[at] ^= bit;
            all.extend(both(bytes));
        }
    }
    all
}

fn heads() -> Vec<Entry> {
    let mut all = Vec::new();
    for at in HEADS {
        for byte in [0, 1, 2, 3, 4, 5, 6, 128, 255] {
            all.extend(both_of(&changed(|r| r[at].arg = byte)));
        }
        for size in [0, 1, 2, 4, 5, 6, 7, 10, 256, 259, 3072, 3073, 65_535] {
            let records = changed(|r| r[at].size = size);
            all.extend(both_of(&records));
            // the hash of what the size now spans
            let mut rehashed = records;
            rehash(&mut rehashed);
            all.extend(both_of(&rehashed));
        }
    }
    // the hash off by each bit, and that of the other tree
    for bit in 0..64 {
        all.push(value(record::bytes(&changed(|r| r[4].literal ^= 1 << bit))));
    }
    all.extend(both_of(&changed(|r| r[0].literal = r[4].literal)));
    all.extend(both_of(&changed(|r| r[0].literal = 0)));
    all
}

/// Changed trees with their right hashes, so that the hash is no reason to refuse them.
fn trees() -> Vec<Entry> {
    let mut all = Vec::new();
    let mut push = |change: &dyn Fn(&mut Records)| {
        let mut records = changed(change);
        rehash(&mut records);
        all.extend(both_of(&records));
    };
    for at in TREES {
        for kind in CONSTANT..=CONCAT + 1 {
            push(&|r| r[at].kind = kind);
        }
        for size in [0, 1, 2, 3, 4, 258] {
            push(&|r| r[at].size = size);
        }
        for arg in [1, 63, 64, 255] {
            push(&|r| r[at].arg = arg);
        }
        for word in [1, 255, 256, u64::MAX] {
            push(&|r| r[at].literal = word);
        }
    }
    all.extend(single_trees());
    all
}

/// Forms of one atom: each kind over variables and over literals, and trees that are no tree.
fn single_trees() -> Vec<Entry> {
    let mut all = Vec::new();
    for kind in CONSTANT..=CONCAT {
        for (left, right) in [(true, true), (true, false), (false, true), (false, false)] {
            let leaf = |is_variable: bool, number: u16| match is_variable {
                true => variable(8, number),
                false => literal(8, u64::from(number) + 9),
            };
            let tree = match arity(kind) {
                0 => leaf(kind == VARIABLE, 1),
                1 => unary(kind, 0, leaf(left, 0)),
                _ => binary(kind, leaf(left, 0), leaf(right, 1)),
            };
            all.extend(both(of_tree(8, tree).bytes()));
        }
    }
    // a tree without a variable below a root with one, two roots, a head inside a tree
    let constant = binary(OR, unary(NOT, 0, literal(8, 3)), literal(8, 12));
    all.extend(both(of_tree(8, constant.clone()).bytes()));
    let below = binary(XOR, constant, variable(8, 0));
    all.extend(both(of_tree(8, below.clone()).bytes()));
    for at in 0..below.len() {
        for kind in [SUM, ATOM, TERM] {
            let mut tree = below.clone();
            tree[at].kind = kind;
            all.extend(both(with_tree(tree, 0)));
        }
    }
    let (first, last) = (variable(8, 0), unary(NOT, 0, variable(8, 1)));
    for hash in [published::hash(&first), published::hash(&last)] {
        all.extend(both(with_tree(
            [first.clone(), last.clone()].concat(),
            hash,
        )));
    }
    all.extend(both(with_tree(Vec::new(), 0)));
    all
}

/// `1·tree`.
pub fn of_tree(w: u8, tree: Records) -> Form {
    let mut form = Form::new(w, 0);
    form.push_term(HEAD_BYTE, tree, 1);
    form
}

/// `1·tree` at 8 bits, with a given hash: the tree need not be one.
fn with_tree(tree: Records, hash: u64) -> Vec<u8> {
    let mut form = Form::new(8, 0);
    form.atoms.push(Atom {
        head_byte: HEAD_BYTE,
        hash,
        tree,
    });
    form.terms.push(Term { atom: 0, coeff: 1 });
    form.bytes()
}

fn terms() -> Vec<Entry> {
    let mut all = Vec::new();
    // numbers equal, falling, and not of an atom
    for first in [0, 1, 2, 3, 256, 65_535] {
        for second in [0, 1, 2, 255, 256, 257, 65_535] {
            all.extend(both_of(&changed(|r| {
                r[TERMS[0]].size = first;
                r[TERMS[1]].size = second;
            })));
        }
    }
    // a third term, and none at all
    for number in 0..3 {
        let third = Record::new(TERM, 0, number, 8, 1);
        all.extend(both_of(&changed(|r| r.insert(SUM_AT, third))));
    }
    all.extend(both_of(&changed(|r| drop(r.drain(8..10)))));
    for coeff in [
        0,
        1,
        2,
        127,
        128,
        254,
        255,
        256,
        257,
        1 << 32,
        1 << 63,
        u64::MAX,
    ] {
        for at in TERMS {
            all.extend(both_of(&changed(|r| r[at].literal = coeff)));
        }
    }
    // a term where there is no atom
    let records = [Record::new(TERM, 0, 0, 8, 1), Record::new(SUM, 0, 0, 8, 7)];
    all.extend(both_of(&records));
    all
}

fn sums() -> Vec<Entry> {
    let sum = Record::new(SUM, 0, 0, 8, 7);
    let mut all = Vec::new();
    all.extend(both_of(&changed(|r| r.truncate(SUM_AT))));
    for at in 0..=SUM_AT {
        all.extend(both_of(&changed(|r| r.insert(at, sum))));
        all.extend(both_of(&changed(|r| {
            r.pop();
            r.insert(at, sum);
        })));
    }
    for last in [
        ZERO,
        Record { width: 8, ..ZERO },
        Record::new(TERM, 0, 1, 8, 1),
    ] {
        all.extend(both_of(&changed(|r| r.push(last))));
        all.extend(both_of(&changed(|r| r[SUM_AT] = last)));
        all.extend(both_of(&[sum, last]));
        all.extend(both_of(&[last, sum]));
        all.extend(both_of(&[last]));
    }
    all.extend(both_of(&[sum, sum]));
    for kind in [0, 1, 13, 31, 35, 160, 255] {
        all.extend(both_of(&changed(|r| r[SUM_AT].kind = kind)));
    }
    all
}

/// Records in another order.
fn orders() -> Vec<Entry> {
    let mut all = Vec::new();
    // the terms, one of them, before the atoms or between them; an atom after the terms
    all.extend(both_of(&changed(|r| r.rotate_left(8))));
    all.extend(both_of(&changed(|r| r[..10].rotate_left(8))));
    all.extend(both_of(&changed(|r| r[..9].rotate_left(8))));
    all.extend(both_of(&changed(|r| r[4..9].rotate_left(4))));
    all.extend(both_of(&changed(|r| r[4..10].rotate_left(4))));
    all.extend(both_of(&changed(|r| r[4..].rotate_left(4))));
    all.extend(both_of(&changed(|r| r.reverse())));
    // each record swapped with the next, taken out, and doubled
    for at in 0..SUM_AT {
        all.extend(both_of(&changed(|r| r.swap(at, at + 1))));
        all.extend(both_of(&changed(|r| drop(r.drain(at..=at)))));
        all.extend(both_of(&changed(|r| r.insert(at, r[at]))));
        all.extend(both_of(&changed(|r| r.insert(at, ZERO))));
    }
    // the two atoms exchanged: a form again
    all.extend(both_of(&changed(|r| r[..8].rotate_left(4))));
    all
}

fn widths() -> Vec<Entry> {
    let mut all = Vec::new();
    for w in [0, 1, 2, 8, 63, 64, 65, 66, 128, 255] {
        let everywhere = |records: &mut Records| {
            for record in records {
                record.width = w;
            }
        };
        all.extend(both_of(&changed(everywhere)));
        all.extend(both_of(&[Record::new(SUM, 0, 0, w, 0)]));
    }
    // one record of another width, and all but the sum record
    for w in [0, 7, 64, 65] {
        for at in 0..=SUM_AT {
            all.extend(both_of(&changed(|r| r[at].width = w)));
        }
    }
    all.extend(both_of(&changed(|r| {
        r[..SUM_AT].iter_mut().for_each(|record| record.width = 9);
    })));
    all
}
