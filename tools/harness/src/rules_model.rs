//! Normalising by the rules that its caller names (document 02, request #109), written from the
//! request. Under rules 2 the records are rewritten, first the literals and then each Not, to a
//! list that is as long as it gets, and that list is normalised under rules 1 (normal_model.rs).
//! Both steps go over the list of records and put others in their places; the sizes are counted
//! again after.

use crate::model;
use crate::normal_model;
use crate::record::{
    arity, split, Record, Records, ADD, AND, CONSTANT, MUL, NEG, NOT, OR, VARIABLE, XOR,
};
use crate::refusal::RULES;
use crate::written::{self, Written};

/// The rules of the autumn archive, and those of the spring season.
pub const FIRST: u64 = 1;
pub const SECOND: u64 = 2;

/// All that normalising by `rules` gives for the bytes of an expression and a result slice of
/// `length` bytes.
pub fn answer(rules: u64, file: &[u8], length: usize) -> Written {
    match rules {
        FIRST => normal_model::answer(file, length),
        SECOND => second(file, length),
        _ => written::refused(RULES, length),
    }
}

/// Refusals 1 to 6 are of the file as it is given, 8 and 9 of the rewritten tangle.
fn second(file: &[u8], length: usize) -> Written {
    let refusal = normal_model::refusal(file, length);
    if refusal != 0 {
        return written::refused(refusal, length);
    }
    match normal_model::form(&rewritten(&split(file))) {
        Ok(form) => written::written(&form),
        Err(refusal) => written::refused(refusal, length),
    }
}

/// The tangle that rules 1 are given in place of a valid one.
pub fn rewritten(tree: &[Record]) -> Records {
    with_sums_for_nots(&with_literals(tree))
}

/// The places of the records below the one at `at`.
fn below(tree: &[Record], at: usize) -> std::ops::Range<usize> {
    at + 1 - usize::from(tree[at].size)..at
}

/// Every variable-free subtree below And, Or, Xor or Not as one literal, cut to w bits. From the
/// root on, so that of two subtrees, one in the other, the outer one is met first.
pub fn with_literals(tree: &[Record]) -> Records {
    let mut is_below = vec![false; tree.len()];
    for (at, record) in tree.iter().enumerate() {
        if matches!(record.kind, AND | OR | XOR | NOT) {
            is_below[below(tree, at)].fill(true);
        }
    }
    let mut from_root = Vec::new();
    let mut end = tree.len();
    while end > 0 {
        let root = end - 1;
        let whole = &tree[below(tree, root).start..end];
        if is_below[root] && whole.iter().all(|record| record.kind != VARIABLE) {
            let value = model::value(whole, &[]);
            from_root.push(Record::new(CONSTANT, 0, 1, tree[root].width, value));
            end -= whole.len();
        } else {
            from_root.push(tree[root]);
            end -= 1;
        }
    }
    from_root.reverse();
    sized(from_root)
}

/// Each Not with an Add, Mul or Neg below it as -e - 1: its record gives way to a Neg, the literal
/// 2^w - 1 and an Add.
pub fn with_sums_for_nots(tree: &[Record]) -> Records {
    let mut list = Vec::new();
    for (at, record) in tree.iter().enumerate() {
        let is_sum = |below: &Record| matches!(below.kind, ADD | MUL | NEG);
        if record.kind != NOT || !tree[below(tree, at)].iter().any(is_sum) {
            list.push(*record);
            continue;
        }
        let (w, ones) = (record.width, u64::MAX >> (64 - record.width));
        list.push(Record::new(NEG, 0, 0, w, 0));
        list.push(Record::new(CONSTANT, 0, 0, w, ones));
        list.push(Record::new(ADD, 0, 0, w, 0));
    }
    sized(list)
}

/// The same records with the sizes that they have in this list.
fn sized(mut list: Records) -> Records {
    let mut sizes: Vec<u16> = Vec::new();
    for record in &mut list {
        let children = sizes.split_off(sizes.len() - arity(record.kind));
        record.size = 1 + children.iter().sum::<u16>();
        sizes.push(record.size);
    }
    list
}
