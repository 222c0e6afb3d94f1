//! Random pairs of semilinear forms for the judge: forms beside what a pass makes of them, which
//! are equal by the passes' claims, the same with a slip, and pairs that are refused.

use crate::form::{Form, HEAD_BYTE, RESULT_BYTES};
use crate::form_model;
use crate::form_random;
use crate::judge_cases::Pair;
use crate::judge_forms::{pair, sheet};
use crate::judge_model::{of_forms, Verdict};
use crate::judge_random;
use crate::normal_model;
use crate::normal_random::{either, number, pure};
use crate::numbers;
use crate::pass::{self, PASSES};
use crate::prng::Prng;
use crate::random;
use crate::record::{
    self, binary, literal, unary, variable, Record, AND, OR, RECORD_BYTES, SHR, VARIABLE, XOR,
};
use crate::{pass_atoms, pass_cases, pass_groups};

/// A form has up to so many atoms here.
const MOST_ATOMS: usize = 24;

/// A form that is judged: at most five variables, and no shifts over them.
fn judged(rng: &mut Prng) -> Form {
    let families = [
        pass_groups::one,
        pass_groups::apart,
        pass_groups::several,
        pass_groups::bare,
        pass_atoms::atoms,
    ];
    loop {
        let make: fn(&mut Prng, u8) -> Form = rng.pick(&families);
        let w = random::width(rng);
        let form = match rng.below(4) {
            0 => read(&pass_cases::expression(rng).1),
            _ => make(rng, w),
        };
        let bytes = form.bytes();
        if form.atoms.len() <= MOST_ATOMS && of_forms(&bytes, &bytes) == Verdict::EQUAL {
            return form;
        }
    }
}

fn read(bytes: &[u8]) -> Form {
    form_model::read(bytes).expect("a form")
}

/// A form that a pass makes another of, and that other one.
fn passed_once(rng: &mut Prng) -> (Form, Form) {
    loop {
        let before = judged(rng);
        let answer = pass::answer(rng.pick(&PASSES), &before.bytes(), RESULT_BYTES);
        if answer.refusal == 0 && answer.form() != before.bytes() {
            return (before, read(answer.form()));
        }
    }
}

/// `count` pairs of forms, each in either order.
fn pairs(rng: &mut Prng, count: usize, make: fn(&mut Prng) -> (Form, Form)) -> Vec<Pair> {
    judge_random::either_order(rng, count, make, pair)
}

/// Forms beside what a pass makes of them.
pub fn passed(rng: &mut Prng, count: usize) -> Vec<Pair> {
    pairs(rng, count, passed_once)
}

/// The same with a slip.
pub fn slipped(rng: &mut Prng, count: usize) -> Vec<Pair> {
    pairs(rng, count, |rng| {
        let (left, mut right) = passed_once(rng);
        slip(rng, &mut right);
        (left, right)
    })
}

/// Adds a term at one place, or changes one bit of the constant.
fn slip(rng: &mut Prng, form: &mut Form) {
    let w = form.width;
    let one = 1 << rng.below(usize::from(w));
    let trees = form.atoms.iter().flat_map(|atom| &atom.tree);
    let numbers: Vec<u16> = trees
        .filter(|record| record.kind == VARIABLE)
        .map(|record| record.arg)
        .collect();
    if numbers.is_empty() || rng.one_in(8) {
        form.constant ^= one;
        return;
    }
    let leaf = variable(w, rng.pick(&numbers));
    match rng.one_in(4) {
        true => form.push_term(HEAD_BYTE, leaf, one),
        false => form.push_term(HEAD_BYTE, binary(AND, leaf, literal(w, one)), 1),
    }
}

/// The forms of two expressions: a sum and its rewriting, some with a slip.
pub fn normalised(rng: &mut Prng, count: usize) -> Vec<Pair> {
    let mut all = Vec::new();
    while all.len() < count {
        let pair = match rng.one_in(2) {
            true => judge_random::rewritings(rng, 1).remove(0),
            false => judge_random::one_place(rng, 1).remove(0),
        };
        let answers =
            [&pair.left, &pair.right].map(|file| normal_model::answer(file, RESULT_BYTES));
        if answers.iter().all(|answer| answer.refusal == 0) {
            let [left, right] = answers.map(|answer| answer.form().to_vec());
            all.push(Pair { left, right });
        }
    }
    all
}

/// One atom beside the sum that normalising makes of it, where that is another form.
pub fn one_atom(rng: &mut Prng, count: usize) -> Vec<Pair> {
    pairs(rng, count, |rng| loop {
        let atom = masked(rng);
        let sum = normal_model::form(&atom.atoms[0].tree).expect("a bitwise tree");
        if atom != sum {
            return (atom, sum);
        }
    })
}

/// A form of one atom, a bitwise tree beside a literal.
fn masked(rng: &mut Prng) -> Form {
    let (w, records, variables) = (random::width(rng), 1 + rng.below(8), 1 + rng.below(5));
    let tree = pure(rng, records, variables, w);
    let mask = number(rng, w);
    let kind = rng.pick(&[AND, OR, XOR, XOR]);
    sheet(w, &[(1, either(rng, kind, tree, mask))], 0)
}

/// Equal and unlike pairs with atoms more, on both sides, that have no term.
pub fn unused(rng: &mut Prng, count: usize) -> Vec<Pair> {
    pairs(rng, count, |rng| {
        let (mut left, mut right) = passed_once(rng);
        if rng.one_in(2) {
            slip(rng, &mut right);
        }
        for form in [&mut left, &mut right] {
            for _ in 0..rng.below(3) {
                let leaf = variable(form.width, rng.below(6) as u16);
                let shift = match rng.one_in(8) {
                    true => rng.byte() % 64,
                    false => 0,
                };
                form.push(HEAD_BYTE, unary(SHR, shift, leaf));
            }
        }
        (left, right)
    })
}

/// Equal and unlike pairs whose variables have numbers over the whole range.
pub fn wide_numbers(rng: &mut Prng, count: usize) -> Vec<Pair> {
    let mut made = passed(rng, count / 2);
    made.extend(slipped(rng, count - made.len()));
    for pair in &mut made {
        let mut records = record::split(&[&pair.left[..], &pair.right].concat());
        numbers::rename(rng, &mut records);
        let (left, right) = records.split_at_mut(pair.left.len() / RECORD_BYTES);
        (pair.left, pair.right) = (rehashed(left), rehashed(right));
    }
    made
}

/// The bytes of the records with the hashes that their trees have.
fn rehashed(records: &mut [Record]) -> Vec<u8> {
    form_random::rehash(records);
    record::bytes(records)
}

/// Damage in one or both; they may still be forms.
pub fn damaged(rng: &mut Prng, count: usize) -> Vec<Pair> {
    (0..count)
        .map(|_| {
            let (left, right) = passed_once(rng);
            let mut pair = pair(&left, &right);
            let which = rng.below(3);
            if which != 0 {
                pair.left = form_random::damaged(rng, &left);
            }
            if which != 1 {
                pair.right = form_random::damaged(rng, &right);
            }
            pair
        })
        .collect()
}
