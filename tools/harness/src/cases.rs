//! All cases of the vector file: the hand-chosen expression files, random and damaged ones, hashes,
//! calls of the mask functions, semilinear forms, expressions to be normalised, forms for the passes
//! and columns, lists of passes, normalising by rules, and pairs that are judged, of
//! expressions and of forms.

use crate::entry::{
    self, Entry, CHANGE_COEFFICIENT, CHANGE_MASK, COALESCE, FLATTEN, RECOVER, REDUCE_MASK, REFINE,
};
use crate::family::Family;
use crate::form::{Form, RESULT_BYTES};
use crate::prng::Prng;
use crate::random::{self, Kinds};
use crate::record::{
    self, balanced, binary, literal, nested, smallest, unary, variable, ADD, MAX_RECORDS, NEG, SHR,
    XOR,
};
use crate::{
    edges, form_edges, form_limits, form_random, judge_cases, judge_forms, list, list_cases, masks,
    normal_cases, number_cases, pass_cases, published, rules_cases, stacked_cases, sum_cases,
};

/// The seed of the vector file: the letters of "hogzelt".
pub const SEED: u64 = 0x0068_6F67_7A65_6C74;
/// Added to the seed for variables of two bytes, so that the other random cases stay as they are.
pub const NUMBER_SEED: u64 = 20;
/// The same for numbers that are written as sums.
const SUM_SEED: u64 = 40;
/// The same for masks upon masks.
const STACKED_SEED: u64 = 60;
/// The same for normalising by rules.
const RULES_SEED: u64 = 80;
/// The same for pairs that are judged.
const JUDGE_SEED: u64 = 100;
/// The same for pairs of forms that are judged.
const JUDGE_FORMS_SEED: u64 = 120;

const RANDOM_TREES: usize = 700;
const RANDOM_ALL_KINDS: usize = 200;
const DAMAGED_TREES: usize = 400;
const RANDOM_HASHES: usize = 300;
const RANDOM_MASKS: usize = 300;
const RANDOM_FORMS: usize = 30;
const NORMALISED_FORMS: usize = 20;
const DAMAGED_FORMS: usize = 150;

/// All entries of the vector file, in order.
pub fn entries() -> Vec<Entry> {
    let mut all = edges::entries();
    let rng = &mut Prng::new(SEED);
    all.extend((0..RANDOM_TREES).map(|_| random_value(rng, Kinds::Accepted)));
    all.extend((0..RANDOM_ALL_KINDS).map(|_| random_value(rng, Kinds::All)));
    all.extend((0..DAMAGED_TREES).map(|_| damaged_value(rng)));
    all.extend(whole_files(rng));
    all.extend(hashes(rng));
    for call in masks::edges() {
        all.push(entry::mask(call.kind, call.numbers, call.w));
    }
    for kind in [REDUCE_MASK, CHANGE_MASK, CHANGE_COEFFICIENT] {
        for _ in 0..RANDOM_MASKS {
            let call = masks::random(rng, kind);
            all.push(entry::mask(kind, call.numbers, call.w));
        }
    }
    all.extend(form_edges::entries());
    all.extend(form_limits::entries(rng));
    all.extend(random_forms(rng));
    for family in &normal_cases::FAMILIES {
        all.extend(normal_entries(rng, family));
    }
    for family in &pass_cases::FAMILIES {
        all.extend(pass_entries(rng, family));
    }
    for family in &list_cases::FAMILIES {
        all.extend(list_entries(rng, family));
    }
    all.extend(number_entries(&mut Prng::new(SEED + NUMBER_SEED)));
    let rng = &mut Prng::new(SEED + SUM_SEED);
    for family in &sum_cases::NORMAL {
        all.extend(normal_entries(rng, family));
    }
    for family in &sum_cases::LISTS {
        all.extend(list_entries(rng, family));
    }
    let rng = &mut Prng::new(SEED + STACKED_SEED);
    for family in &stacked_cases::FORMS {
        all.extend(pass_entries(rng, family));
    }
    for family in &stacked_cases::LISTS {
        all.extend(list_entries(rng, family));
    }
    let rules = rules_cases::stored(&mut Prng::new(SEED + RULES_SEED));
    all.extend(rules.into_iter().map(entry::by_rules));
    let pairs = judge_cases::stored(&mut Prng::new(SEED + JUDGE_SEED));
    all.extend(pairs.into_iter().map(entry::judge));
    let pairs = judge_forms::stored(&mut Prng::new(SEED + JUDGE_FORMS_SEED));
    all.extend(pairs.into_iter().map(entry::judge_forms));
    all
}

/// The entries over variables of two bytes.
fn number_entries(rng: &mut Prng) -> Vec<Entry> {
    let mut all = number_cases::entries(rng);
    for family in &number_cases::NORMAL {
        all.extend(normal_entries(rng, family));
    }
    for family in &number_cases::FORMS {
        all.extend(pass_entries(rng, family));
    }
    for family in &number_cases::LISTS {
        all.extend(list_entries(rng, family));
    }
    all
}

fn normal_entries(rng: &mut Prng, family: &Family<normal_cases::Case>) -> Vec<Entry> {
    let cases = (family.make)(rng, family.stored).into_iter();
    cases
        .map(|case| entry::normalize(case.file, case.length))
        .collect()
}

fn pass_entries(rng: &mut Prng, family: &Family<pass_cases::Case>) -> Vec<Entry> {
    let mut all = Vec::new();
    for case in (family.make)(rng, family.stored) {
        let bytes = case.bytes();
        for kind in [REFINE, FLATTEN, RECOVER, COALESCE] {
            all.push(entry::pass(kind, case.file.clone(), bytes));
        }
        all.push(entry::columns(case.file.clone(), case.words()));
    }
    all
}

fn list_entries(rng: &mut Prng, family: &Family<list::Case>) -> Vec<Entry> {
    let cases = (family.make)(rng, family.stored);
    cases.into_iter().map(entry::run).collect()
}

/// Random forms, forms that the Rust's normaliser makes, and damaged ones, for both functions.
fn random_forms(rng: &mut Prng) -> Vec<Entry> {
    let mut all = Vec::new();
    let mut push = |rng: &mut Prng, form: &Form, bytes: Vec<u8>| {
        all.push(form_value(rng, form, bytes.clone()));
        all.push(entry::compact(bytes, RESULT_BYTES));
    };
    for _ in 0..RANDOM_FORMS {
        let form = random_form(rng, 40);
        push(rng, &form, form.bytes());
    }
    for _ in 0..NORMALISED_FORMS {
        let form = normalised_form(rng);
        push(rng, &form, form.bytes());
    }
    for _ in 0..DAMAGED_FORMS {
        let form = random_form(rng, 4);
        let bytes = form_random::damaged(rng, &form);
        push(rng, &form, bytes);
    }
    all
}

/// The form that the Rust's normaliser makes of a random expression which it takes.
pub fn normalised_form(rng: &mut Prng) -> Form {
    loop {
        let w = random::width(rng);
        let count = 8 + rng.below(24);
        let records = random::expression(rng, count, w, Kinds::Accepted);
        if let Ok(form) = published::normalized(&records) {
            return form;
        }
    }
}

/// A random valid form of 1 to `most` atoms.
pub fn random_form(rng: &mut Prng, most: usize) -> Form {
    let w = random::width(rng);
    let atoms = 1 + rng.below(most);
    form_random::form(rng, atoms, 8, w)
}

/// The value of `bytes`, which come from `form`, under a random assignment.
pub fn form_value(rng: &mut Prng, form: &Form, bytes: Vec<u8>) -> Entry {
    entry::form_value(bytes, random::assignment(rng, form.width))
}

/// A random expression of 1 to 40 records under a random assignment.
pub fn random_value(rng: &mut Prng, kinds: Kinds) -> Entry {
    let w = random::width(rng);
    let count = 1 + rng.below(40);
    let file = record::bytes(&random::expression(rng, count, w, kinds));
    entry::value(file, random::assignment(rng, w))
}

/// A damaged copy of a random accepted expression.
pub fn damaged_value(rng: &mut Prng) -> Entry {
    let w = random::width(rng);
    let count = 1 + rng.below(24);
    let file = record::bytes(&random::expression(rng, count, w, Kinds::Accepted));
    entry::value(random::damaged(rng, &file), random::assignment(rng, w))
}

/// Random expressions of the greatest length, whole and damaged.
fn whole_files(rng: &mut Prng) -> Vec<Entry> {
    let mut all = Vec::new();
    for w in [8, 64] {
        let file = record::bytes(&random::expression(rng, MAX_RECORDS, w, Kinds::Accepted));
        all.push(entry::value(file.clone(), random::assignment(rng, w)));
        let words = random::assignment(rng, w);
        all.push(entry::value(random::damaged(rng, &file), words));
    }
    all
}

fn hashes(rng: &mut Prng) -> Vec<Entry> {
    let mut all = hash_edges();
    for _ in 0..RANDOM_HASHES {
        let w = random::width(rng);
        let count = 1 + rng.below(40);
        all.push(entry::hash(&random::expression(
            rng,
            count,
            w,
            Kinds::Accepted,
        )));
    }
    let whole = random::expression(rng, MAX_RECORDS, 64, Kinds::Accepted);
    all.push(entry::hash(&whole));
    all
}

/// Hashes of leaves, of each kind over leaves, of mirrored children and of the longest files.
fn hash_edges() -> Vec<Entry> {
    let mut all = Vec::new();
    for number in [0, 1, 2, 3, 127, 128, 254, 255] {
        all.push(entry::hash(&variable(8, number)));
    }
    for value in [0, 1, 2, 255, 256, 1 << 32, 1 << 63, u64::MAX] {
        // literals are hashed uncut: the width does not matter
        for w in [1, 8, 64] {
            all.push(entry::hash(&literal(w, value)));
        }
    }
    for count in [0, 1, 31, 32, 62, 63] {
        all.push(entry::hash(&unary(SHR, count, variable(8, 0))));
    }
    for kind in ADD..=NEG {
        all.push(entry::hash(&smallest(kind, 0, 8)));
    }
    for kind in ADD..=XOR {
        all.push(entry::hash(&binary(kind, variable(8, 1), variable(8, 0))));
    }
    let sum = balanced(ADD, 0, 512, &|i| variable(8, i as u16 % 256));
    all.push(entry::hash(&sum));
    all.push(entry::hash(&nested(&[NEG], 1023, variable(8, 0))));
    all
}
