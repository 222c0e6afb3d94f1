//! The stack and the time of the exported functions that walk trees, on the shapes that may take the
//! most of either.

use std::hint::black_box;

use crate::cases::SEED;
use crate::form::{Form, ATOM, HEAD_BYTE, MAX_ATOMS, MAX_TREE_RECORDS, RESULT_BYTES, SUM};
use crate::form_model;
use crate::form_random;
use crate::judge_stack;
use crate::library;
use crate::library_forms::pass_into;
use crate::list_stack;
use crate::measure::{stack_used, time_of};
use crate::model;
use crate::normal_stack;
use crate::number_cases::of_512;
use crate::pass::Pass;
use crate::pass_stack;
use crate::prng::Prng;
use crate::random::{self, Kinds};
use crate::record::{
    balanced, bytes, left_chain, left_turns, nested, right_chain, right_turns, unary, variable,
    Record, Records, ADD, AND, MAX_RECORDS, NEG, NOT, RECORD_BYTES, SHR, XOR,
};
use crate::rules_stack;
use crate::week_compare;

const VARS: [u64; 3] = [1, 2, 3];

/// The most stack that a call of any exported function may use. No input is known that takes more; the
/// aim is 400,000.
const STACK_BAR: usize = 447_000;

pub fn run() -> Result<(), String> {
    println!("stack, no call: {} bytes", stack_used(&mut || {})?);
    let most = expression_stacks()?
        .max(form_stacks()?)
        .max(normal_stack::stacks()?)
        .max(rules_stack::stacks()?)
        .max(list_stack::stacks()?)
        .max(pass_stack::stacks()?)
        .max(week_compare::stacks()?)
        .max(judge_stack::stacks()?);
    println!("stack, most: {most} bytes");
    if most > STACK_BAR {
        return Err(format!(
            "a call used {most} bytes of stack, more than {STACK_BAR}"
        ));
    }
    expression_times();
    form_times();
    pass_stack::times();
    week_compare::times();
    judge_stack::times();
    normal_stack::times()?;
    rules_stack::times()
}

/// Prints what a call used, and gives the most of it and `most`.
pub fn show_stack(function: &str, shape: &str, file: &[u8], used: usize, most: usize) -> usize {
    let records = file.len() / RECORD_BYTES;
    println!("stack, {function}, {shape} (records: {records}): {used} bytes");
    most.max(used)
}

fn expression_stacks() -> Result<usize, String> {
    let mut most = 0;
    for (shape, file) in expressions() {
        let mut answer = None;
        let used = stack_used(&mut || answer = Some(library::expr_value(&file, &VARS)))?;
        if answer != Some(model::answer(&file, &VARS)) {
            return Err(format!(
                "hogzelt_expr_value differs from the model: {shape}"
            ));
        }
        most = show_stack("hogzelt_expr_value", shape, &file, used, most);
    }
    Ok(most)
}

/// One leaf, and the shapes that may use the most stack, as long as a file may be.
fn expressions() -> Vec<(&'static str, Vec<u8>)> {
    let leaf = |i: usize| variable(64, i as u16 % 256);
    let depth = MAX_RECORDS - 1;
    let chain = |kind: u8| nested(&[kind], depth, leaf(0));
    let mut damaged = chain(NEG);
    damaged[0].size = 2;
    let shapes: Vec<(&'static str, Records)> = vec![
        ("one leaf", leaf(0)),
        ("nested Neg", chain(NEG)),
        ("nested Not", chain(NOT)),
        ("nested Shr", chain(SHR)),
        ("left chain of Add", left_chain(ADD, 512, leaf)),
        ("right chain of Add", right_chain(ADD, 512, leaf)),
        (
            "Neg and Add by turns, left",
            left_turns(NEG, ADD, 341, leaf(0)),
        ),
        (
            "Neg and Add by turns, right",
            right_turns(NEG, ADD, 341, leaf(0)),
        ),
        ("balanced sum", balanced(ADD, 0, 512, &leaf)),
        ("Xor of 512 variables", of_512(XOR, 65_024)),
        ("nested Neg, wrong deepest size", damaged),
    ];
    shapes
        .into_iter()
        .map(|(name, records)| (name, bytes(&records)))
        .collect()
}

fn form_stacks() -> Result<usize, String> {
    let mut most = 0;
    for (shape, form) in forms() {
        let mut answer = None;
        let used = stack_used(&mut || answer = Some(library::semilinear_value(&form, &VARS)))?;
        if answer != Some(form_model::answer(&form, &VARS)) {
            return Err(format!(
                "hogzelt_semilinear_value differs from the model: {shape}"
            ));
        }
        most = show_stack("hogzelt_semilinear_value", shape, &form, used, most);
        // the result slice is the caller's and not counted
        let mut out = vec![1; RESULT_BYTES];
        let mut answer = [0; 4];
        let compact = &mut || answer = pass_into(Pass::Compact, &form, &mut out);
        let used = stack_used(compact)?;
        let wanted = form_model::compact(&form, RESULT_BYTES);
        if answer != wanted.numbers() || out != wanted.out {
            return Err(format!(
                "hogzelt_compact_atom_table differs from the model: {shape}"
            ));
        }
        most = show_stack("hogzelt_compact_atom_table", shape, &form, used, most);
    }
    Ok(most)
}

/// Forms of one atom, whose tree is as deep as it may be, and the longest form.
pub fn forms() -> Vec<(&'static str, Vec<u8>)> {
    let leaf = |i: usize| variable(64, i as u16 % 256);
    let leaves = MAX_TREE_RECORDS / 2;
    let turns = (MAX_TREE_RECORDS - 1) / 3;
    let trees: [(&'static str, Records); 6] = [
        ("nested Not", nested(&[NOT], MAX_TREE_RECORDS - 1, leaf(0))),
        ("nested Shr", nested(&[SHR], MAX_TREE_RECORDS - 1, leaf(0))),
        (
            "Not of a left chain of And",
            unary(NOT, 0, left_chain(AND, leaves, leaf)),
        ),
        (
            "Not of a right chain of And",
            unary(NOT, 0, right_chain(AND, leaves, leaf)),
        ),
        (
            "Not and And by turns, left",
            left_turns(NOT, AND, turns, leaf(0)),
        ),
        (
            "Not and And by turns, right",
            right_turns(NOT, AND, turns, leaf(0)),
        ),
    ];
    let mut forms = Vec::new();
    for (shape, tree) in trees {
        let mut form = Form::new(64, 1);
        form.push_term(HEAD_BYTE, tree, 3);
        forms.push((shape, form.bytes()));
    }
    forms.push((
        "256 atoms",
        form_random::full(&mut Prng::new(SEED), 64).bytes(),
    ));
    forms.push(("nested Not without a leaf (refused)", no_leaf()));
    forms
}

/// The longest walk of the validator: one atom of more records than all may have, Not below Not and no
/// leaf.
fn no_leaf() -> Vec<u8> {
    let size = RESULT_BYTES / RECORD_BYTES - 2;
    let mut records = vec![Record::new(ATOM, HEAD_BYTE.into(), size, 64, 0)];
    records.extend((1..=size).map(|size| Record::new(NOT, 0, size, 64, 0)));
    records.push(Record::new(SUM, 0, 0, 64, 0));
    bytes(&records)
}

fn expression_times() {
    let small = small_files();
    let records: usize = small.iter().map(|file| file.len() / RECORD_BYTES).sum();
    let per_call = time_of(|| {
        for file in &small {
            black_box(library::expr_value(file, &VARS));
        }
    }) / small.len() as f64;
    println!(
        "time, hogzelt_expr_value, small expressions ({:.1} records): {:.0} values per second",
        records as f64 / small.len() as f64,
        1e9 / per_call
    );
    let deep = bytes(&nested(&[NEG], MAX_RECORDS - 1, variable(64, 0)));
    let wide = bytes(&balanced(ADD, 0, 512, &|i| variable(64, i as u16 % 256)));
    for (shape, file) in [("nested Neg", deep), ("balanced sum", wide)] {
        show_time("hogzelt_expr_value", shape, &file, || {
            black_box(library::expr_value(&file, &VARS));
        });
    }
}

/// A thousand accepted expressions of 3 to 11 records.
fn small_files() -> Vec<Vec<u8>> {
    let rng = &mut Prng::new(SEED);
    (0..1000)
        .map(|_| {
            let count = 3 + rng.below(9);
            bytes(&random::expression(rng, count, 64, Kinds::Accepted))
        })
        .collect()
}

fn form_times() {
    for (shape, form) in timed_forms() {
        show_time("hogzelt_semilinear_value", shape, &form, || {
            black_box(library::semilinear_value(&form, &VARS));
        });
        let mut out = vec![1; RESULT_BYTES];
        show_time("hogzelt_compact_atom_table", shape, &form, || {
            black_box(pass_into(Pass::Compact, &form, &mut out));
        });
    }
}

/// The longest form, with all terms and with every other one; 256 variables; and one deep atom.
fn timed_forms() -> Vec<(&'static str, Vec<u8>)> {
    let full = form_random::full(&mut Prng::new(SEED), 64);
    let mut half = full.clone();
    half.terms.retain(|term| term.atom % 2 == 1);
    let mut small = Form::new(64, 1);
    for number in 0..MAX_ATOMS {
        small.push_term(HEAD_BYTE, variable(64, number as u16 % 256), 3);
    }
    let mut deep = Form::new(64, 1);
    deep.push_term(
        HEAD_BYTE,
        nested(&[NOT], MAX_TREE_RECORDS - 1, variable(64, 0)),
        3,
    );
    vec![
        ("256 atoms of 12", full.bytes()),
        ("256 atoms of 12, half of them unused", half.bytes()),
        ("256 atoms of 1", small.bytes()),
        ("nested Not", deep.bytes()),
    ]
}

pub fn show_time(function: &str, shape: &str, file: &[u8], work: impl FnMut()) {
    let records = file.len() / RECORD_BYTES;
    println!(
        "time, {function}, {shape} (records: {records}): {:.1} ns per record",
        time_of(work) / records as f64
    );
}
