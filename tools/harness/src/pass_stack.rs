//! The stack and the time of the passes and the columns, on the forms that may take the most of
//! either.

use std::hint::black_box;

use crate::bench_forms;
use crate::columns::{self, RESULT_WORDS};
use crate::form::{Form, HEAD_BYTE, MAX_TREE_RECORDS, RESULT_BYTES};
use crate::library_forms as library;
use crate::measure::stack_used;
use crate::pass::{self, Pass, PASSES};
use crate::record::{binary, literal, nested, variable, Records, AND, NOT};
use crate::stack::{forms, show_stack, show_time};
use crate::stacked_cases::{chain, doubling};

const COLUMNS: &str = "hogzelt_compute_partitions";

/// The passes beside compaction, which stack.rs measures.
fn passes() -> impl Iterator<Item = Pass> {
    PASSES.into_iter().filter(|pass| *pass != Pass::Compact)
}

fn shapes() -> Vec<(&'static str, Vec<u8>)> {
    let mut shapes = forms();
    let mask = || literal(64, 15);
    let (leaf, depth) = (variable(64, 0), MAX_TREE_RECORDS - 3);
    let deep_basis = binary(AND, nested(&[NOT], depth, leaf.clone()), mask());
    let masked = |leaf| nested(&[NOT], depth, binary(AND, leaf, mask()));
    for (shape, tree) in [
        ("nested Not, masked", deep_basis),
        ("nested Not of a masked variable", masked(leaf)),
        ("nested Not of v65535, masked", masked(variable(64, 65_535))),
    ] {
        let mut form = Form::new(64, 1);
        form.push_term(HEAD_BYTE, tree, 16);
        shapes.push((shape, form.bytes()));
    }
    for (shape, tree) in masks_upon_masks() {
        let mut form = Form::new(64, 1);
        form.push_term(HEAD_BYTE, tree, 16);
        shapes.push((shape, form.bytes()));
    }
    shapes.push(("256 entries of a group", bench_forms::one_group().bytes()));
    shapes.push((
        "256 atoms of 5 variables, 64 unlike places",
        bench_forms::places().bytes(),
    ));
    shapes
}

/// Trees that are split in many steps, each shape at four sizes, doubled up to the longest that there is.
fn masks_upon_masks() -> Vec<(&'static str, Records)> {
    let leaf = || variable(64, 0);
    let mask = |i: usize| literal(64, !(1 << (i % 60)));
    let long = |i: usize| nested(&[NOT], 14, mask(i));
    let mut all = Vec::new();
    for halved in [3, 2, 1, 0] {
        let records = MAX_TREE_RECORDS >> halved;
        let count = (records - 1) / 2;
        all.extend([
            ("masks on the right", chain(leaf(), count, |_| false, mask)),
            ("masks on the left", chain(leaf(), count, |_| true, mask)),
            (
                "masks on both sides",
                chain(leaf(), count, |i| i % 2 == 0, mask),
            ),
            (
                "masks that are trees",
                chain(leaf(), (records - 1) / 16, |i| i % 2 == 0, long),
            ),
            (
                "masks as long as what they stand over",
                doubling(64, records),
            ),
        ]);
    }
    let depth = MAX_TREE_RECORDS - 3;
    let deep_mask = binary(AND, leaf(), nested(&[NOT], depth, mask(0)));
    all.push(("nested Not as a mask", deep_mask));
    all
}

/// The most stack that a call used.
pub fn stacks() -> Result<usize, String> {
    let mut most = 0;
    for (shape, form) in shapes() {
        // the result slice is the caller's and not counted
        let mut out = vec![1; RESULT_BYTES];
        for pass in passes() {
            let function = format!("hogzelt_{}", pass.name());
            let mut answer = [0; 4];
            let used = stack_used(&mut || answer = library::pass_into(pass, &form, &mut out))?;
            let wanted = pass::answer(pass, &form, RESULT_BYTES);
            if answer != wanted.numbers() || out != wanted.out {
                return Err(format!("{function} differs from the Rust: {shape}"));
            }
            most = show_stack(&function, shape, &form, used, most);
        }
        let mut out = vec![1; RESULT_WORDS];
        let mut answer = [0; 2];
        let used = stack_used(&mut || answer = library::columns_into(&form, &mut out))?;
        let wanted = columns::answer(&form, RESULT_WORDS);
        if answer != [wanted.refusal, wanted.classes] || out != wanted.out {
            return Err(format!("{COLUMNS} differs from the Rust: {shape}"));
        }
        most = show_stack(COLUMNS, shape, &form, used, most);
    }
    Ok(most)
}

/// Times for each shape.
pub fn times() {
    for (shape, form) in shapes() {
        let mut out = vec![1; RESULT_BYTES];
        for pass in passes() {
            show_time(&format!("hogzelt_{}", pass.name()), shape, &form, || {
                black_box(library::pass_into(pass, &form, &mut out));
            });
        }
        let mut out = vec![1; RESULT_WORDS];
        show_time(COLUMNS, shape, &form, || {
            black_box(library::columns_into(&form, &mut out));
        });
    }
}
