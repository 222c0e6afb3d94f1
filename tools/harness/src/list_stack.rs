//! The stack of a list of passes, which must be the same for ten calls and for ten thousand.

use crate::form::RESULT_BYTES;
use crate::library_forms::run_into;
use crate::list::{self, words, Case};
use crate::measure::stack_used;
use crate::normal_limits::chain;
use crate::normal_stack::over_not;
use crate::pass::PASSES;
use crate::record::{
    balanced, binary, bytes, literal, nested, variable, Records, ADD, AND, MAX_RECORDS, NOT, XOR,
};
use crate::stack::show_stack;

const FUNCTION: &str = "hogzelt_run_passes";

/// The five passes in order, `rounds` times.
fn rounds(tree: &Records, rounds: usize) -> Case {
    let round = PASSES.map(|pass| (pass, RESULT_BYTES));
    Case {
        file: bytes(tree),
        words: words(&round.repeat(rounds)),
        sheet: RESULT_BYTES,
        spare: RESULT_BYTES,
    }
}

/// The most stack that a call used.
pub fn stacks() -> Result<usize, String> {
    let mut most = 0;
    for (shape, tree) in shapes() {
        let ten = stack(shape, &rounds(&tree, 2), &mut most)?;
        let long = stack(shape, &rounds(&tree, 2_000), &mut most)?;
        if long != ten {
            return Err(format!("{FUNCTION}: the stack changes with the list"));
        }
    }
    Ok(most)
}

/// The stack of one call, whose answer must be the model's.
fn stack(shape: &str, case: &Case, most: &mut usize) -> Result<usize, String> {
    // the slices are the caller's and not counted
    let mut slices = [vec![1; case.sheet], vec![1; case.spare]];
    let [sheet, spare] = &mut slices;
    let mut answer = [0; 3];
    let used = stack_used(&mut || answer = run_into(&case.file, &case.words, sheet, spare))?;
    let wanted = list::answer(case).written;
    let numbers = [wanted.refusal, wanted.used, wanted.terms];
    if answer != numbers || *sheet != wanted.out || spare.iter().any(|b| *b != 0) {
        return Err(format!("{FUNCTION} differs from the Rust: {shape}"));
    }
    let shape = format!("{shape}, {} calls", case.words.len() / 2);
    *most = show_stack(FUNCTION, &shape, &case.file, used, *most);
    Ok(used)
}

fn shapes() -> Vec<(&'static str, Records)> {
    let leaf = |i: usize| variable(64, i as u16 % 256);
    let mask = |i: usize| 1 << (i % 64);
    let atom = |i: usize| binary(AND, leaf(0), literal(64, (1 << 16) - 1 - i as u64));
    vec![
        ("one leaf", leaf(0)),
        ("nested Not", nested(&[NOT], MAX_RECORDS - 1, leaf(0))),
        ("left chain of Add over ~5", over_not()),
        ("128 entries of a group", balanced(ADD, 0, 128, &atom)),
        ("54 nested Xor", chain(leaf(0), &[XOR], 54, mask)),
    ]
}
