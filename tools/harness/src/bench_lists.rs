//! A list of passes in the benchmark: the five in order, twice, from an expression. The published Rust
//! from a tree that is there, the same calls of the Rust one after the other, each from bytes to
//! bytes, and the library.

use std::hint::black_box;

use crate::bench_passes::{apply, passed};
use crate::bench_rust as rust;
use crate::bench_table::{Measured, CORE, WHOLE};
use crate::form::RESULT_BYTES;
use crate::ir::semilinear::SemilinearIR;
use crate::library_forms::run_into;
use crate::list::{self, words, Case};
use crate::measure::{medians, stack_used};
use crate::pass::{Pass, PASSES};

fn calls() -> impl Iterator<Item = Pass> {
    PASSES.into_iter().chain(PASSES)
}

/// The list from one expression. The library's answer, every byte of it, must be that of the Rust with
/// the partings; the timed Rust leaves some orders to chance.
pub fn running(file: &[u8], refusal: u64) -> Result<Measured, String> {
    let whole = rust::read(file).map_err(|refusal| format!("the Rust refuses by {refusal}"))?;
    let list: Vec<(Pass, usize)> = calls().map(|pass| (pass, RESULT_BYTES)).collect();
    let case = Case {
        file: file.to_vec(),
        words: words(&list),
        sheet: RESULT_BYTES,
        spare: RESULT_BYTES,
    };
    let wanted = list::answer(&case).written;
    let mut slices = [vec![1; RESULT_BYTES], vec![1; RESULT_BYTES]];
    let [sheet, spare] = &mut slices;
    let mut answer = [0; 3];
    let stack = stack_used(&mut || answer = run_into(file, &case.words, sheet, spare))?;
    let numbers = [wanted.refusal, wanted.used, wanted.terms];
    if answer != numbers || *sheet != wanted.out || answer[0] != refusal {
        return Err("the library's answer is not the Rust's".to_string());
    }
    let times = medians(|subject| match subject {
        CORE => drop(black_box(in_memory(&whole))),
        WHOLE => drop(black_box(one_by_one(file, sheet, spare))),
        _ => drop(black_box(run_into(file, &case.words, sheet, spare))),
    });
    Ok(Measured { times, stack })
}

/// Normalising and the calls on one form, without bytes.
fn in_memory(whole: &rust::Whole) -> Option<SemilinearIR> {
    let mut ir = rust::core(whole).ok()?;
    for pass in calls() {
        apply(pass, &mut ir);
    }
    Some(ir)
}

/// Normalising and then each call on the bytes that the one before wrote, in two slices by turns; the
/// used length of the last form.
fn one_by_one(file: &[u8], sheet: &mut [u8], spare: &mut [u8]) -> u64 {
    let [_, mut used, _] = rust::normalize(file, sheet);
    let (mut from, mut to) = (sheet, spare);
    for pass in calls() {
        let [refusal, next, ..] = passed(pass, &from[..used as usize], to);
        if refusal == 0 {
            used = next;
            std::mem::swap(&mut from, &mut to);
        }
    }
    used
}
