//! The functions of the static library (include/hogzelt.h) that write a form or the columns of one.

use crate::columns::Columns;
use crate::library::{guarded, write_into, GUARD, UNWRITTEN};
use crate::list;
use crate::pass::Pass;
use crate::written::Written;
use hogzelt::raw;

/// Normalising into `out`: the refusal, the used length, the count of terms.
pub fn normalize_into(file: &[u8], out: &mut [u8]) -> [u64; 3] {
    write_into(raw::hogzelt_normalize_to_semilinear, file, out)
}

/// Normalising by rules into `out`: the refusal, the used length, the count of terms.
pub fn by_rules_into(rules: u64, file: &[u8], out: &mut [u8]) -> [u64; 3] {
    let (mut used, mut terms) = (UNWRITTEN, UNWRITTEN);
    // SAFETY: both slices are valid for their lengths; what is written lies in neither and apart.
    let refusal = unsafe {
        raw::hogzelt_normalize_by_rules(
            rules,
            file.as_ptr(),
            file.len(),
            out.as_mut_ptr(),
            out.len(),
            &mut used,
            &mut terms,
        )
    };
    [refusal, used, terms]
}

/// A pass into `out`: the refusal, the used length, the count of terms, the flag.
pub fn pass_into(pass: Pass, form: &[u8], out: &mut [u8]) -> [u64; 4] {
    let writer: raw::Writer = match pass {
        Pass::Refine => raw::hogzelt_refine_terms,
        Pass::Recover => raw::hogzelt_recover_structure,
        Pass::Coalesce => raw::hogzelt_coalesce_terms,
        Pass::Flatten => return flatten_into(form, out),
        Pass::Compact => raw::hogzelt_compact_atom_table,
    };
    let [refusal, used, terms] = write_into(writer, form, out);
    [refusal, used, terms, 0]
}

fn flatten_into(form: &[u8], out: &mut [u8]) -> [u64; 4] {
    let [mut used, mut terms, mut flag] = [UNWRITTEN; 3];
    // SAFETY: both slices are valid for their lengths; what is written lies in neither and apart.
    let refusal = unsafe {
        raw::hogzelt_flatten_complex_atoms(
            form.as_ptr(),
            form.len(),
            out.as_mut_ptr(),
            out.len(),
            &mut used,
            &mut terms,
            &mut flag,
        )
    };
    [refusal, used, terms, flag]
}

/// The columns into `out`: the refusal and the count of classes.
pub fn columns_into(form: &[u8], out: &mut [u64]) -> [u64; 2] {
    let mut classes = UNWRITTEN;
    // SAFETY: both slices are valid for their lengths; what is written lies in neither and apart.
    let refusal = unsafe {
        raw::hogzelt_compute_partitions(
            form.as_ptr(),
            form.len(),
            out.as_mut_ptr(),
            out.len(),
            &mut classes,
        )
    };
    [refusal, classes]
}

/// A list of passes from an expression into `sheet`: the refusal, the used length, the count of
/// terms.
pub fn run_into(file: &[u8], words: &[u64], sheet: &mut [u8], spare: &mut [u8]) -> [u64; 3] {
    let (mut used, mut terms) = (UNWRITTEN, UNWRITTEN);
    // SAFETY: all slices are valid for their lengths; what is written lies in none and apart.
    let refusal = unsafe {
        raw::hogzelt_run_passes(
            file.as_ptr(),
            file.len(),
            words.as_ptr(),
            words.len(),
            sheet.as_mut_ptr(),
            sheet.len(),
            spare.as_mut_ptr(),
            spare.len(),
            &mut used,
            &mut terms,
        )
    };
    [refusal, used, terms]
}

/// The form of an expression file, in a result slice of `length` bytes.
pub fn normalized(file: &[u8], length: usize) -> Written {
    let ([refusal, used, terms], out) = guarded(length, |out| normalize_into(file, out));
    written([refusal, used, terms, 0], out)
}

/// The form of an expression file by rules, in a result slice of `length` bytes.
pub fn by_rules(rules: u64, file: &[u8], length: usize) -> Written {
    let ([refusal, used, terms], out) = guarded(length, |out| by_rules_into(rules, file, out));
    written([refusal, used, terms, 0], out)
}

/// A pass over a form, in a result slice of `length` bytes.
pub fn passed(pass: Pass, form: &[u8], length: usize) -> Written {
    let (numbers, out) = guarded(length, |out| pass_into(pass, form, out));
    written(numbers, out)
}

/// A list of passes from an expression, and the second slice.
pub fn ran(case: &list::Case) -> (Written, Vec<u8>) {
    let run = |sheet: &mut [u8]| {
        guarded(case.spare, |spare| {
            run_into(&case.file, &case.words, sheet, spare)
        })
    };
    let (([refusal, used, terms], spare), sheet) = guarded(case.sheet, run);
    (written([refusal, used, terms, 0], sheet), spare)
}

fn written([refusal, used, terms, flag]: [u64; 4], out: Vec<u8>) -> Written {
    Written {
        refusal,
        used,
        terms,
        flag,
        out,
    }
}

/// The columns of a form, in a result slice of `length` words.
pub fn columns(form: &[u8], length: usize) -> Columns {
    let mut out = vec![UNWRITTEN; length + GUARD];
    let [refusal, classes] = columns_into(form, &mut out[..length]);
    let guard = out.split_off(length);
    assert_eq!(
        guard, [UNWRITTEN; GUARD],
        "words behind the slice are written"
    );
    Columns {
        refusal,
        classes,
        out,
    }
}
