//! The functions of the static library (include/hogzelt.h) that give a number, and what the others
//! share (library_forms.rs). They are called as the crate hogzelt declares them, with results that
//! hold other numbers before.

use crate::entry::{CHANGE_COEFFICIENT, CHANGE_MASK, REDUCE_MASK};
use crate::model::Answer;
use hogzelt::raw;

/// What stands in a result before a call, so that one which is not written shows.
pub const UNWRITTEN: u64 = 0xBAD0_BAD0_BAD0_BAD0;
const UNWRITTEN_BYTE: u8 = 0xBA;
/// How many bytes or words behind a result slice a call must leave alone.
pub const GUARD: usize = 64;

/// The library's answer for an expression file.
pub fn expr_value(file: &[u8], vars: &[u64]) -> Answer {
    let mut value = UNWRITTEN;
    // SAFETY: both slices are valid for their lengths, and `value` lies in neither.
    let refusal = unsafe {
        raw::hogzelt_expr_value(
            file.as_ptr(),
            file.len(),
            vars.as_ptr(),
            vars.len(),
            &mut value,
        )
    };
    Answer { refusal, value }
}

/// The library's answer for a mask function, false as 0 and true as 1.
pub fn mask_answer(kind: u8, [a, b, c]: [u64; 3], w: u32) -> u64 {
    // SAFETY: the functions take numbers only.
    unsafe {
        match kind {
            REDUCE_MASK => raw::hogzelt_reduce_mask(a, b, w),
            CHANGE_MASK => u64::from(raw::hogzelt_can_change_mask_to(a, b, c, w)),
            CHANGE_COEFFICIENT => u64::from(raw::hogzelt_can_change_coefficient_to(a, b, c, w)),
            _ => unreachable!("not a mask function"),
        }
    }
}

/// The library's value of a form.
pub fn semilinear_value(form: &[u8], vars: &[u64]) -> Answer {
    let mut value = UNWRITTEN;
    // SAFETY: both slices are valid for their lengths, and `value` lies in neither.
    let refusal = unsafe {
        raw::hogzelt_semilinear_value(
            form.as_ptr(),
            form.len(),
            vars.as_ptr(),
            vars.len(),
            &mut value,
        )
    };
    Answer { refusal, value }
}

/// What a call gives that writes a result slice of `length` bytes, and the slice.
pub fn guarded<T>(length: usize, call: impl FnOnce(&mut [u8]) -> T) -> (T, Vec<u8>) {
    let mut out = vec![UNWRITTEN_BYTE; length + GUARD];
    let answer = call(&mut out[..length]);
    let guard = out.split_off(length);
    assert_eq!(
        guard, [UNWRITTEN_BYTE; GUARD],
        "bytes behind the slice are written"
    );
    (answer, out)
}

/// A form written to `out`: the refusal, the used length, the count of terms.
pub fn write_into(writer: raw::Writer, input: &[u8], out: &mut [u8]) -> [u64; 3] {
    let (mut used, mut terms) = (UNWRITTEN, UNWRITTEN);
    // SAFETY: both slices are valid for their lengths; what is written lies in neither and apart.
    let refusal = unsafe {
        writer(
            input.as_ptr(),
            input.len(),
            out.as_mut_ptr(),
            out.len(),
            &mut used,
            &mut terms,
        )
    };
    [refusal, used, terms]
}
