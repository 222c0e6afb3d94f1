//! Document 01's refusals and values of an expression file ("The tangle file", "Refusals"), written
//! from the document alone. The published sources have no evaluator of whole expressions, so this
//! model gives the expected values. It works forward over the records with a stack, and on plain
//! numbers (u128, `%`), so that it shares no step with a recursive walk over masked words.

use crate::record::{
    arity, split, Record, ADD, AND, CONCAT, CONSTANT, MAX_RECORDS, MUL, NEG, NOT, OR, RECORD_BYTES,
    SHR, TRUNC, VARIABLE, XOR, ZEXT,
};
use crate::refusal::{CAST, INPUT_LENGTH, MALFORMED, SHIFT_COUNT, WIDTH};

/// What the entry point returns: a refusal, 0 for accepted, and the value, 0 beside a refusal.
#[derive(Clone, Copy, Debug, PartialEq, Eq)]
pub struct Answer {
    pub refusal: u64,
    pub value: u64,
}

pub fn answer(file: &[u8], vars: &[u64]) -> Answer {
    let refusal = refusal(file);
    let value = if refusal == 0 {
        value(&split(file), vars)
    } else {
        0
    };
    Answer { refusal, value }
}

/// The lowest refusal that applies to the file, 0 if none does.
pub fn refusal(file: &[u8]) -> u64 {
    if !length_allowed(file.len()) {
        return INPUT_LENGTH;
    }
    let records = split(file);
    let width = records[0].width;
    if !well_formed(&records) {
        MALFORMED
    } else if !(1..=64).contains(&width) || records.iter().any(|r| r.width != width) {
        WIDTH
    } else if records.iter().any(|r| (ZEXT..=CONCAT).contains(&r.kind)) {
        CAST
    } else if records.iter().any(|r| r.kind == SHR && r.arg > 63) {
        SHIFT_COUNT
    } else {
        0
    }
}

fn length_allowed(length: usize) -> bool {
    length != 0 && length.is_multiple_of(RECORD_BYTES) && length <= MAX_RECORDS * RECORD_BYTES
}

/// Kinds up to 13, zero bytes where they must be, each size one more than the children's, and one
/// root over all records.
pub fn well_formed(records: &[Record]) -> bool {
    let mut sizes: Vec<usize> = Vec::new();
    for record in records {
        if record.kind > CONCAT || !zeros_hold(record) {
            return false;
        }
        let mut size = 1;
        for _ in 0..arity(record.kind) {
            let Some(child) = sizes.pop() else {
                return false;
            };
            size += child;
        }
        if usize::from(record.size) != size {
            return false;
        }
        sizes.push(size);
    }
    sizes.len() == 1
}

/// Bytes that must be 0 in a record of a kind up to 13 are.
pub fn zeros_hold(record: &Record) -> bool {
    let most = match record.kind {
        VARIABLE => u16::MAX,
        SHR..=TRUNC => u16::from(u8::MAX),
        _ => 0,
    };
    record.arg <= most && record.zeros == [0; 2] && (record.kind == CONSTANT || record.literal == 0)
}

/// The value of an accepted expression.
pub fn value(records: &[Record], vars: &[u64]) -> u64 {
    let modulus = 1u128 << records[0].width;
    let mut values: Vec<u128> = Vec::new();
    for record in records {
        let right = if arity(record.kind) > 0 {
            values.pop().expect("a child")
        } else {
            leaf(record, vars)
        };
        let left = if arity(record.kind) > 1 {
            values.pop().expect("a left child")
        } else {
            0
        };
        values.push(step(record, left, right, modulus));
    }
    values.pop().expect("a root") as u64
}

/// The word that a leaf reads, not yet cut.
fn leaf(record: &Record, vars: &[u64]) -> u128 {
    match record.kind {
        CONSTANT => u128::from(record.literal),
        _ => u128::from(vars.get(usize::from(record.arg)).copied().unwrap_or(0)),
    }
}

/// The value of one record; `right` is the only child of a unary record and the word of a leaf.
fn step(record: &Record, left: u128, right: u128, modulus: u128) -> u128 {
    match record.kind {
        CONSTANT | VARIABLE => right % modulus,
        ADD => (left + right) % modulus,
        MUL => (left * right) % modulus,
        AND => left & right,
        OR => left | right,
        XOR => left ^ right,
        NOT => modulus - 1 - right,
        NEG => (modulus - right) % modulus,
        SHR => right / (1 << record.arg),
        _ => unreachable!("casts and Concat are refused"),
    }
}
