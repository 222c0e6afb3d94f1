//! Document 01's refusals, value and compaction of a semilinear form ("The sheet", "Refusals"),
//! written from the document alone. It reads the records forward, from the first atom to the sum
//! record. The hash of a tree, which the document takes from the Rust, is the published one.

use crate::form::{
    Atom, Form, Term, ATOM, HEAD_BYTE, MAX_ATOMS, MAX_TREE_RECORDS, RESULT_BYTES, SUM, TERM,
};
use crate::model::{self, Answer};
use crate::published;
use crate::record::{split, Record, AND, CONSTANT, NOT, OR, RECORD_BYTES, SHR, VARIABLE, XOR};
use crate::refusal::{INPUT_LENGTH, NO_FORM, RESULT_LENGTH};
use crate::written::{refused, written, Written};

/// The form that the bytes are, or the lowest refusal of 1 and 10.
pub fn read(bytes: &[u8]) -> Result<Form, u64> {
    if !length_allowed(bytes.len()) {
        return Err(INPUT_LENGTH);
    }
    form(&split(bytes)).ok_or(NO_FORM)
}

/// The form that a pass reads where its result slice has `length` places of the `wanted` ones, or
/// the lowest refusal of 1, 2 and 10.
pub fn read_for(bytes: &[u8], length: usize, wanted: usize) -> Result<Form, u64> {
    match read(bytes) {
        Err(INPUT_LENGTH) => Err(INPUT_LENGTH),
        _ if length != wanted => Err(RESULT_LENGTH),
        other => other,
    }
}

fn length_allowed(length: usize) -> bool {
    length != 0 && length.is_multiple_of(RECORD_BYTES) && length <= RESULT_BYTES
}

/// The form that the records are, if they are a valid one.
fn form(records: &[Record]) -> Option<Form> {
    let width = records[0].width;
    if !(1..=64).contains(&width) {
        return None;
    }
    if records
        .iter()
        .any(|r| r.width != width || r.zeros != [0; 2])
    {
        return None;
    }
    let (atoms, rest) = atoms(records)?;
    let (terms, rest) = terms(rest, width, atoms.len())?;
    let [sum] = rest else {
        return None;
    };
    if sum.kind != SUM || sum.arg != 0 || sum.size != 0 || !fits(sum.literal, width) {
        return None;
    }
    Some(Form {
        width,
        constant: sum.literal,
        atoms,
        terms,
    })
}

/// Whether a number is below 2^w.
fn fits(number: u64, w: u8) -> bool {
    u128::from(number) < 1 << w
}

/// The atoms at the front, within the limits of the table, and the records after them.
fn atoms(records: &[Record]) -> Option<(Vec<Atom>, &[Record])> {
    let mut atoms = Vec::new();
    let mut tree_records = 0;
    let mut rest = records;
    while rest.first().is_some_and(|record| record.kind == ATOM) {
        let size = usize::from(rest[0].size);
        let tree = rest.get(1..=size)?;
        atoms.push(atom(&rest[0], tree)?);
        tree_records += size;
        rest = &rest[1 + size..];
    }
    let fits = atoms.len() <= MAX_ATOMS && tree_records <= MAX_TREE_RECORDS;
    fits.then_some((atoms, rest))
}

fn atom(head: &Record, tree: &[Record]) -> Option<Atom> {
    let allowed = |r: &Record| match r.kind {
        CONSTANT | VARIABLE | AND | OR | XOR | NOT => true,
        SHR => r.arg <= 63,
        _ => false,
    };
    let head_byte = u8::try_from(head.arg).ok().filter(|byte| *byte <= 4)?;
    let valid = model::well_formed(tree)
        && tree.iter().all(allowed)
        && tree.iter().any(|r| r.kind == VARIABLE)
        && head.literal == published::hash(tree);
    valid.then(|| Atom {
        head_byte,
        hash: head.literal,
        tree: tree.to_vec(),
    })
}

/// The terms at the front, their atoms strictly rising, and the records after them.
fn terms(records: &[Record], w: u8, atoms: usize) -> Option<(Vec<Term>, &[Record])> {
    let count = records.iter().take_while(|r| r.kind == TERM).count();
    let (terms, rest) = records.split_at(count);
    let valid = terms.iter().all(|r| {
        let coeff = r.literal;
        r.arg == 0 && usize::from(r.size) < atoms && coeff != 0 && fits(coeff, w)
    });
    if !valid || !terms.is_sorted_by(|a, b| a.size < b.size) {
        return None;
    }
    let term = |r: &Record| Term {
        atom: r.size,
        coeff: r.literal,
    };
    Some((terms.iter().map(term).collect(), rest))
}

/// The value under an assignment, 0 beside a refusal.
pub fn answer(bytes: &[u8], vars: &[u64]) -> Answer {
    match read(bytes) {
        Ok(form) => Answer {
            refusal: 0,
            value: value(&form, vars),
        },
        Err(refusal) => Answer { refusal, value: 0 },
    }
}

/// The constant plus each coefficient times its atom, modulo 2^w.
pub fn value(form: &Form, vars: &[u64]) -> u64 {
    let modulus = 1u128 << form.width;
    let mut sum = u128::from(form.constant);
    for term in &form.terms {
        let atom = model::value(&form.atoms[usize::from(term.atom)].tree, vars);
        sum = (sum + u128::from(term.coeff) * u128::from(atom) % modulus) % modulus;
    }
    sum as u64
}

/// The form without the atoms that have no term, the others with new heads. Terms rise, so each one's
/// atom comes next.
pub fn compacted(form: &Form) -> Form {
    let mut result = Form::new(form.width, form.constant);
    for term in &form.terms {
        let atom = result.atoms.len() as u16;
        result.atoms.push(Atom {
            head_byte: HEAD_BYTE,
            ..form.atoms[usize::from(term.atom)].clone()
        });
        result.terms.push(Term { atom, ..*term });
    }
    result
}

/// All that compaction gives for the bytes and a result slice of `length` bytes.
pub fn compact(bytes: &[u8], length: usize) -> Written {
    match read_for(bytes, length, RESULT_BYTES) {
        Ok(form) => written(&compacted(&form)),
        Err(refusal) => refused(refusal, length),
    }
}
