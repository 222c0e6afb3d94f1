//! The five passes: what each gives for the bytes of a form. Refusals 1, 2 and 10 are the model's
//! (form_model.rs), for the Rust has no bytes; all else is the published pass in the build with
//! document 01's partings, its terms put in the document's order and its table held to the limits.

use crate::form::{Form, RESULT_BYTES};
use crate::form_model;
use crate::parted::{self, ir::partings};
use crate::refusal::TABLE_FULL;
use crate::written::{refused, written, Written};

#[derive(Clone, Copy, Debug, PartialEq, Eq)]
pub enum Pass {
    Refine,
    Recover,
    Coalesce,
    Flatten,
    Compact,
}

pub const PASSES: [Pass; 5] = [
    Pass::Refine,
    Pass::Recover,
    Pass::Coalesce,
    Pass::Flatten,
    Pass::Compact,
];

impl Pass {
    pub fn name(self) -> &'static str {
        match self {
            Pass::Refine => "refine_terms",
            Pass::Recover => "recover_structure",
            Pass::Coalesce => "coalesce_terms",
            Pass::Flatten => "flatten_complex_atoms",
            Pass::Compact => "compact_atom_table",
        }
    }
}

/// What the Rust makes of a form, and whether flattening says that it flattened.
#[derive(Clone, Debug, PartialEq, Eq)]
pub struct Passed {
    pub form: Form,
    pub flattened: bool,
}

/// A set of differences: bit n for number n. Those that a pass can need, without the order of maps.
pub const ALL: u16 = partings::ALL | LIMITS;
/// Parting 5 in a pass: refusal 9.
const LIMITS: u16 = 1 << 5;

/// All that a pass gives for the bytes of a form and a result slice of `length` bytes.
pub fn answer(pass: Pass, bytes: &[u8], length: usize) -> Written {
    match form_model::read_for(bytes, length, RESULT_BYTES) {
        Ok(form) => parted(pass, &form, ALL),
        Err(refusal) => refused(refusal, length),
    }
}

/// What a pass gives for a valid form where just the partings of the set hold.
pub fn parted(pass: Pass, valid: &Form, set: u16) -> Written {
    let passed = partings::with(set & partings::ALL, || parted::bridge::passed(pass, valid));
    match set & LIMITS != 0 && !passed.form.fits() {
        true => refused(TABLE_FULL, RESULT_BYTES),
        false => settled(passed),
    }
}

/// The bytes of what the Rust gives, its terms in document 01's order.
pub fn settled(mut passed: Passed) -> Written {
    passed.form.settle();
    Written {
        flag: u64::from(passed.flattened),
        ..written(&passed.form)
    }
}
