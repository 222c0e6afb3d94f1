//! The classes of places and their columns (document 01, "Hint columns"): what the entry point gives
//! for the bytes of a form.

use crate::form::MAX_ATOMS;
use crate::form_model;
use crate::parted;

/// The length of a result slice, in words: 64 classes of a mask and 256 profile words.
pub const RESULT_WORDS: usize = 64 * (1 + MAX_ATOMS);

/// A class: the places of its mask, and a profile word for each atom.
#[derive(Clone, Debug, PartialEq, Eq)]
pub struct Class {
    pub mask: u64,
    pub profile: Vec<u64>,
}

/// What the entry point hands over: the refusal, the count of classes, and every word.
#[derive(Clone, Debug, PartialEq, Eq)]
pub struct Columns {
    pub refusal: u64,
    pub classes: u64,
    pub out: Vec<u64>,
}

/// All that the entry point gives for the bytes of a form and a result slice of `length` words.
pub fn answer(bytes: &[u8], length: usize) -> Columns {
    match form_model::read_for(bytes, length, RESULT_WORDS) {
        Ok(form) => settled(parted::bridge::partitions(&form)),
        Err(refusal) => Columns {
            refusal,
            classes: 0,
            out: vec![0; length],
        },
    }
}

/// The words of the Rust's classes, in document 01's order: by lowest place.
pub fn settled(mut classes: Vec<Class>) -> Columns {
    classes.sort_by_key(|class| class.mask.trailing_zeros());
    let mut out = Vec::new();
    for class in &classes {
        out.push(class.mask);
        out.extend(&class.profile);
    }
    out.resize(RESULT_WORDS, 0);
    Columns {
        refusal: 0,
        classes: classes.len() as u64,
        out,
    }
}
