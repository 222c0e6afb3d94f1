//! A list of passes run from an expression: what the entry point gives, by the model of normalising
//! and then, call by call, the Rust with document 01's partings. A call that is refused leaves the
//! form in use as it is.

use crate::normal_model;
use crate::pass::{self, Pass, PASSES};
use crate::refusal::{INPUT_LENGTH, NO_LIST, RESULT_LENGTH};
use crate::written::{refused, Written};

/// A call of the entry point: the bytes of an expression, valid or not, the words of the list, valid
/// or not, and the lengths of both slices.
#[derive(Clone)]
pub struct Case {
    pub file: Vec<u8>,
    pub words: Vec<u64>,
    pub sheet: usize,
    pub spare: usize,
}

/// What a call of the list came to: its refusal, and whether it gave another form.
#[cfg_attr(not(feature = "library"), allow(dead_code))]
pub struct Made {
    pub pass: Pass,
    pub refusal: u64,
    pub changed: bool,
}

/// What the first slice and the numbers are, and the calls that were made. The second slice is left
/// all zeros.
pub struct Ran {
    pub written: Written,
    #[cfg_attr(not(feature = "library"), allow(dead_code))]
    pub made: Vec<Made>,
}

/// The words of calls, each a pass and the length of its result slice.
pub fn words(calls: &[(Pass, usize)]) -> Vec<u64> {
    let number = |pass: &Pass| PASSES.iter().position(|other| other == pass);
    calls
        .iter()
        .flat_map(|(pass, length)| {
            [
                1 + number(pass).expect("one of five") as u64,
                *length as u64,
            ]
        })
        .collect()
}

/// The calls of a list, none where it is no list or one of them does not fit both slices.
pub fn calls(case: &Case) -> Option<Vec<(Pass, usize)>> {
    let most = case.sheet.min(case.spare);
    let call = |words: &[u64]| match *words {
        [pass @ 1..=5, length] if length <= most as u64 => {
            Some((PASSES[pass as usize - 1], length as usize))
        }
        _ => None,
    };
    case.words.chunks(2).map(call).collect()
}

/// All that the entry point gives.
pub fn answer(case: &Case) -> Ran {
    let mut ran = Ran {
        written: normal_model::answer(&case.file, case.sheet),
        made: Vec::new(),
    };
    if matches!(ran.written.refusal, INPUT_LENGTH | RESULT_LENGTH) {
        return ran;
    }
    match calls(case) {
        None => ran.written = refused(NO_LIST, case.sheet),
        Some(calls) if ran.written.refusal == 0 => ran.make(&calls),
        Some(_) => {}
    }
    ran
}

impl Ran {
    fn make(&mut self, calls: &[(Pass, usize)]) {
        for &(pass, length) in calls {
            let next = pass::answer(pass, self.written.form(), length);
            self.made.push(Made {
                pass,
                refusal: next.refusal,
                changed: next.refusal == 0 && next.form() != self.written.form(),
            });
            if next.refusal == 0 {
                self.written = Written { flag: 0, ..next };
            }
        }
    }
}
