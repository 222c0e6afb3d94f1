//! The judge (document 02, request #102), written from the request: the refusals of either side,
//! then those of the two together, then every place and index in order, with the values of both
//! sides under that assignment. The same is done for two semilinear forms. The published Rust has
//! nothing of the kind.

use crate::form::{Form, RESULT_BYTES};
use crate::form_model;
use crate::model;
use crate::normal_model;
use crate::record::{split, Record, Records, SHR, VARIABLE};
use crate::refusal::{SHIFTED_VARIABLE, TOO_MANY_VARIABLES, WIDTHS_DIFFER};

/// The most variables that the two may have together.
pub const JOINT_VARIABLES: usize = 5;

/// What a call gives: the refusal, equal, place and index.
#[derive(Clone, Copy, Debug, PartialEq, Eq)]
pub struct Verdict {
    pub refusal: u64,
    pub equal: u64,
    pub place: u64,
    pub index: u64,
}

impl Verdict {
    pub const EQUAL: Verdict = Verdict {
        equal: 1,
        ..Verdict::unlike(0, 0)
    };

    pub const fn unlike(place: u64, index: u64) -> Verdict {
        Verdict {
            refusal: 0,
            equal: 0,
            place,
            index,
        }
    }

    pub const fn refused(refusal: u64) -> Verdict {
        Verdict {
            refusal,
            ..Verdict::unlike(0, 0)
        }
    }
}

/// The verdict on two expressions, for any bytes.
pub fn answer(left: &[u8], right: &[u8]) -> Verdict {
    judged(expression, left, right)
}

/// The verdict on two semilinear forms, for any bytes.
pub fn of_forms(left: &[u8], right: &[u8]) -> Verdict {
    judged(sheet, left, right)
}

fn judged(side: fn(&[u8]) -> Result<Side, u64>, left: &[u8], right: &[u8]) -> Verdict {
    let both = side(left).and_then(|left| Ok(Both(left, side(right)?)));
    let found = both.and_then(|both| both.refused().map(|()| both.first_unlike()));
    match found {
        Ok(None) => Verdict::EQUAL,
        Ok(Some((place, index))) => Verdict::unlike(place, index),
        Err(refusal) => Verdict::refused(refusal),
    }
}

/// An accepted expression, or a form.
pub enum Side {
    Tree(Records),
    Sheet(Form),
}

/// An expression that normalising by rules 1 accepts, or the refusal that it gives. There is no
/// result slice of the caller's.
pub fn expression(file: &[u8]) -> Result<Side, u64> {
    match normal_model::refusal(file, RESULT_BYTES) {
        0 => normal_model::form(&split(file)).map(|_| Side::Tree(split(file))),
        refusal => Err(refusal),
    }
}

/// A form that the bytes are, or refusal 1 or 10.
pub fn sheet(bytes: &[u8]) -> Result<Side, u64> {
    form_model::read(bytes).map(Side::Sheet)
}

impl Side {
    fn width(&self) -> u8 {
        match self {
            Side::Tree(tree) => tree[0].width,
            Side::Sheet(form) => form.width,
        }
    }

    /// The trees whose variables and shifts count: the expression as it is given, or the atoms of
    /// the table, those without a term too.
    fn trees(&self) -> Vec<&[Record]> {
        match self {
            Side::Tree(tree) => vec![tree],
            Side::Sheet(form) => form.atoms.iter().map(|atom| &atom.tree[..]).collect(),
        }
    }

    fn value(&self, words: &[u64]) -> u64 {
        match self {
            Side::Tree(tree) => model::value(tree, words),
            Side::Sheet(form) => form_model::value(form, words),
        }
    }

    fn shifts_variable(&self) -> bool {
        self.trees().into_iter().any(shifts_variable)
    }
}

/// Whether a Shr with a count above 0 has a variable below it.
fn shifts_variable(tree: &[Record]) -> bool {
    let is_variable = |record: &Record| record.kind == VARIABLE;
    (0..tree.len()).any(|at| {
        let below = at + 1 - usize::from(tree[at].size)..at;
        tree[at].kind == SHR && tree[at].arg > 0 && tree[below].iter().any(is_variable)
    })
}

/// The left and the right.
pub struct Both(pub Side, pub Side);

impl Both {
    /// The refusals of the two together.
    fn refused(&self) -> Result<(), u64> {
        let Both(left, right) = self;
        if left.width() != right.width() {
            return Err(WIDTHS_DIFFER);
        }
        if self.variables().len() > JOINT_VARIABLES {
            return Err(TOO_MANY_VARIABLES);
        }
        if left.shifts_variable() || right.shifts_variable() {
            return Err(SHIFTED_VARIABLE);
        }
        Ok(())
    }

    pub fn width(&self) -> u8 {
        self.0.width()
    }

    /// The numbers of the variables, each once, rising.
    pub fn variables(&self) -> Vec<usize> {
        let trees = [self.0.trees(), self.1.trees()].concat().concat();
        let of_kind = trees.iter().filter(|record| record.kind == VARIABLE);
        let mut numbers: Vec<usize> = of_kind.map(|record| usize::from(record.arg)).collect();
        numbers.sort_unstable();
        numbers.dedup();
        numbers
    }

    /// Whether the two have the same value under an assignment.
    pub fn agree(&self, words: &[u64]) -> bool {
        self.0.value(words) == self.1.value(words)
    }

    /// The first place, and the first index there, at which the values differ.
    fn first_unlike(&self) -> Option<(u64, u64)> {
        let variables = self.variables();
        let mut words = vec![0; variables.last().map_or(0, |last| last + 1)];
        for place in 0..u64::from(self.width()) {
            for index in 0..1u64 << variables.len() {
                for (j, &number) in variables.iter().enumerate() {
                    words[number] = (index >> j & 1) << place;
                }
                if !self.agree(&words) {
                    return Some((place, index));
                }
            }
        }
        None
    }
}
