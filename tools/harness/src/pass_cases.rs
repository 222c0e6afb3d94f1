//! Forms for the passes and the columns, by family: worked examples (pass_examples.rs), what
//! normalising makes, forms along lists of passes, forms written directly (pass_groups.rs,
//! pass_atoms.rs), and damaged ones.

use crate::cases::{normalised_form, random_form};
use crate::columns::RESULT_WORDS;
use crate::family::{family, Family};
use crate::form::{Form, RESULT_BYTES};
use crate::form_random;
use crate::normal_cases as normal;
use crate::normal_model;
use crate::normal_random;
use crate::pass::{self, PASSES};
use crate::prng::Prng;
use crate::random;
use crate::record::RECORD_BYTES;
use crate::{collide, pass_atoms, pass_examples, pass_groups};

/// A call: the bytes of a form, valid or not, and by how much the result slice is too long, in bytes
/// or words.
#[derive(Clone)]
pub struct Case {
    pub file: Vec<u8>,
    pub excess: isize,
}

impl Case {
    /// The length of the result slice of a pass.
    pub fn bytes(&self) -> usize {
        RESULT_BYTES.saturating_add_signed(self.excess)
    }

    /// The length of the result slice of the columns, in words.
    pub fn words(&self) -> usize {
        RESULT_WORDS.saturating_add_signed(self.excess)
    }
}

/// All families.
pub const FAMILIES: [Family<Case>; 15] = [
    family("worked examples", 0, 0, |_, _| pass_examples::cases()),
    family("as normalising makes them", 20_000, 40, normalised),
    family("along lists of passes", 20_000, 40, along_lists),
    family("one group", 25_000, 50, |rng, n| {
        made(rng, n, pass_groups::one)
    }),
    family("masks apart", 8_000, 30, |rng, n| {
        made(rng, n, pass_groups::apart)
    }),
    family("several groups", 10_000, 30, |rng, n| {
        made(rng, n, pass_groups::several)
    }),
    family("one hash", 8_000, 40, |rng, n| {
        made(rng, n, pass_groups::colliding)
    }),
    family("bare atoms", 8_000, 30, |rng, n| {
        made(rng, n, pass_groups::bare)
    }),
    family("one to seven variables", 12_000, 40, |rng, n| {
        made(rng, n, pass_atoms::atoms)
    }),
    family("edges of the table", 0, 0, |_, _| pass_atoms::edges()),
    family("near the limits", 1_500, 0, |rng, n| {
        made(rng, n, pass_atoms::near_limits)
    }),
    family("any form", 4_000, 20, any),
    family("damaged", 12_000, 80, damaged),
    family("lengths", 2_000, 40, lengths),
    family("byte 1 of heads", 0, 0, |_, _| pass_examples::heads()),
];

/// A call with a result slice of the right length.
pub fn case(form: &Form) -> Case {
    Case {
        file: form.bytes(),
        excess: 0,
    }
}

/// `count` calls on forms that `make` makes at random widths.
pub fn made(rng: &mut Prng, count: usize, make: fn(&mut Prng, u8) -> Form) -> Vec<Case> {
    (0..count)
        .map(|_| {
            let w = random::width(rng);
            case(&make(rng, w))
        })
        .collect()
}

/// An expression that normalising accepts, and its form.
pub fn expression(rng: &mut Prng) -> (Vec<u8>, Vec<u8>) {
    let families = [
        normal_random::sums,
        normal_random::tables,
        normal_random::lowering,
        normal_random::products,
        collide::collisions,
    ];
    loop {
        let make: fn(&mut Prng, usize) -> Vec<normal::Case> = rng.pick(&families);
        let expression = make(rng, 1).remove(0);
        let answer = normal_model::answer(&expression.file, expression.length);
        if answer.refusal == 0 {
            return (expression.file, answer.form().to_vec());
        }
    }
}

/// The forms of such expressions, with their whole tables.
pub fn normalised(rng: &mut Prng, count: usize) -> Vec<Case> {
    (0..count)
        .map(|_| Case {
            file: expression(rng).1,
            excess: 0,
        })
        .collect()
}

/// The forms on the way along random lists of passes, up to a refusal.
fn along_lists(rng: &mut Prng, count: usize) -> Vec<Case> {
    let mut all = Vec::new();
    while all.len() < count {
        let w = random::width(rng);
        let mut file = match rng.below(4) {
            0 => pass_groups::several(rng, w).bytes(),
            1 => pass_atoms::atoms(rng, w).bytes(),
            _ => normalised(rng, 1).remove(0).file,
        };
        for _ in 0..2 + rng.below(5) {
            let answer = pass::answer(rng.pick(&PASSES), &file, RESULT_BYTES);
            if answer.refusal != 0 {
                break;
            }
            file = answer.out[..answer.used as usize].to_vec();
            all.push(Case {
                file: file.clone(),
                excess: 0,
            });
        }
    }
    all.truncate(count);
    all
}

/// Random forms of a few and of many atoms, and the longest ones.
fn any(rng: &mut Prng, count: usize) -> Vec<Case> {
    (0..count)
        .map(|number| match number % 40 {
            39 => {
                let w = random::width(rng);
                case(&form_random::full(rng, w))
            }
            0..=9 => case(&random_form(rng, 40)),
            10..=14 => case(&normalised_form(rng)),
            _ => case(&random_form(rng, 8)),
        })
        .collect()
}

/// Damaged copies of forms from the other families.
fn damaged(rng: &mut Prng, count: usize) -> Vec<Case> {
    (0..count)
        .map(|_| {
            let w = random::width(rng);
            let form = match rng.below(3) {
                0 => pass_groups::several(rng, w),
                1 => pass_atoms::atoms(rng, w),
                _ => random_form(rng, 6),
            };
            Case {
                file: form_random::damaged(rng, &form),
                excess: 0,
            }
        })
        .collect()
}

/// Other lengths of the input and of the result slice, beside valid and damaged forms.
fn lengths(rng: &mut Prng, count: usize) -> Vec<Case> {
    let mut all = Vec::new();
    for _ in 0..count {
        let mut one = match rng.one_in(4) {
            true => damaged(rng, 1).remove(0),
            false => normalised(rng, 1).remove(0),
        };
        one.excess = match rng.below(4) {
            0 => rng.pick(&[-60_000, -16_448, -16, -1, 1, 8, 16]),
            1 => -(rng.below(RESULT_WORDS) as isize),
            _ => 0,
        };
        if rng.one_in(3) {
            let length = match rng.below(3) {
                0 => rng.pick(&[0, 1, 15, 16, 17, RESULT_BYTES, RESULT_BYTES + RECORD_BYTES]),
                1 => one.file.len() + rng.pick(&[1, 15, 16]),
                _ => rng.below(one.file.len() + 1),
            };
            one.file.resize(length, 0);
        }
        all.push(one);
    }
    all
}
