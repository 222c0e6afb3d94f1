//! The inputs of the benchmark, by class, made by a fixed generator with a fixed seed.

use crate::cases::SEED;
use crate::normal_cases::Case;
use crate::normal_limits::chain;
use crate::normal_model;
use crate::normal_random as random_cases;
use crate::prng::Prng;
use crate::random;
use crate::record::{
    balanced, bytes, nested, variable, Records, ADD, MAX_RECORDS, NEG, RECORD_BYTES, XOR,
};

/// Inputs that are measured alike.
pub struct Class {
    pub name: &'static str,
    /// what normalising gives: 0, or the refusal
    pub refusal: u64,
    pub files: Vec<Vec<u8>>,
}

const TANGLES: usize = 100;

pub fn classes() -> Vec<Class> {
    let one = |name, refusal, tree: Records| Class {
        name,
        refusal,
        files: vec![bytes(&tree)],
    };
    let leaf = |i: usize| variable(64, i as u16 % 256);
    let rng = &mut Prng::new(SEED + 3);
    let tangles = Class {
        name: "100 expressions of 5 to 40 records",
        refusal: 0,
        files: tangles(rng),
    };
    let words: Vec<u64> = (0..500).map(|_| rng.word()).collect();
    let literals = |from: usize| {
        let words = &words;
        move |i: usize| words[from + i]
    };
    let of_ten = |i: usize| chain(leaf(i), &[XOR], 10, literals(10 * i));
    let nested_xor = |count: usize| chain(leaf(0), &[XOR], count, literals(0));
    vec![
        tangles,
        one(
            "1,023 nested Neg",
            0,
            nested(&[NEG], MAX_RECORDS - 1, leaf(0)),
        ),
        one(
            "sum of 512 leaves over 256 variables",
            0,
            balanced(ADD, 0, 512, &leaf),
        ),
        one(
            "23 chains of 10 Xor literals",
            0,
            balanced(ADD, 0, 23, &of_ten),
        ),
        one("54 nested Xor", 0, nested_xor(54)),
        one("500 nested Xor", 9, nested_xor(500)),
    ]
}

/// One atom of 512 variables, which only a library with variables of two bytes takes.
#[cfg(feature = "library")]
pub fn one_atom() -> Class {
    Class {
        name: "one atom of 512 variables",
        refusal: 0,
        files: vec![bytes(&crate::number_cases::of_512(XOR, 0))],
    }
}

/// Accepted expressions of 5 to 40 records, from four families by turns.
fn tangles(rng: &mut Prng) -> Vec<Vec<u8>> {
    let families: [fn(&mut Prng, usize) -> Vec<Case>; 4] = [
        random_cases::sums,
        random_cases::tables,
        random_cases::lowering,
        random_cases::products,
    ];
    let wanted = |case: &Case| {
        (5..=40).contains(&(case.file.len() / RECORD_BYTES))
            && normal_model::answer(&case.file, case.length).refusal == 0
    };
    let mut files = Vec::new();
    while files.len() < TANGLES {
        let made = families[files.len() % families.len()](rng, 1);
        files.extend(made.into_iter().filter(wanted).map(|case| case.file));
    }
    files
}

/// A word for each variable below 256.
pub fn assignment() -> Vec<u64> {
    let rng = &mut Prng::new(SEED + 4);
    (0..256).map(|_| random::word(rng, 64)).collect()
}
