//! Lists of passes run from expressions, by family: worked examples, random expressions, sums written
//! from forms that the passes change, tables near a limit, and what is refused: lists that are none,
//! expressions, and slices of other lengths.

use crate::family::{family, Family};
use crate::form::{Form, MAX_ATOMS, RESULT_BYTES};
use crate::form_model;
use crate::list::{words, Case};
use crate::normal_cases as normal;
use crate::normal_limits as limits;
use crate::normal_model;
use crate::normal_random;
use crate::pass::{Pass, PASSES};
use crate::pass_cases;
use crate::pass_examples;
use crate::prng::Prng;
use crate::random;
use crate::record::{
    balanced, binary, bytes, literal, unary, variable, Records, ADD, MAX_RECORDS, MUL, NEG,
    RECORD_BYTES, SHR,
};
use crate::{pass_atoms, pass_groups};

/// The most calls of a random list.
const MOST_CALLS: usize = 20;

/// The longest slice, too long by a record.
const LONGEST: usize = RESULT_BYTES + RECORD_BYTES;

/// All families.
pub const FAMILIES: [Family<Case>; 7] = [
    family("worked examples", 0, 40, |_, n| examples(n)),
    family("random expressions", 60_000, 30, |rng, n| {
        made(rng, n, |rng| pass_cases::expression(rng).0)
    }),
    family("sums written from forms", 75_000, 50, |rng, n| {
        made(rng, n, from_form)
    }),
    family("near the limits", 6_000, 6, near_limits),
    family("no lists", 9_000, 30, no_lists),
    family("refused expressions", 5_000, 40, refused),
    family("lengths", 5_000, 20, lengths),
];

pub fn case(file: Vec<u8>, words: Vec<u64>) -> Case {
    Case {
        file,
        words,
        sheet: RESULT_BYTES,
        spare: RESULT_BYTES,
    }
}

/// `count` random lists from expressions that `make` makes.
fn made(rng: &mut Prng, count: usize, make: fn(&mut Prng) -> Vec<u8>) -> Vec<Case> {
    (0..count)
        .map(|_| {
            let file = make(rng);
            case(file, random_words(rng, &PASSES))
        })
        .collect()
}

/// Up to 20 calls: passes in their order or at random, one call in eight with a result slice that is
/// too short.
pub fn random_words(rng: &mut Prng, passes: &[Pass]) -> Vec<u64> {
    let in_order = rng.one_in(4);
    let call = |rng: &mut Prng, number: usize| {
        let pass = match in_order {
            true => passes[number % passes.len()],
            false => rng.pick(passes),
        };
        let length = match rng.below(8) {
            0 => rng.pick(&[0, 1, 16, RESULT_BYTES - RECORD_BYTES, RESULT_BYTES - 1]),
            _ => RESULT_BYTES,
        };
        (pass, length)
    };
    let count = rng.below(MOST_CALLS + 1);
    let calls: Vec<(Pass, usize)> = (0..count).map(|number| call(rng, number)).collect();
    words(&calls)
}

/// The worked examples of normalising and of the passes, each with no call, with each pass alone, and
/// with the five in order, once and four times: all of them, or about `count`, evenly spaced.
fn examples(count: usize) -> Vec<Case> {
    let mut files: Vec<Vec<u8>> = normal::examples().into_iter().map(|one| one.file).collect();
    let forms = pass_examples::cases();
    let form = |one: &pass_cases::Case| form_model::read(&one.file).expect("a form");
    files.extend(forms.iter().filter_map(|one| sum_of(&form(one))));
    let whole = PASSES.map(|pass| (pass, RESULT_BYTES));
    let mut lists = vec![words(&[]), words(&whole), words(&whole.repeat(4))];
    lists.extend(whole.map(|call| words(&[call])));
    let all: Vec<Case> = files
        .iter()
        .flat_map(|file| lists.iter().map(|list| case(file.clone(), list.clone())))
        .collect();
    // an odd step meets all lists
    let step = all.len().checked_div(count).map_or(1, |step| step | 1);
    all.into_iter().step_by(step).collect()
}

/// An expression with the atoms of a form, and its value: the sum of its terms and constant. An atom
/// without a term is put in and taken away. None where it is too long.
pub fn sum_of(form: &Form) -> Option<Vec<u8>> {
    let w = form.width;
    let mut terms: Vec<Records> = Vec::new();
    for (number, atom) in form.atoms.iter().enumerate() {
        let tree = || atom.tree.clone();
        match form.terms.iter().find(|t| usize::from(t.atom) == number) {
            None => terms.extend([tree(), unary(NEG, 0, tree())]),
            Some(term) if term.coeff == 1 => terms.push(tree()),
            Some(term) => terms.push(binary(MUL, literal(w, term.coeff), tree())),
        }
    }
    terms.push(literal(w, form.constant));
    let sum = balanced(ADD, 0, terms.len(), &|i| terms[i].clone());
    (sum.len() <= MAX_RECORDS).then(|| bytes(&sum))
}

/// A sum with the atoms of a form that the passes change.
pub fn from_form(rng: &mut Prng) -> Vec<u8> {
    let kinds = [
        pass_groups::one,
        pass_groups::one,
        pass_groups::apart,
        pass_groups::several,
        pass_groups::colliding,
        pass_groups::bare,
        pass_atoms::atoms,
    ];
    loop {
        let make: fn(&mut Prng, u8) -> Form = rng.pick(&kinds);
        let w = random::width(rng);
        if let Some(file) = sum_of(&make(rng, w)) {
            return file;
        }
    }
}

/// Accepted expressions whose table is at a limit or a little short of it, with calls that mostly make
/// new atoms.
fn near_limits(rng: &mut Prng, count: usize) -> Vec<Case> {
    let mut all = Vec::new();
    while all.len() < count {
        let file = match rng.below(6) {
            0 => limits::atoms(rng, 1).remove(0).file,
            1 => limits::chains(rng, 1).remove(0).file,
            2 => limits::tree_records(rng, 1).remove(0).file,
            _ => filled(rng),
        };
        let accepted = normal_model::answer(&file, RESULT_BYTES).refusal == 0;
        if accepted && file.len() <= MAX_RECORDS * RECORD_BYTES {
            let passes = match rng.one_in(3) {
                true => &PASSES[..],
                false => &PASSES[..4],
            };
            all.push(case(file, random_words(rng, passes)));
        }
    }
    all
}

/// A sum written from a form, and as many shifted variables as make 248 to 256 atoms of it.
fn filled(rng: &mut Prng) -> Vec<u8> {
    let file = from_form(rng);
    let form = normal_model::answer(&file, RESULT_BYTES);
    let atoms = form_model::read(form.form()).map_or(0, |form| form.atoms.len());
    let short = rng.pick(&[0, 0, 1, 2, 3, 4, 6, 8]);
    let sum = crate::record::split(&file);
    let w = sum[0].width;
    let shifted = |number: usize| unary(SHR, 1, variable(w, 255 - number as u16));
    let extra = (MAX_ATOMS - short).saturating_sub(atoms);
    let whole = (0..extra).fold(sum, |sum, number| binary(ADD, sum, shifted(number)));
    bytes(&whole)
}

/// Words that are no list, or no list for these slices, also beside refused expressions.
fn no_lists(rng: &mut Prng, count: usize) -> Vec<Case> {
    let mut all = refused(rng, count / 3);
    let rest = count - all.len();
    all.extend(made(rng, rest, |rng| pass_cases::expression(rng).0));
    for one in &mut all {
        spoil(rng, one);
        if rng.one_in(8) {
            one.sheet = rng.pick(&[0, RESULT_BYTES - 1, LONGEST]);
        }
    }
    all
}

/// Makes a list that is none: an odd word, a number that is no pass, or a length above a slice's.
fn spoil(rng: &mut Prng, one: &mut Case) {
    if one.words.len() % 2 == 1 {
        return;
    }
    let word = rng.word();
    if one.words.is_empty() || rng.one_in(5) {
        return one.words.push(rng.pick(&[0, 1, 5, word]));
    }
    let at = 2 * rng.below(one.words.len() / 2);
    let (pass, length) = (one.words[at], RESULT_BYTES as u64);
    match rng.below(4) {
        0 => one.words[at] = rng.pick(&[0, 6, 7, word, u64::MAX]),
        // the low bits are those of a pass
        1 => one.words[at] = pass | 1 << rng.pick(&[8, 16, 32, 63]),
        2 => {
            let far = length | 1 << rng.pick(&[32, 63]);
            one.words[at + 1] = rng.pick(&[length + 1, length + 16, word | 1 << 63, far]);
            one.spare = rng.pick(&[RESULT_BYTES, LONGEST]);
        }
        _ => {
            one.words[at + 1] = 1 + rng.below(RESULT_BYTES) as u64;
            one.spare = rng.below(one.words[at + 1] as usize);
        }
    }
}

/// Expressions that are mostly refused, with lists of which one in four is none.
fn refused(rng: &mut Prng, count: usize) -> Vec<Case> {
    let families = [
        normal_random::any,
        normal_random::constants,
        normal_random::nonlinear,
        normal_random::casts,
        normal_random::damaged,
        limits::chains,
    ];
    (0..count)
        .map(|_| {
            let make: fn(&mut Prng, usize) -> Vec<normal::Case> = rng.pick(&families);
            let file = make(rng, 1).remove(0).file;
            let mut one = case(file, random_words(rng, &PASSES));
            if rng.one_in(4) {
                spoil(rng, &mut one);
            }
            one
        })
        .collect()
}

/// Other lengths of the expression and of both slices, beside lists that fit and that do not.
fn lengths(rng: &mut Prng, count: usize) -> Vec<Case> {
    let mut all = made(rng, count, |rng| pass_cases::expression(rng).0);
    let lengths = [
        0,
        1,
        16,
        RESULT_BYTES - 1,
        RESULT_BYTES,
        RESULT_BYTES + 1,
        LONGEST,
    ];
    for one in &mut all {
        if rng.one_in(3) {
            one.sheet = rng.pick(&lengths);
        }
        if rng.one_in(2) {
            one.spare = match rng.one_in(3) {
                true => rng.below(LONGEST),
                false => rng.pick(&lengths),
            };
        }
        if rng.one_in(2) {
            let fits = |word: &mut u64| *word = (*word).min(one.spare as u64);
            one.words.iter_mut().skip(1).step_by(2).for_each(fits);
        }
        if rng.one_in(6) {
            let longest = MAX_RECORDS * RECORD_BYTES;
            let length = rng.pick(&[0, 1, 15, 17, longest, longest + RECORD_BYTES]);
            one.file.resize(length, 0);
        }
    }
    all
}
