//! The static library beside the models (values and refusals) and the published Rust (masks and
//! compaction): first on the cases of the vector file, then on random ones. Stops at the first
//! difference.

use crate::cases::{self, NUMBER_SEED, SEED};
use crate::differences::hex;
use crate::entry::{
    self, Entry, CHANGE_COEFFICIENT, CHANGE_MASK, COMPACT, FORM_VALUE, REDUCE_MASK, TYPE_NAMES,
    VALUE,
};
use crate::form::RESULT_BYTES;
use crate::model::Answer;
use crate::numbers::{self, MOST_WORDS};
use crate::pass::Pass;
use crate::prng::Prng;
use crate::random::{self, Kinds};
use crate::refusal::{NUMBERS, OF_COMPACT, OF_EXPR_VALUE, OF_FORM_VALUE};
use crate::written::Written;
use crate::{
    form_random, judge_compare, library, library_forms, list_compare, masks, normal_compare,
    number_cases, pass_compare, rules_compare, week_compare,
};

/// Random inputs for each function, beside the cases of the vector file.
const RANDOM_INPUTS: usize = 250_000;
const RANDOM_FORMS: usize = 125_000;
/// One more for so many of them, over variables of two bytes.
const ONE_IN: usize = 8;

pub fn run() -> Result<(), String> {
    // another seed than the vector file's, so that the random inputs are new ones
    let rng = &mut Prng::new(SEED + 1);
    let edges = cases::entries();
    compare_values(rng, &edges)?;
    for kind in [REDUCE_MASK, CHANGE_MASK, CHANGE_COEFFICIENT] {
        compare_masks(rng, &edges, kind)?;
    }
    compare_form_values(rng, &edges)?;
    compare_compactions(rng, &edges)?;
    normal_compare::run()?;
    rules_compare::run()?;
    pass_compare::run()?;
    list_compare::run()?;
    week_compare::run()?;
    judge_compare::run()
}

/// How many inputs had which refusal.
#[derive(Default)]
struct Counts([usize; NUMBERS]);

impl Counts {
    fn add(&mut self, refusal: u64) {
        self.0[refusal as usize] += 1;
    }

    /// The line of a function without differences.
    fn show(&self, function: &str, refusals: &[u64]) {
        let refused: Vec<String> = refusals
            .iter()
            .map(|&refusal| format!("{} refused by {refusal}", self.0[refusal as usize]))
            .collect();
        println!(
            "{function}: {} inputs ({} accepted, {}), 0 differences",
            self.0.iter().sum::<usize>(),
            self.0[0],
            refused.join(", ")
        );
    }
}

fn compare_values(rng: &mut Prng, edges: &[Entry]) -> Result<(), String> {
    let mut counts = Counts::default();
    for entry in edges.iter().filter(|entry| entry.kind == VALUE) {
        counts.add(check_value(entry)?);
    }
    for i in 0..RANDOM_INPUTS {
        let entry = match i % 5 {
            0..=2 => cases::random_value(rng, Kinds::Accepted),
            3 => cases::random_value(rng, Kinds::All),
            _ => cases::damaged_value(rng),
        };
        counts.add(check_value(&entry)?);
    }
    let rng = &mut number_rng();
    for i in 0..RANDOM_INPUTS / ONE_IN {
        let longest = longest_assignment(rng);
        let entry = match i % 4 {
            3 => number_cases::spoiled_value(rng, longest),
            _ => number_cases::random_value(rng, longest),
        };
        counts.add(check_value(&entry)?);
    }
    counts.show("hogzelt_expr_value", OF_EXPR_VALUE);
    Ok(())
}

/// The generator for variables of two bytes.
fn number_rng() -> Prng {
    Prng::new(SEED + NUMBER_SEED + 1)
}

/// The length of the longest assignment of a call: mostly all words that are read, or a few more.
fn longest_assignment(rng: &mut Prng) -> usize {
    match rng.below(8) {
        0 => 512,
        1 => MOST_WORDS + 1 + rng.below(4096),
        _ => MOST_WORDS,
    }
}

/// The refusal that both give.
fn check_value(entry: &Entry) -> Result<u64, String> {
    let wanted = Answer {
        refusal: u64::from(entry.refusal),
        value: entry.expected,
    };
    let (function, found) = match entry.kind {
        VALUE => ("expr", library::expr_value(&entry.bytes, &entry.words)),
        _ => (
            "semilinear",
            library::semilinear_value(&entry.bytes, &entry.words),
        ),
    };
    if found == wanted {
        return Ok(found.refusal);
    }
    Err(format!(
        "hogzelt_{function}_value differs: wanted {wanted:x?}, found {found:x?}\n\
         words {:x?}\nbytes {}",
        entry.words,
        hex(&entry.bytes)
    ))
}

fn compare_masks(rng: &mut Prng, edges: &[Entry], kind: u8) -> Result<(), String> {
    let name = TYPE_NAMES[usize::from(kind)];
    let (mut inputs, mut zeros) = (0usize, 0usize);
    let mut count = |answer: u64| {
        inputs += 1;
        zeros += usize::from(answer == 0);
    };
    for entry in edges.iter().filter(|entry| entry.kind == kind) {
        let numbers = [entry.words[0], entry.words[1], entry.words[2]];
        count(check_mask(kind, numbers, entry.words[3] as u32)?);
    }
    for _ in 0..RANDOM_INPUTS {
        let call = masks::random(rng, kind);
        count(check_mask(kind, call.numbers, call.w)?);
    }
    let zero = if kind == REDUCE_MASK {
        "mask 0"
    } else {
        "false"
    };
    println!("hogzelt_{name}: {inputs} inputs ({zeros} with {zero}), 0 differences");
    Ok(())
}

/// The answer that both give.
fn check_mask(kind: u8, numbers: [u64; 3], w: u32) -> Result<u64, String> {
    let wanted = entry::mask_answer(kind, numbers, w);
    let found = library::mask_answer(kind, numbers, w);
    if found == wanted {
        return Ok(found);
    }
    Err(format!(
        "hogzelt_{} differs: wanted {wanted:x}, found {found:x}\nnumbers {numbers:x?}, width {w}",
        TYPE_NAMES[usize::from(kind)]
    ))
}

/// Random bytes: valid forms of a few and of many atoms, forms that the Rust's normaliser makes, and
/// damaged ones.
fn form_bytes(rng: &mut Prng, number: usize) -> Vec<u8> {
    if number.is_multiple_of(1000) {
        let w = random::width(rng);
        return form_random::full(rng, w).bytes();
    }
    match number % 8 {
        0..=2 => cases::random_form(rng, 12).bytes(),
        3 => cases::random_form(rng, 40).bytes(),
        4 => cases::normalised_form(rng).bytes(),
        5 => {
            let form = cases::normalised_form(rng);
            form_random::damaged(rng, &form)
        }
        _ => {
            let form = cases::random_form(rng, 6);
            form_random::damaged(rng, &form)
        }
    }
}

/// Forms over variables of two bytes, a quarter of them with byte 5, 6 or 7 of a record set.
fn number_bytes(rng: &mut Prng, number: usize) -> Vec<u8> {
    match number % 4 {
        3 => number_cases::spoiled_form(rng),
        _ => number_cases::random_form(rng, 12).bytes(),
    }
}

fn compare_form_values(rng: &mut Prng, edges: &[Entry]) -> Result<(), String> {
    let mut counts = Counts::default();
    for entry in edges.iter().filter(|entry| entry.kind == FORM_VALUE) {
        counts.add(check_value(entry)?);
    }
    for i in 0..RANDOM_FORMS {
        let bytes = form_bytes(rng, i);
        let w = bytes.get(4).map_or(8, |w| (*w).clamp(1, 64));
        let entry = entry::form_value(bytes, random::assignment(rng, w));
        counts.add(check_value(&entry)?);
    }
    let rng = &mut number_rng();
    for i in 0..RANDOM_FORMS / ONE_IN {
        let longest = longest_assignment(rng);
        let words = numbers::assignment(rng, longest);
        let entry = entry::form_value(number_bytes(rng, i), words);
        counts.add(check_value(&entry)?);
    }
    counts.show("hogzelt_semilinear_value", OF_FORM_VALUE);
    Ok(())
}

fn compare_compactions(rng: &mut Prng, edges: &[Entry]) -> Result<(), String> {
    let mut counts = Counts::default();
    for entry in edges.iter().filter(|entry| entry.kind == COMPACT) {
        let used = entry.expected as u32 as usize;
        let form = &entry.bytes[..entry.bytes.len() - used];
        counts.add(check_compaction(form, entry.words[0] as usize)?);
    }
    for i in 0..RANDOM_FORMS {
        let bytes = form_bytes(rng, i);
        let length = match rng.below(64) {
            0 => rng.pick(&[0, 1, RESULT_BYTES - 16, RESULT_BYTES - 1, RESULT_BYTES + 1]),
            1 => rng.below(2 * RESULT_BYTES),
            _ => RESULT_BYTES,
        };
        counts.add(check_compaction(&bytes, length)?);
    }
    let rng = &mut number_rng();
    for i in 0..RANDOM_FORMS / ONE_IN {
        counts.add(check_compaction(&number_bytes(rng, i), RESULT_BYTES)?);
    }
    counts.show("hogzelt_compact_atom_table", OF_COMPACT);
    Ok(())
}

/// The refusal that both give; every byte of the result slice is compared too.
fn check_compaction(form: &[u8], length: usize) -> Result<u64, String> {
    let wanted = entry::compact_answer(form, length);
    let found = library_forms::passed(Pass::Compact, form, length);
    if found == wanted {
        return Ok(found.refusal);
    }
    let line = |w: &Written| {
        let used = w
            .out
            .iter()
            .rposition(|byte| *byte != 0)
            .map_or(0, |at| at + 1);
        let (refusal, used_length, terms) = (w.refusal, w.used, w.terms);
        format!(
            "refusal {refusal}, used {used_length}, terms {terms}, {used} bytes up to the last \
             that is not 0: {}",
            hex(&w.out[..used])
        )
    };
    Err(format!(
        "hogzelt_compact_atom_table differs at length {length}\nwanted {}\nfound {}\nbytes {}",
        line(&wanted),
        line(&found),
        hex(form)
    ))
}
