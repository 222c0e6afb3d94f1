//! A vector file as text, one block of lines for each entry.

use crate::entry::{
    Entry, BY_RULES, COALESCE, COLUMNS, COMPACT, EQUAL, FLATTEN, FORM_VALUE, HASH, JUDGE,
    JUDGE_FORMS, NORMALIZE, RECOVER, REDUCE_MASK, REFINE, RUN, TYPE_NAMES, VALUE,
};
use crate::record::{split, RECORD_BYTES};
use crate::{form_model, model, published, refusal};

/// The entries `first` to `last`.
pub fn text(entries: &[Entry], first: usize, last: usize) -> String {
    entries
        .iter()
        .enumerate()
        .filter(|(number, _)| (first..=last).contains(number))
        .map(|(number, entry)| entry_text(number, entry))
        .collect()
}

fn entry_text(number: usize, entry: &Entry) -> String {
    let name = TYPE_NAMES
        .get(usize::from(entry.kind))
        .unwrap_or(&"unknown type");
    let (refusal, expected) = (entry.refusal, entry.expected);
    let words: Vec<String> = entry.words.iter().map(|word| format!("{word:x}")).collect();
    let bytes = match entry.kind {
        VALUE | HASH => expression_text(&entry.bytes),
        FORM_VALUE => form_text("form", &entry.bytes),
        COMPACT..=BY_RULES => writing_text(entry),
        JUDGE | JUDGE_FORMS => pair_text(entry),
        _ => String::new(),
    };
    format!(
        "{number}: {name}, refusal {refusal}, expected {expected:016x}\n\
         \x20   words: {}\n{bytes}",
        words.join(" ")
    )
}

/// The form or the expression and, behind it, the expected result.
fn writing_text(entry: &Entry) -> String {
    let used = entry.expected as u32 as usize;
    let (input, result) = entry.bytes.split_at(entry.bytes.len().saturating_sub(used));
    let result = match (entry.kind, used) {
        (_, 0) => String::new(),
        (COLUMNS, _) => format!("    result: {used} bytes\n") + &lines(result),
        _ => form_text("result", result),
    };
    let input = match entry.kind {
        NORMALIZE | RUN | BY_RULES => expression_text(input),
        _ => form_text("form", input),
    };
    input + &result
}

/// The left and the right.
fn pair_text(entry: &Entry) -> String {
    let (left, right) = entry.bytes.split_at(entry.words[0] as usize);
    match entry.kind {
        JUDGE => expression_text(left) + &expression_text(right),
        _ => form_text("form", left) + &form_text("form", right),
    }
}

/// Atoms and terms where the bytes are a valid form, else the bytes, a record to a line.
pub fn form_text(name: &str, bytes: &[u8]) -> String {
    let mut text = format!("    {name}: {} bytes\n", bytes.len());
    let Ok(form) = form_model::read(bytes) else {
        return text + &lines(bytes);
    };
    text += &format!("    width {}, constant {:x}\n", form.width, form.constant);
    for (number, atom) in form.atoms.iter().enumerate() {
        let infix = published::text(&atom.tree);
        text += &format!("    #{number}: {infix}\n");
    }
    for term in &form.terms {
        text += &format!("    {:x} * #{}\n", term.coeff, term.atom);
    }
    text
}

/// Infix text where the file is well formed, else its bytes, a record to a line.
pub fn expression_text(file: &[u8]) -> String {
    let text = format!("    expression: {} bytes\n", file.len());
    let whole = !file.is_empty() && file.len().is_multiple_of(RECORD_BYTES);
    if whole && model::well_formed(&split(file)) {
        let infix = published::text(&split(file));
        return text + &format!("    width {}: {infix}\n", file[4]);
    }
    text + &lines(file)
}

pub fn lines(bytes: &[u8]) -> String {
    let mut text = String::new();
    for line in bytes.chunks(RECORD_BYTES) {
        let digits: Vec<String> = line.iter().map(|byte| format!("{byte:02x}")).collect();
        text += &format!("    {}\n", digits.join(" "));
    }
    text
}

/// The table in docs/VECTORS.md: entries by type and outcome.
pub fn counts(entries: &[Entry]) -> String {
    let mut text = "| type | outcome | entries |\n|---|---|---|\n".to_string();
    for (kind, name) in (0u8..).zip(TYPE_NAMES).skip(1) {
        for wanted in outcomes(kind) {
            let count = entries
                .iter()
                .filter(|entry| entry.kind == kind && outcome(entry) == wanted)
                .count();
            text += &format!("| {kind} {name} | {wanted} | {count} |\n");
        }
    }
    text
}

fn outcomes(kind: u8) -> Vec<&'static str> {
    match kind {
        VALUE => refused(refusal::OF_EXPR_VALUE),
        HASH => vec!["hash"],
        FORM_VALUE => refused(refusal::OF_FORM_VALUE),
        COMPACT => refused(refusal::OF_COMPACT),
        REFINE | FLATTEN | RECOVER | COALESCE => refused(refusal::OF_PASSES),
        COLUMNS => refused(refusal::OF_COLUMNS),
        NORMALIZE => refused(refusal::OF_NORMALIZE),
        RUN => refused(refusal::OF_LISTS),
        BY_RULES => refused(refusal::OF_RULES),
        JUDGE => verdicts(refusal::OF_JUDGE),
        JUDGE_FORMS => verdicts(refusal::OF_JUDGE_FORMS),
        REDUCE_MASK => vec!["mask 0", "another mask"],
        _ => vec!["false", "true"],
    }
}

/// Accepted, and each of the refusals.
fn refused(refusals: &[u64]) -> Vec<&'static str> {
    [&[0], refusals]
        .concat()
        .into_iter()
        .map(refusal::name)
        .collect()
}

/// Equal, unlike, and each of the refusals.
fn verdicts(refusals: &[u64]) -> Vec<&'static str> {
    [&["equal", "unlike"], &refused(refusals)[1..]].concat()
}

fn outcome(entry: &Entry) -> &'static str {
    match (entry.kind, entry.expected) {
        (JUDGE | JUDGE_FORMS, EQUAL) => "equal",
        (JUDGE | JUDGE_FORMS, _) if entry.refusal == 0 => "unlike",
        (JUDGE | JUDGE_FORMS, _) => refusal::name(u64::from(entry.refusal)),
        (VALUE | FORM_VALUE..=BY_RULES, _) => refusal::name(u64::from(entry.refusal)),
        (HASH, _) => "hash",
        (REDUCE_MASK, 0) => "mask 0",
        (REDUCE_MASK, _) => "another mask",
        (_, 0) => "false",
        _ => "true",
    }
}
