//! The vector file (docs/VECTORS.md): entries of a 16-byte head, words, bytes and zero padding to a
//! multiple of 16 bytes, all numbers little-endian; an end entry closes the file.

use crate::form_model;
use crate::pass::{self, Pass};
use crate::record::RECORD_BYTES;
use crate::written::{self, Written};
use crate::{
    columns, form, judge_cases, judge_model, list, model, normal_model, published, record,
    rules_cases, rules_model,
};

pub const HEAD_BYTES: usize = 16;
pub const MAX_WORDS: usize = 512;
/// A form of one record more than there may be, and the longest result, that of the columns.
pub const MAX_BYTES: usize = form::RESULT_BYTES + RECORD_BYTES + 8 * columns::RESULT_WORDS;

pub const END: u8 = 0;
pub const VALUE: u8 = 1;
pub const HASH: u8 = 2;
pub const REDUCE_MASK: u8 = 3;
pub const CHANGE_MASK: u8 = 4;
pub const CHANGE_COEFFICIENT: u8 = 5;
pub const FORM_VALUE: u8 = 6;
pub const COMPACT: u8 = 7;
pub const NORMALIZE: u8 = 8;
pub const REFINE: u8 = 9;
pub const FLATTEN: u8 = 10;
pub const COLUMNS: u8 = 11;
pub const RECOVER: u8 = 12;
pub const COALESCE: u8 = 13;
pub const RUN: u8 = 14;
pub const BY_RULES: u8 = 15;
pub const JUDGE: u8 = 16;
pub const JUDGE_FORMS: u8 = 17;

/// The expected value of two that are judged equal.
pub const EQUAL: u64 = 1 << 63;

/// The names of the entry types, by number.
pub const TYPE_NAMES: [&str; 18] = [
    "end",
    "expression value",
    "structural hash",
    "reduce_mask",
    "can_change_mask_to",
    "can_change_coefficient_to",
    "semilinear value",
    "compact_atom_table",
    "normalize_to_semilinear",
    "refine_terms",
    "flatten_complex_atoms",
    "compute_partitions",
    "recover_structure",
    "coalesce_terms",
    "run_passes",
    "normalize_by_rules",
    "judge",
    "judge_forms",
];

#[derive(Clone, Debug, PartialEq, Eq)]
pub struct Entry {
    pub kind: u8,
    pub refusal: u8,
    pub expected: u64,
    pub words: Vec<u64>,
    /// the expression or the form; from type 7 on the used part of the result stands behind it, and
    /// in types 16 and 17 the right behind the left
    pub bytes: Vec<u8>,
}

/// An entry whose expected refusal and value are the model's.
pub fn value(expr: Vec<u8>, words: Vec<u64>) -> Entry {
    let answer = model::answer(&expr, &words);
    Entry {
        kind: VALUE,
        refusal: answer.refusal as u8,
        expected: answer.value,
        words,
        bytes: expr,
    }
}

/// An entry whose expected hash is the published Rust's. The expression must be accepted.
pub fn hash(records: &[record::Record]) -> Entry {
    let expr = record::bytes(records);
    assert_eq!(
        model::refusal(&expr),
        0,
        "a hash is asked of accepted files"
    );
    Entry {
        kind: HASH,
        refusal: 0,
        expected: published::hash(records),
        words: Vec::new(),
        bytes: expr,
    }
}

/// An entry of a mask function: three numbers (the third 0 for `reduce_mask`) and the width.
pub fn mask(kind: u8, numbers: [u64; 3], w: u32) -> Entry {
    Entry {
        kind,
        refusal: 0,
        expected: mask_answer(kind, numbers, w),
        words: vec![numbers[0], numbers[1], numbers[2], u64::from(w)],
        bytes: Vec::new(),
    }
}

/// The published Rust's answer for a mask function, false as 0 and true as 1.
pub fn mask_answer(kind: u8, [a, b, c]: [u64; 3], w: u32) -> u64 {
    match kind {
        REDUCE_MASK => published::reduce_mask(a, b, w),
        CHANGE_MASK => u64::from(published::can_change_mask_to(a, b, c, w)),
        CHANGE_COEFFICIENT => u64::from(published::can_change_coefficient_to(a, b, c, w)),
        _ => unreachable!("not a mask function"),
    }
}

/// An entry whose expected refusal and value of a form are the model's.
pub fn form_value(bytes: Vec<u8>, words: Vec<u64>) -> Entry {
    let answer = form_model::answer(&bytes, &words);
    Entry {
        kind: FORM_VALUE,
        refusal: answer.refusal as u8,
        expected: answer.value,
        words,
        bytes,
    }
}

/// An entry of compaction into a result slice of `length` bytes. Model and Rust must agree.
pub fn compact(bytes: Vec<u8>, length: usize) -> Entry {
    let written = compact_answer(&bytes, length);
    writing(COMPACT, bytes, length, &written)
}

/// An entry of normalising into a result slice of `length` bytes. Model and Rust must agree.
pub fn normalize(file: Vec<u8>, length: usize) -> Entry {
    let written = normalize_answer(&file, length);
    writing(NORMALIZE, file, length, &written)
}

/// An entry of a pass beside compaction, over a form, into a result slice of `length` bytes.
pub fn pass(kind: u8, bytes: Vec<u8>, length: usize) -> Entry {
    let pass = match kind {
        REFINE => Pass::Refine,
        RECOVER => Pass::Recover,
        COALESCE => Pass::Coalesce,
        _ => Pass::Flatten,
    };
    let written = pass::answer(pass, &bytes, length);
    writing(kind, bytes, length, &written)
}

/// An entry of the columns of a form in a result slice of `length` words.
pub fn columns(mut bytes: Vec<u8>, length: usize) -> Entry {
    let answer = columns::answer(&bytes, length);
    let atoms = form_model::read(&bytes).map_or(0, |form| form.atoms.len());
    let words = answer.classes as usize * (1 + atoms);
    bytes.extend(
        answer.out[..words]
            .iter()
            .flat_map(|word| word.to_le_bytes()),
    );
    Entry {
        kind: COLUMNS,
        refusal: answer.refusal as u8,
        expected: (answer.classes << 32) | (8 * words as u64),
        words: vec![length as u64],
        bytes,
    }
}

/// An entry of a list of passes: the lengths of both slices stand before the words of the list.
pub fn run(case: list::Case) -> Entry {
    let written = list::answer(&case).written;
    let mut entry = writing(RUN, case.file, case.sheet, &written);
    entry.words.push(case.spare as u64);
    entry.words.extend(case.words);
    entry
}

/// An entry of normalising by rules: their number stands before the length of the result slice.
pub fn by_rules(case: rules_cases::Case) -> Entry {
    let written = rules_answer(case.rules, &case.file, case.length);
    let mut entry = writing(BY_RULES, case.file, case.length, &written);
    entry.words.insert(0, case.rules);
    entry
}

/// An entry of two expressions that are judged.
pub fn judge(pair: judge_cases::Pair) -> Entry {
    let verdict = judge_model::answer(&pair.left, &pair.right);
    judged(JUDGE, pair, verdict)
}

/// An entry of two forms that are judged.
pub fn judge_forms(pair: judge_cases::Pair) -> Entry {
    let verdict = judge_model::of_forms(&pair.left, &pair.right);
    judged(JUDGE_FORMS, pair, verdict)
}

/// An entry of a pair: its word is the length of the left.
fn judged(kind: u8, pair: judge_cases::Pair, verdict: judge_model::Verdict) -> Entry {
    Entry {
        kind,
        refusal: verdict.refusal as u8,
        expected: verdict.equal * EQUAL | verdict.place << 32 | verdict.index,
        words: vec![pair.left.len() as u64],
        bytes: [pair.left, pair.right].concat(),
    }
}

/// An entry of a function that writes a form, with what it is to write.
fn writing(kind: u8, mut bytes: Vec<u8>, length: usize, written: &Written) -> Entry {
    bytes.extend(&written.out[..written.used as usize]);
    Entry {
        kind,
        refusal: written.refusal as u8,
        expected: written.flag << 63 | written.terms << 32 | written.used,
        words: vec![length as u64],
        bytes,
    }
}

/// What compaction gives: refusals are the model's, an accepted form's bytes also the Rust's.
pub fn compact_answer(bytes: &[u8], length: usize) -> Written {
    let written = form_model::compact(bytes, length);
    if written.refusal == 0 {
        let form = form_model::read(bytes).expect("an accepted form");
        let rust = written::written(&published::passed(Pass::Compact, &form).form);
        assert_eq!(written, rust, "the model compacts as the Rust does");
    }
    written
}

/// What normalising gives: refusals 1 to 6 are the model's; where the expression and the slice are
/// well formed, the answer is also that of the Rust with document 01's partings.
pub fn normalize_answer(file: &[u8], length: usize) -> Written {
    let written = normal_model::answer(file, length);
    if rust_normalizes(file, length) {
        let rust = rust_answer(&record::split(file));
        assert_eq!(written, rust, "the model normalises as the Rust does");
    }
    written
}

/// What normalising by rules gives. The rewriting of rules 2 is the model's; what it leaves is
/// normalised by the Rust too.
pub fn rules_answer(rules: u64, file: &[u8], length: usize) -> Written {
    if rules == rules_model::FIRST {
        return normalize_answer(file, length);
    }
    let written = rules_model::answer(rules, file, length);
    if rules == rules_model::SECOND && rust_normalizes(file, length) {
        let rust = rust_answer(&rules_model::rewritten(&record::split(file)));
        assert_eq!(written, rust, "rules 2 are rules 1 on the rewritten tangle");
    }
    written
}

/// What the Rust with document 01's partings makes of a tree.
pub fn rust_answer(tree: &[record::Record]) -> Written {
    written::of(crate::parted::bridge::normalized(tree))
}

/// Whether the Rust can be asked to normalise: refusals 1 to 6 are about bytes, which it has not.
pub fn rust_normalizes(file: &[u8], length: usize) -> bool {
    model::refusal(file) == 0 && length == form::RESULT_BYTES
}

/// The bytes of a vector file.
pub fn write(entries: &[Entry]) -> Vec<u8> {
    let mut out = Vec::new();
    for entry in entries {
        write_entry(&mut out, entry);
    }
    let end = Entry {
        kind: END,
        refusal: 0,
        expected: entries.len() as u64,
        words: Vec::new(),
        bytes: Vec::new(),
    };
    write_entry(&mut out, &end);
    out
}

fn write_entry(out: &mut Vec<u8>, entry: &Entry) {
    assert!(entry.words.len() <= MAX_WORDS && entry.bytes.len() <= MAX_BYTES);
    out.push(entry.kind);
    out.push(entry.refusal);
    out.extend((entry.words.len() as u16).to_le_bytes());
    out.extend((entry.bytes.len() as u32).to_le_bytes());
    out.extend(entry.expected.to_le_bytes());
    for word in &entry.words {
        out.extend(word.to_le_bytes());
    }
    out.extend(&entry.bytes);
    out.resize(out.len().next_multiple_of(HEAD_BYTES), 0);
}

/// The entries of a vector file, or what is wrong with it.
pub fn read(file: &[u8]) -> Result<Vec<Entry>, String> {
    let mut entries = Vec::new();
    let mut at = 0;
    loop {
        let (entry, next) = read_entry(file, at).ok_or(format!("no whole entry at byte {at}"))?;
        if entry.kind == END {
            return check_end(file, next, &entry, entries);
        }
        entries.push(entry);
        at = next;
    }
}

fn check_end(
    file: &[u8],
    next: usize,
    end: &Entry,
    entries: Vec<Entry>,
) -> Result<Vec<Entry>, String> {
    if end.expected != entries.len() as u64 {
        return Err(format!(
            "the end entry counts {} entries, not {}",
            end.expected,
            entries.len()
        ));
    }
    if next != file.len() {
        return Err(format!("bytes after the end entry, from byte {next}"));
    }
    Ok(entries)
}

/// The entry at byte `at` and the place of the next one.
fn read_entry(file: &[u8], at: usize) -> Option<(Entry, usize)> {
    let head = file.get(at..at + HEAD_BYTES)?;
    let word_count = usize::from(u16::from_le_bytes(head[2..4].try_into().ok()?));
    let length = u32::from_le_bytes(head[4..8].try_into().ok()?) as usize;
    let words_at = at + HEAD_BYTES;
    let bytes_at = words_at + 8 * word_count;
    let next = (bytes_at + length).next_multiple_of(HEAD_BYTES);
    let payload = file.get(..next)?;
    let entry = Entry {
        kind: head[0],
        refusal: head[1],
        expected: u64::from_le_bytes(head[8..16].try_into().ok()?),
        words: payload[words_at..bytes_at]
            .chunks_exact(8)
            .map(|b| u64::from_le_bytes(b.try_into().expect("eight bytes")))
            .collect(),
        bytes: payload[bytes_at..bytes_at + length].to_vec(),
    };
    Some((entry, next))
}
