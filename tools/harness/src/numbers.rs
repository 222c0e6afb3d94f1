//! Variable numbers of two bytes: random ones over the whole range, and expressions and forms whose
//! variables are renamed to such.

use crate::form::Form;
use crate::form_model;
use crate::form_random::rehash;
use crate::prng::Prng;
use crate::record::{self, Record, RECORD_BYTES, VARIABLE};

/// Numbers at the edges of the bytes.
pub const EDGES: [u16; 13] = [
    0, 1, 2, 3, 254, 255, 256, 257, 511, 512, 513, 65_534, 65_535,
];

/// More words than these are never read.
#[cfg(any(feature = "library", test))]
pub const MOST_WORDS: usize = 65_536;

/// A number over the whole range, often at an edge of a byte.
pub fn number(rng: &mut Prng) -> u16 {
    match rng.below(8) {
        0..=2 => rng.pick(&EDGES),
        3 => u16::from(rng.byte()),
        4 => u16::from(rng.byte()) << 8,
        5 => u16::from(rng.byte()) << 8 | 255,
        _ => rng.word() as u16,
    }
}

/// So many different numbers. Of those after the first about half share a byte with one before, or
/// have its bytes exchanged.
pub fn different(rng: &mut Prng, count: usize) -> Vec<u16> {
    let mut numbers: Vec<u16> = Vec::new();
    while numbers.len() < count {
        let new = match numbers.is_empty() || rng.one_in(2) {
            true => number(rng),
            false => like(rng, &numbers),
        };
        if !numbers.contains(&new) {
            numbers.push(new);
        }
    }
    numbers
}

fn like(rng: &mut Prng, numbers: &[u16]) -> u16 {
    let [low, high] = rng.pick(numbers).to_le_bytes();
    let other = rng.byte();
    let other = rng.pick(&[0, 1, 255, other]);
    u16::from_le_bytes(match rng.below(3) {
        0 => [low, other],
        1 => [other, high],
        _ => [high, low],
    })
}

/// Eight different numbers.
pub fn eight(rng: &mut Prng) -> Vec<u16> {
    different(rng, 8)
}

/// Gives each variable another number over the whole range, the same one throughout.
pub fn rename(rng: &mut Prng, records: &mut [Record]) {
    let mut before: Vec<u16> = Vec::new();
    for record in records.iter().filter(|r| r.kind == VARIABLE) {
        if !before.contains(&record.arg) {
            before.push(record.arg);
        }
    }
    let after = different(rng, before.len());
    for record in records.iter_mut().filter(|r| r.kind == VARIABLE) {
        let place = before.iter().position(|number| *number == record.arg);
        record.arg = after[place.expect("a number that was met")];
    }
}

/// The bytes of a well-formed expression with its variables renamed.
pub fn renamed(rng: &mut Prng, file: &[u8]) -> Vec<u8> {
    let mut records = record::split(file);
    rename(rng, &mut records);
    record::bytes(&records)
}

/// A valid form with its variables renamed and the hashes that its trees have then.
pub fn renamed_form(rng: &mut Prng, form: &Form) -> Form {
    let mut records = form.records();
    rename(rng, &mut records);
    rehash(&mut records);
    form_model::read(&record::bytes(&records)).expect("a form")
}

/// Sets byte 5, 6 or 7 of one of the records.
pub fn spoil(rng: &mut Prng, file: &mut [u8]) {
    let start = RECORD_BYTES * rng.below(file.len() / RECORD_BYTES);
    file[start + 5 + rng.below(3)] = rng.pick(&[1, 2, 128, 255]);
}

/// Assignment words, up to `longest` of them, often that many.
pub fn assignment(rng: &mut Prng, longest: usize) -> Vec<u64> {
    let count = match rng.below(8) {
        0 => rng.pick(&[0, 1, 255]),
        1 => 256,
        2 => 257,
        3 => rng.below(longest + 1),
        _ => longest,
    };
    (0..count).map(|_| rng.word()).collect()
}

/// A word for each variable up to the last one in the records, 256 at least.
#[cfg(any(feature = "library", test))]
pub fn words(rng: &mut Prng, file: &[u8]) -> Vec<u64> {
    let mut words: Vec<u64> = (0..256).map(|_| rng.word()).collect();
    let more = &mut Prng::new(words[255]);
    let records = record::split(file);
    let variables = records.iter().filter(|r| r.kind == VARIABLE);
    let last = variables.map(|r| usize::from(r.arg)).max().unwrap_or(0);
    words.extend((256..=last).map(|_| more.word()));
    words
}
