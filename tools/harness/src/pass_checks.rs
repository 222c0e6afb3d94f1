//! What is checked of the passes and the columns beside their bytes: which partings an answer needs,
//! that values are kept, and that columns tell the bits of the atoms' values.

use crate::columns::Columns;
use crate::form::Form;
use crate::form_model;
use crate::model;
use crate::pass::{parted, Pass, ALL};
use crate::record::{Record, SHR, VARIABLE};
use crate::written::Written;

/// The smallest set of partings with which the Rust gives `wanted`.
pub fn needed(pass: Pass, valid: &Form, wanted: &Written) -> Option<u16> {
    let mut sets: Vec<u16> = (0..=ALL).filter(|set| set & !ALL == 0).collect();
    sets.sort_by_key(|set| set.count_ones());
    sets.into_iter()
        .find(|set| parted(pass, valid, *set) == *wanted)
}

/// Whether what is accepted is a valid form, of the same value under two assignments: the given
/// one, and it with the words turned.
pub fn keeps_value(form: &Form, answer: &Written, vars: &[u64]) -> bool {
    let turned: Vec<u64> = vars.iter().map(|word| !word.rotate_left(7)).collect();
    match form_model::read(answer.form()) {
        Ok(after) => [vars, &turned]
            .iter()
            .all(|vars| form_model::value(&after, vars) == form_model::value(form, vars)),
        Err(_) => false,
    }
}

/// Whether the classes share out all places, each with its lowest after that of the one before, and
/// every column tells the bits of its atom's value under an assignment.
pub fn hold(form: &Form, columns: &Columns, vars: &[u64]) -> bool {
    let length = 1 + form.atoms.len();
    let mut places = 0;
    let count = columns.classes as usize;
    if count == 0 || form.atoms.is_empty() {
        return count == 0 && form.atoms.is_empty();
    }
    let values: Vec<u64> = form
        .atoms
        .iter()
        .map(|atom| model::value(&atom.tree, vars))
        .collect();
    for class in columns.out.chunks_exact(length).take(count) {
        let left: u64 = !places;
        let lowest_left = left & left.wrapping_neg();
        let in_order = places & class[0] == 0 && class[0] & lowest_left != 0;
        places |= class[0];
        let told = form.atoms.iter().enumerate().all(|(number, atom)| {
            let word = class[1 + number];
            match opaque(&atom.tree) {
                true => word == 0xDEAD_0000_0000_0000 | number as u64,
                false => tells(&atom.tree, class[0], word, values[number], vars),
            }
        });
        if !in_order || !told {
            return false;
        }
    }
    places == u64::MAX >> (64 - form.width)
}

/// The numbers of a tree's variables, rising.
fn variables(tree: &[Record]) -> Vec<u16> {
    let mut numbers: Vec<u16> = tree
        .iter()
        .filter(|record| record.kind == VARIABLE)
        .map(|record| record.arg)
        .collect();
    numbers.sort_unstable();
    numbers.dedup();
    numbers
}

fn opaque(tree: &[Record]) -> bool {
    variables(tree).len() > 5
        || tree
            .iter()
            .any(|record| record.kind == SHR && record.arg != 0)
}

/// Whether a profile word tells the bits of a value at the places of a mask.
fn tells(tree: &[Record], mask: u64, word: u64, value: u64, vars: &[u64]) -> bool {
    let numbers = variables(tree);
    (0..64).filter(|place| mask >> place & 1 == 1).all(|place| {
        let bit = |number: &u16| vars.get(usize::from(*number)).map_or(0, |v| v >> place & 1);
        let row = numbers
            .iter()
            .enumerate()
            .fold(0, |row, (j, number)| row | bit(number) << j);
        word >> row & 1 == value >> place & 1
    }) && (numbers.len() > 5 || word.checked_shr(1 << numbers.len()).unwrap_or(0) == 0)
}
