//! The atom table of normalising (document 01, "The sheet"), without its limits: which atom an atom
//! shares, and truth tables. The hash of a tree is the published one.

use crate::form::{Atom, Form, Term, HEAD_BYTE};
use crate::normal_model::{Collected, Weighted, Width};
use crate::record::{arity, Record, Records, AND, CONSTANT, OR, SHR, VARIABLE, XOR};

/// The most variables of an atom that is shared by its truth table.
const MAX_TABLE_VARIABLES: usize = 5;

/// An atom of the table, with what decides about sharing it.
struct Entry {
    atom: Atom,
    variables: Vec<u16>,
    table: Option<u32>,
    coeff: u64,
}

/// The form of what was collected: each atom is added to the one that it shares, or appended.
pub fn form(collected: Collected, width: u8) -> Form {
    let mut entries: Vec<Entry> = Vec::new();
    for Weighted { coeff, tree } in collected.atoms {
        let new = entry(coeff, tree);
        match shared(&entries, &new) {
            Some(at) => entries[at].coeff = Width(width).sum(entries[at].coeff, coeff),
            None => entries.push(new),
        }
    }
    let mut form = Form::new(width, collected.constant);
    for (number, entry) in (0u16..).zip(entries) {
        if entry.coeff != 0 {
            form.terms.push(Term {
                atom: number,
                coeff: entry.coeff,
            });
        }
        form.atoms.push(entry.atom);
    }
    form
}

/// The newest entry of the same hash and variables where it has the very tree, else the first with
/// the same truth table over the same variables.
fn shared(entries: &[Entry], new: &Entry) -> Option<usize> {
    let same_slot = |e: &Entry| e.atom.hash == new.atom.hash && e.variables == new.variables;
    let newest = entries.iter().rposition(same_slot);
    let by_hash = newest.filter(|&at| entries[at].atom.tree == new.atom.tree);
    let same_table =
        |e: &Entry| new.table.is_some() && e.table == new.table && e.variables == new.variables;
    by_hash.or_else(|| entries.iter().position(same_table))
}

fn entry(coeff: u64, tree: Records) -> Entry {
    let mut variables: Vec<u16> = tree
        .iter()
        .filter(|r| r.kind == VARIABLE)
        .map(|r| r.arg)
        .collect();
    variables.sort_unstable();
    variables.dedup();
    Entry {
        table: truth_table(&tree, &variables),
        variables,
        atom: Atom::new(HEAD_BYTE, tree),
        coeff,
    }
}

/// The truth table, row i in bit i: the j-th smallest variable has bit j of i. None where a literal
/// or a Shr, by 0 too, occurs or the variables are too many.
fn truth_table(tree: &[Record], variables: &[u16]) -> Option<u32> {
    let opaque = tree.iter().any(|r| matches!(r.kind, CONSTANT | SHR));
    if opaque || variables.len() > MAX_TABLE_VARIABLES {
        return None;
    }
    let rows = 1u32 << variables.len();
    let column = |number: u16| {
        let place = variables.iter().position(|v| *v == number);
        let place = place.expect("a variable of the tree");
        (0..rows).fold(0, |bits, row| bits | (row >> place & 1) << row)
    };
    let table = folded(tree, |record, left, right| match record.kind {
        VARIABLE => column(record.arg),
        AND => left & right,
        OR => left | right,
        XOR => left ^ right,
        _ => !right,
    });
    Some(table & (u64::MAX >> (64 - rows)) as u32)
}

/// What `step` makes of the records one after the other, from what it made of the children; the
/// only child is the right one.
fn folded(tree: &[Record], step: impl Fn(&Record, u32, u32) -> u32) -> u32 {
    let mut made: Vec<u32> = Vec::new();
    for record in tree {
        let children = arity(record.kind);
        let mut child = |wanted: bool| match wanted {
            true => made.pop().expect("a child"),
            false => 0,
        };
        let right = child(children > 0);
        let left = child(children > 1);
        made.push(step(record, left, right));
    }
    made.pop().expect("a root")
}
