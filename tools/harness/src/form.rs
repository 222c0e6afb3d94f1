//! The bytes of a semilinear form (document 01, "The sheet"): 16-byte records, for each atom a head
//! and its tree, then the terms, last the sum record. Nothing here checks that a form is valid.

use crate::published;
use crate::record::{self, Record, Records};

pub const SUM: u8 = 32;
pub const ATOM: u8 = 33;
pub const TERM: u8 = 34;

pub const MAX_ATOMS: usize = 256;
pub const MAX_TREE_RECORDS: usize = 3072;
/// The length of a result slice, and of the longest form.
pub const RESULT_BYTES: usize = 57_360;

/// Byte 1 of every new head. A head that is read has 0 to 4 there, which nothing depends on.
pub const HEAD_BYTE: u8 = 4;

#[derive(Clone, Debug, PartialEq, Eq)]
pub struct Atom {
    /// Byte 1 of the head.
    pub head_byte: u8,
    pub hash: u64,
    pub tree: Records,
}

impl Atom {
    /// An atom with the hash of its tree, which must be well formed.
    pub fn new(head_byte: u8, tree: Records) -> Self {
        Self {
            head_byte,
            hash: published::hash(&tree),
            tree,
        }
    }
}

#[derive(Clone, Copy, Debug, PartialEq, Eq)]
pub struct Term {
    pub atom: u16,
    pub coeff: u64,
}

#[derive(Clone, Debug, PartialEq, Eq)]
pub struct Form {
    pub width: u8,
    pub constant: u64,
    pub atoms: Vec<Atom>,
    pub terms: Vec<Term>,
}

impl Form {
    pub fn new(width: u8, constant: u64) -> Self {
        Self {
            width,
            constant,
            atoms: Vec::new(),
            terms: Vec::new(),
        }
    }

    /// Adds an atom that has no term.
    pub fn push(&mut self, head_byte: u8, tree: Records) {
        self.atoms.push(Atom::new(head_byte, tree));
    }

    /// Adds an atom and its term.
    pub fn push_term(&mut self, head_byte: u8, tree: Records, coeff: u64) {
        let atom = self.atoms.len() as u16;
        self.push(head_byte, tree);
        self.terms.push(Term { atom, coeff });
    }

    /// The same form with this byte 1 in every head.
    pub fn with_heads(mut self, head_byte: u8) -> Self {
        for atom in &mut self.atoms {
            atom.head_byte = head_byte;
        }
        self
    }

    /// Document 01's order of terms (parting 4): by atom, those of one atom added modulo 2^w, and a
    /// sum of 0 dropped.
    pub fn settle(&mut self) {
        let top = u64::MAX >> (64 - self.width);
        self.terms.sort_by_key(|term| term.atom);
        self.terms.dedup_by(|next, kept| {
            let same = next.atom == kept.atom;
            if same {
                kept.coeff = kept.coeff.wrapping_add(next.coeff) & top;
            }
            same
        });
        self.terms.retain(|term| term.coeff != 0);
    }

    /// Whether the table is within its limits.
    pub fn fits(&self) -> bool {
        let records: usize = self.atoms.iter().map(|atom| atom.tree.len()).sum();
        self.atoms.len() <= MAX_ATOMS && records <= MAX_TREE_RECORDS
    }

    pub fn records(&self) -> Records {
        let w = self.width;
        let mut records = Vec::new();
        for atom in &self.atoms {
            let size = atom.tree.len();
            let head_byte = u16::from(atom.head_byte);
            records.push(Record::new(ATOM, head_byte, size, w, atom.hash));
            records.extend(&atom.tree);
        }
        for term in &self.terms {
            let number = usize::from(term.atom);
            records.push(Record::new(TERM, 0, number, w, term.coeff));
        }
        records.push(Record::new(SUM, 0, 0, w, self.constant));
        records
    }

    pub fn bytes(&self) -> Vec<u8> {
        record::bytes(&self.records())
    }
}
