//! The published Rust with reading and writing: from the bytes of an expression to the bytes of its
//! form, and the values of both. The published sources read and write no bytes and have no evaluator
//! of whole expressions: reading and writing are the harness's, in one walk each, and a value is that
//! of the stand-in `compiled`.

use std::sync::Arc;

use crate::core::arith::{bitmask, mod_add, mod_mul};
use crate::core::compiled;
use crate::core::expr::{Expr, Kind};
use crate::core::result::Result as Published;
use crate::form::{ATOM, HEAD_BYTE, MAX_ATOMS, MAX_TREE_RECORDS, RESULT_BYTES, SUM, TERM};
use crate::ir::semilinear::{structural_hash, AtomInfo, SemilinearIR};
use crate::ir::semilinear_normalizer::normalize_to_semilinear;
use crate::model::{zeros_hold, Answer};
use crate::published::{byte, number_of, push_node};
use crate::record::{
    self, arity, Record, CONCAT, CONSTANT, MAX_RECORDS, RECORD_BYTES, SHR, VARIABLE, ZEXT,
};
use crate::refusal::{
    CAST, INPUT_LENGTH, MALFORMED, NONLINEAR, NO_FORM, RESULT_LENGTH, SHIFT_COUNT, TABLE_FULL,
    WIDTH,
};

/// A tree and its width.
pub struct Whole {
    pub tree: Arc<Expr>,
    pub w: u32,
}

/// The published normalising, as it is.
pub fn core(whole: &Whole) -> Published<SemilinearIR> {
    normalize_to_semilinear(&whole.tree, &[], whole.w)
}

/// Normalising from bytes to bytes, with every byte of `out` written: the refusal, the used length,
/// the count of terms.
pub fn normalize(file: &[u8], out: &mut [u8]) -> [u64; 3] {
    let written = read(file).and_then(|whole| {
        let ir = core(&whole).map_err(|_| NONLINEAR)?;
        write(&ir, out)
    });
    written.unwrap_or_else(|refusal| {
        out.fill(0);
        [refusal, 0, 0]
    })
}

/// The value of an expression from its bytes.
pub fn expr_value(file: &[u8], vars: &[u64]) -> Answer {
    answer(read(file).map(|whole| value(&whole, vars)))
}

/// The value of a tree that is there.
pub fn value(whole: &Whole, vars: &[u64]) -> u64 {
    compiled::value(&whole.tree, vars, whole.w)
}

fn answer(value: Result<u64, u64>) -> Answer {
    match value {
        Ok(value) => Answer { refusal: 0, value },
        Err(refusal) => Answer { refusal, value: 0 },
    }
}

/// The tree of an expression file, or its lowest refusal.
pub fn read(file: &[u8]) -> Result<Whole, u64> {
    let records = file.len() / RECORD_BYTES;
    if file.is_empty() || !file.len().is_multiple_of(RECORD_BYTES) || records > MAX_RECORDS {
        return Err(INPUT_LENGTH);
    }
    let width = file[file.len() - RECORD_BYTES + 4];
    read_tree(file, width).map(|tree| Whole {
        tree,
        w: u32::from(width),
    })
}

/// The tree of a span of records, or the lowest refusal from 3 on.
fn read_tree(span: &[u8], width: u8) -> Result<Arc<Expr>, u64> {
    let mut nodes: Vec<Arc<Expr>> = Vec::new();
    let mut sizes: Vec<usize> = Vec::new();
    let mut lowest = 0;
    for bytes in span.chunks_exact(RECORD_BYTES) {
        let record = Record::from_bytes(bytes);
        if record.kind > CONCAT || !zeros_hold(&record) {
            return Err(MALFORMED);
        }
        let mut size = 1;
        for _ in 0..arity(record.kind) {
            size += sizes.pop().ok_or(MALFORMED)?;
        }
        if usize::from(record.size) != size {
            return Err(MALFORMED);
        }
        sizes.push(size);
        let own = refusal_from_4(&record, width);
        if lowest == 0 || (own != 0 && own < lowest) {
            lowest = own;
        }
        push_node(&mut nodes, &record);
    }
    match (nodes.pop(), nodes.is_empty(), lowest) {
        (Some(tree), true, 0) => Ok(tree),
        (Some(_), true, refusal) => Err(refusal),
        _ => Err(MALFORMED),
    }
}

fn refusal_from_4(record: &Record, width: u8) -> u64 {
    if record.width != width || !(1..=64).contains(&width) {
        WIDTH
    } else if (ZEXT..=CONCAT).contains(&record.kind) {
        CAST
    } else if record.kind == SHR && record.arg > 63 {
        SHIFT_COUNT
    } else {
        0
    }
}

/// Writes the form and zeros behind it, or refuses by 9.
pub fn write(ir: &SemilinearIR, out: &mut [u8]) -> Result<[u64; 3], u64> {
    if out.len() != RESULT_BYTES {
        return Err(RESULT_LENGTH);
    }
    let w = ir.bitwidth as u8;
    let mut at = 0;
    let mut records = 0;
    if ir.atom_table.len() > MAX_ATOMS {
        return Err(TABLE_FULL);
    }
    for info in &ir.atom_table {
        let size = size(&info.original_subtree);
        records += size;
        if records > MAX_TREE_RECORDS {
            return Err(TABLE_FULL);
        }
        at = put_atom(info, size, w, out, at);
    }
    for term in &ir.terms {
        let number = term.atom_id as usize;
        at = put(Record::new(TERM, 0, number, w, term.coeff), out, at);
    }
    at = put(Record::new(SUM, 0, 0, w, ir.constant), out, at);
    out[at..].fill(0);
    Ok([0, at as u64, ir.terms.len() as u64])
}

fn size(tree: &Expr) -> usize {
    1 + tree.children.iter().map(|child| size(child)).sum::<usize>()
}

fn put(record: Record, out: &mut [u8], at: usize) -> usize {
    out[at..at + RECORD_BYTES].copy_from_slice(&record.to_bytes());
    at + RECORD_BYTES
}

fn put_atom(info: &AtomInfo, size: usize, w: u8, out: &mut [u8], at: usize) -> usize {
    let hash = info.structural_hash;
    let head = Record::new(ATOM, u16::from(HEAD_BYTE), size, w, hash);
    let from = put(head, out, at);
    put_tree(&info.original_subtree, w, out, from)
}

/// The records of a tree from `at` on; returns where they end.
fn put_tree(tree: &Expr, w: u8, out: &mut [u8], at: usize) -> usize {
    let mut end = at;
    for child in &tree.children {
        end = put_tree(child, w, out, end);
    }
    let (kind, arg, literal) = match tree.kind {
        Kind::Constant(literal) => (CONSTANT, 0, literal),
        Kind::Variable(number) => (VARIABLE, number_of(number), 0),
        Kind::And => (record::AND, 0, 0),
        Kind::Or => (record::OR, 0, 0),
        Kind::Xor => (record::XOR, 0, 0),
        Kind::Not => (record::NOT, 0, 0),
        Kind::Shr(count) => (SHR, u16::from(byte(count)), 0),
        _ => unreachable!("no atom has another kind"),
    };
    let size = (end - at) / RECORD_BYTES + 1;
    put(Record::new(kind, arg, size, w, literal), out, end)
}

/// A form that was read: its atoms' heads and trees, and its terms, coefficient and atom.
pub struct Sum {
    pub w: u32,
    pub constant: u64,
    pub heads: Vec<Record>,
    pub atoms: Vec<Arc<Expr>>,
    pub terms: Vec<(u64, usize)>,
}

/// The value of a form from its bytes.
pub fn form_value(bytes: &[u8], vars: &[u64]) -> Answer {
    answer(read_form(bytes).map(|sum| sum_value(&sum, vars)))
}

/// The value of a form that is there.
pub fn sum_value(sum: &Sum, vars: &[u64]) -> u64 {
    sum.terms.iter().fold(sum.constant, |so_far, term| {
        let atom = compiled::value(&sum.atoms[term.1], vars, sum.w);
        mod_add(so_far, mod_mul(term.0, atom, sum.w), sum.w)
    })
}

/// The form that the bytes are, or the lowest refusal.
pub fn read_form(bytes: &[u8]) -> Result<Sum, u64> {
    let length = bytes.len();
    if length == 0 || !length.is_multiple_of(RECORD_BYTES) || length > RESULT_BYTES {
        return Err(INPUT_LENGTH);
    }
    let width = bytes[length - RECORD_BYTES + 4];
    if !(1..=64).contains(&width) {
        return Err(NO_FORM);
    }
    let mut sum = Sum {
        w: u32::from(width),
        constant: 0,
        heads: Vec::new(),
        atoms: Vec::new(),
        terms: Vec::new(),
    };
    let after = read_atoms(bytes, width, &mut sum).ok_or(NO_FORM)?;
    read_terms(&bytes[after..], width, &mut sum).ok_or(NO_FORM)?;
    Ok(sum)
}

/// Reads the atoms at the front; returns where they end.
fn read_atoms(bytes: &[u8], width: u8, sum: &mut Sum) -> Option<usize> {
    let mut at = 0;
    let mut records = 0;
    while bytes.get(at) == Some(&ATOM) {
        let head = Record::from_bytes(&bytes[at..]);
        let size = usize::from(head.size);
        let end = at + RECORD_BYTES * (1 + size);
        let tree = read_tree(bytes.get(at + RECORD_BYTES..end)?, width).ok()?;
        let valid = head.arg <= 4
            && head.width == width
            && head.zeros == [0; 2]
            && is_atom(&tree) == Some(true)
            && head.literal == structural_hash(&tree);
        records += size;
        if !valid || records > MAX_TREE_RECORDS || sum.atoms.len() == MAX_ATOMS {
            return None;
        }
        sum.heads.push(head);
        sum.atoms.push(tree);
        at = end;
    }
    Some(at)
}

/// Whether a tree has a variable; none where it has a kind that no atom has.
fn is_atom(tree: &Expr) -> Option<bool> {
    match tree.kind {
        Kind::Constant(_) => Some(false),
        Kind::Variable(_) => Some(true),
        Kind::And | Kind::Or | Kind::Xor => {
            Some(is_atom(&tree.children[0])? | is_atom(&tree.children[1])?)
        }
        Kind::Not | Kind::Shr(_) => is_atom(&tree.children[0]),
        _ => None,
    }
}

/// Reads the terms and the sum record, which end the form.
fn read_terms(bytes: &[u8], width: u8, sum: &mut Sum) -> Option<()> {
    let mask = bitmask(u32::from(width));
    let mut next = 0;
    let mut records = bytes.chunks_exact(RECORD_BYTES).map(Record::from_bytes);
    while let Some(record) = records.next() {
        let number = usize::from(record.size);
        if record.arg != 0 || record.width != width || record.zeros != [0; 2] {
            return None;
        }
        if record.literal > mask {
            return None;
        }
        if record.kind == SUM {
            sum.constant = record.literal;
            return (number == 0 && records.next().is_none()).then_some(());
        }
        let rises = next <= number && number < sum.atoms.len();
        if record.kind != TERM || record.literal == 0 || !rises {
            return None;
        }
        sum.terms.push((record.literal, number));
        next = number + 1;
    }
    None
}
