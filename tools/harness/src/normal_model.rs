//! Document 01's normalising ("The sheet", "Refusals" 1 to 6, 8 and 9), written from the document,
//! with the descent that it takes from the Rust told in its own way: a list of what is still to be
//! taken apart. The atoms go one after the other into a table without limits (normal_table.rs).

use crate::form::{Form, RESULT_BYTES};
use crate::model;
use crate::normal_table;
use crate::record::{
    binary, literal, split, Record, Records, ADD, AND, MUL, NEG, NOT, OR, VARIABLE, XOR,
};
use crate::refusal::{INPUT_LENGTH, NONLINEAR, RESULT_LENGTH, TABLE_FULL};
use crate::written::{self, Written};

/// All that normalising gives for the bytes of an expression and a result slice of `length` bytes.
pub fn answer(file: &[u8], length: usize) -> Written {
    match normalized(file, length) {
        Ok(form) => written::written(&form),
        Err(refusal) => written::refused(refusal, length),
    }
}

/// The form, or the lowest refusal that applies.
fn normalized(file: &[u8], length: usize) -> Result<Form, u64> {
    match refusal(file, length) {
        0 => form(&split(file)),
        refusal => Err(refusal),
    }
}

/// The lowest of refusals 1 to 6 that applies, 0 if none does.
pub fn refusal(file: &[u8], length: usize) -> u64 {
    match model::refusal(file) {
        INPUT_LENGTH => INPUT_LENGTH,
        _ if length != RESULT_BYTES => RESULT_LENGTH,
        other => other,
    }
}

/// The form of a tree of any length, or refusal 8 or 9.
pub fn form(tree: &[Record]) -> Result<Form, u64> {
    let collected = collected(tree).ok_or(NONLINEAR)?;
    let form = normal_table::form(collected, tree[0].width);
    match form.fits() {
        true => Ok(form),
        false => Err(TABLE_FULL),
    }
}

fn has_variable(tree: &[Record]) -> bool {
    tree.iter().any(|r| r.kind == VARIABLE)
}

fn has_sum(tree: &[Record]) -> bool {
    tree.iter().any(|r| matches!(r.kind, ADD | MUL | NEG))
}

/// A coefficient below 2^w and a tree.
pub struct Weighted {
    pub coeff: u64,
    pub tree: Records,
}

/// The constant, and the atoms in the order in which they are made.
pub struct Collected {
    pub constant: u64,
    pub atoms: Vec<Weighted>,
}

/// Arithmetic modulo 2^w.
#[derive(Clone, Copy)]
pub struct Width(pub u8);

impl Width {
    fn modulus(self) -> u128 {
        1 << self.0
    }

    pub fn sum(self, a: u64, b: u64) -> u64 {
        ((u128::from(a) + u128::from(b)) % self.modulus()) as u64
    }

    fn product(self, a: u64, b: u64) -> u64 {
        (u128::from(a) * u128::from(b) % self.modulus()) as u64
    }

    fn negated(self, a: u64) -> u64 {
        ((self.modulus() - u128::from(a)) % self.modulus()) as u64
    }
}

/// The two children of a tree with a binary root.
fn children(tree: &[Record]) -> (&[Record], &[Record]) {
    let below = &tree[..tree.len() - 1];
    let right = usize::from(below[below.len() - 1].size);
    below.split_at(below.len() - right)
}

/// The tree as a weighted sum of bitwise atoms, none where it is not linear. What has a coefficient
/// of 0 is not looked at.
fn collected(tree: &[Record]) -> Option<Collected> {
    let w = Width(tree[0].width);
    let mut sum = Collected {
        constant: 0,
        atoms: Vec::new(),
    };
    let mut todo = vec![Weighted {
        coeff: 1,
        tree: tree.to_vec(),
    }];
    while let Some(next) = todo.pop() {
        if next.coeff == 0 {
            continue;
        }
        if !has_variable(&next.tree) {
            let value = model::value(&next.tree, &[]);
            sum.constant = w.sum(sum.constant, w.product(next.coeff, value));
            continue;
        }
        match next.tree[next.tree.len() - 1].kind {
            ADD | MUL | NEG => todo.extend(parts_of_sum(&next, w)?),
            _ if has_sum(&next.tree) => return None,
            AND => sum.take_and(next, w),
            OR | XOR => todo.extend(sum.take_or(next, w)),
            _ => sum.atoms.push(next),
        }
    }
    Some(sum)
}

/// What stands in place of an Add, Mul or Neg, the first part last; none for a product of two trees
/// with variables.
fn parts_of_sum(whole: &Weighted, w: Width) -> Option<Vec<Weighted>> {
    let tree = &whole.tree;
    let part = |coeff: u64, tree: &[Record]| Weighted {
        coeff,
        tree: tree.to_vec(),
    };
    let root = tree[tree.len() - 1];
    if root.kind == NEG {
        let below = &tree[..tree.len() - 1];
        return Some(vec![part(w.negated(whole.coeff), below)]);
    }
    let (left, right) = children(tree);
    if root.kind == ADD {
        return Some(vec![part(whole.coeff, right), part(whole.coeff, left)]);
    }
    let (factor, other) = match (has_variable(left), has_variable(right)) {
        (true, true) => return None,
        (false, _) => (left, right),
        (true, false) => (right, left),
    };
    let coeff = w.product(whole.coeff, model::value(factor, &[]));
    Some(vec![part(coeff, other)])
}

impl Collected {
    /// `~x & c` is c less `x & c`, which is an atom as it stands; any other And is an atom.
    fn take_and(&mut self, whole: Weighted, w: Width) {
        let (left, right) = children(&whole.tree);
        let is_not = |tree: &[Record]| tree[tree.len() - 1].kind == NOT;
        let (not, mask) = match (has_variable(left), has_variable(right)) {
            (true, false) if is_not(left) => (left, right),
            (false, true) if is_not(right) => (right, left),
            _ => return self.atoms.push(whole),
        };
        let mask = model::value(mask, &[]);
        let inner = not[..not.len() - 1].to_vec();
        self.constant = w.sum(self.constant, w.product(whole.coeff, mask));
        self.atoms.push(Weighted {
            coeff: w.negated(whole.coeff),
            tree: binary(AND, inner, literal(w.0, mask)),
        });
    }

    /// `x | c` is x, c and less `x & c`; `x ^ c` is x, c and less twice `x & c`. What is still to be
    /// taken apart is given back, x last. With variables on both sides it is an atom.
    fn take_or(&mut self, whole: Weighted, w: Width) -> Vec<Weighted> {
        let (left, right) = children(&whole.tree);
        let (other, mask) = match (has_variable(left), has_variable(right)) {
            (true, false) => (left.to_vec(), right),
            (false, true) => (right.to_vec(), left),
            _ => {
                self.atoms.push(whole);
                return Vec::new();
            }
        };
        let mask = model::value(mask, &[]);
        let times = match whole.tree[whole.tree.len() - 1].kind {
            XOR => w.sum(whole.coeff, whole.coeff),
            _ => whole.coeff,
        };
        self.constant = w.sum(self.constant, w.product(whole.coeff, mask));
        let masked = Weighted {
            coeff: w.negated(times),
            tree: binary(AND, other.clone(), literal(w.0, mask)),
        };
        vec![
            masked,
            Weighted {
                coeff: whole.coeff,
                tree: other,
            },
        ]
    }
}
