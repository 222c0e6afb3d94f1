//! Semilinear forms as the `SemilinearIR` of the build that this file is compiled in, and back:
//! that of the published sources as they stand, and the two with edited text (build.rs).

use super::ir::semilinear::{
    compact_atom_table, create_atom, decompose_atom, OperatorFamily, SemilinearIR, WeightedAtom,
};
use super::ir::semilinear_normalizer::normalize_to_semilinear;
use super::ir::structure_recovery::{coalesce_terms, flatten_complex_atoms, recover_structure};
use super::ir::term_refiner::refine_terms;
use super::passes::bit_partitioner::compute_partitions;
use crate::columns::Class;
use crate::core::result::CobraError;
use crate::form::{Atom, Form, Term, HEAD_BYTE};
use crate::pass::{Pass, Passed};
use crate::published::{byte, expr, records};
use crate::record::{Record, Records};
use crate::refusal::NONLINEAR;

/// The Rust's form of a valid one, its atoms made by `create_atom`.
fn ir(form: &Form) -> SemilinearIR {
    let mut ir = SemilinearIR {
        constant: form.constant,
        bitwidth: u32::from(form.width),
        ..SemilinearIR::default()
    };
    for atom in &form.atoms {
        // any family will do: the Rust writes it and decides nothing by it
        create_atom(&mut ir, expr(&atom.tree), OperatorFamily::Mixed);
    }
    let term = |term: &Term| WeightedAtom {
        coeff: term.coeff,
        atom_id: u32::from(term.atom),
    };
    ir.terms = form.terms.iter().map(term).collect();
    ir
}

/// Document 01's form of the Rust's, with the hashes and atom numbers that the Rust keeps. Every head
/// gets the byte of new ones: the Rust's family is compared nowhere.
fn form(ir: &SemilinearIR) -> Form {
    let mut form = Form::new(byte(ir.bitwidth), ir.constant);
    for (number, info) in (0u32..).zip(&ir.atom_table) {
        assert_eq!(info.atom_id, number, "atoms stand in number order");
        form.atoms.push(Atom {
            head_byte: HEAD_BYTE,
            hash: info.structural_hash,
            tree: records(&info.original_subtree, form.width),
        });
    }
    let term = |term: &WeightedAtom| Term {
        atom: u16::try_from(term.atom_id).expect("a number that a term can hold"),
        coeff: term.coeff,
    };
    form.terms = ir.terms.iter().map(term).collect();
    form
}

/// A pass over a valid form, its terms as the Rust leaves them and its table without limits.
pub fn passed(pass: Pass, valid: &Form) -> Passed {
    let mut ir = ir(valid);
    let mut flattened = false;
    match pass {
        Pass::Refine => refine_terms(&mut ir),
        Pass::Recover => recover_structure(&mut ir),
        Pass::Coalesce => coalesce_terms(&mut ir),
        Pass::Flatten => flattened = flatten_complex_atoms(&mut ir),
        Pass::Compact => compact_atom_table(&mut ir),
    }
    Passed {
        form: form(&ir),
        flattened,
    }
}

/// `compute_partitions` of a valid form, the classes in the Rust's order.
#[cfg_attr(not(feature = "library"), allow(dead_code))]
pub fn partitions(valid: &Form) -> Vec<Class> {
    compute_partitions(&ir(valid))
        .into_iter()
        .map(|class| Class {
            mask: class.mask,
            profile: class.profile,
        })
        .collect()
}

/// `normalize_to_semilinear` of an expression without casts, or the refusal: 8 where it is not
/// linear, another where an edit refuses.
pub fn normalized(records: &[Record]) -> Result<Form, u64> {
    let w = u32::from(records[0].width);
    match normalize_to_semilinear(&expr(records), &[], w) {
        Ok(ir) => Ok(form(&ir)),
        Err(error) if error.code == CobraError::NonLinearInput => Err(NONLINEAR),
        Err(error) => Err(error.message.parse().expect("a refusal's number")),
    }
}

/// `decompose_atom` of a bitwise tree: basis and mask, where it has them.
#[cfg_attr(not(test), allow(dead_code))]
pub fn split(tree: &[Record]) -> Option<(Records, u64)> {
    let mut ir = SemilinearIR {
        bitwidth: u32::from(tree[0].width),
        ..SemilinearIR::default()
    };
    create_atom(&mut ir, expr(tree), OperatorFamily::Mixed);
    let found = decompose_atom(&ir.atom_table[0], u64::MAX >> (64 - tree[0].width));
    let basis = found.basis.filter(|_| found.valid)?;
    Some((records(basis, tree[0].width), found.mask))
}
