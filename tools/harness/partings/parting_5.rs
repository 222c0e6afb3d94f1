//! Parting 5 in normalising: refusal 9, which the published Rust does not have. An edited
//! `normalize_to_semilinear` calls it after all else. The text of the error is the refusal's number.

use super::semilinear::SemilinearIR;
use crate::core::expr::Expr;
use crate::core::result::{err, CobraError, Result};
use crate::form::{MAX_ATOMS, MAX_TREE_RECORDS};
use crate::refusal::TABLE_FULL;

/// A table of more than 256 atoms or 3,072 tree records, unused atoms counted.
pub fn refusal_9(ir: &SemilinearIR) -> Result<()> {
    let atoms = &ir.atom_table;
    let records: usize = atoms.iter().map(|atom| size(&atom.original_subtree)).sum();
    match atoms.len() > MAX_ATOMS || records > MAX_TREE_RECORDS {
        true => Err(err(CobraError::InvalidArgument, TABLE_FULL.to_string())),
        false => Ok(()),
    }
}

fn size(expr: &Expr) -> usize {
    1 + expr.children.iter().map(|child| size(child)).sum::<usize>()
}
