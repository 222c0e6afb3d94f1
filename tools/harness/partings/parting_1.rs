//! Parting 1 in the passes: a group has one basis, by hash and tree, and so has a bare atom.

use std::collections::BTreeMap;
use std::sync::Arc;

use super::partings::held;
use super::semilinear::Decomposed;
use crate::core::expr::Expr;

/// A group: the hash of its basis and the number of its first term, by which groups are sorted.
pub type Group = (u64, usize);

/// The group of a term: that of the same basis, or one that it is the first of.
pub fn group(bases: &BTreeMap<Group, Arc<Expr>>, term: &Decomposed, number: usize) -> Group {
    let basis = term.basis.expect("a valid one has a basis");
    let hash = term.basis_hash;
    bases
        .range((hash, 0)..=(hash, usize::MAX))
        .find(|(_, known)| same(known, basis))
        .map_or((hash, number), |(group, _)| *group)
}

/// Whether two trees of one hash are taken for the same.
pub fn same(tree: &Expr, other: &Expr) -> bool {
    !held(1) || tree == other
}
