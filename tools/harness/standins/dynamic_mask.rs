//! Stands in for `ir::dynamic_mask`, which was not supplied: the one function that the normaliser
//! calls. A shift by 0 counts as a shift.

use crate::core::expr::{Expr, Kind};

pub fn contains_shr(expr: &Expr) -> bool {
    matches!(expr.kind, Kind::Shr(_)) || expr.children.iter().any(|child| contains_shr(child))
}
