//! Stands in for `core::width`, which was not supplied. Document 01 refuses every cast, so an
//! expression has one width exactly when it holds no cast and no Concat.

use crate::core::expr::{Expr, Kind};

pub fn is_uniform_width(expr: &Expr, var_widths: &[u32], bitwidth: u32) -> bool {
    let cast = matches!(
        expr.kind,
        Kind::ZExt(_) | Kind::SExt(_) | Kind::Trunc(_) | Kind::Concat
    );
    !cast
        && expr
            .children
            .iter()
            .all(|child| is_uniform_width(child, var_widths, bitwidth))
}
