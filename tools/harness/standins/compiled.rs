//! Stands in for `core::compiled`, which was not supplied: compiling keeps the tree, and evaluating
//! walks it with the w-bit arithmetic of document 01. Casts and Concat are refused there, so they
//! have no value here.

use crate::core::arith::{bitmask, mod_add, mod_mul, mod_neg, mod_not, mod_shr};
use crate::core::expr::{Expr, Kind};

pub struct Program {
    expr: Expr,
    bitwidth: u32,
    pub stack_size: usize,
}

pub fn compile(expr: &Expr, bitwidth: u32) -> Program {
    Program {
        expr: expr.clone(),
        bitwidth,
        stack_size: 0,
    }
}

pub fn eval(program: &Program, vars: &[u64], _stack: &mut Vec<u64>) -> u64 {
    value(&program.expr, vars, program.bitwidth)
}

pub fn value(expr: &Expr, vars: &[u64], w: u32) -> u64 {
    let child = |i: usize| value(&expr.children[i], vars, w);
    match &expr.kind {
        Kind::Constant(v) => v & bitmask(w),
        Kind::Variable(i) => vars.get(*i as usize).copied().unwrap_or(0) & bitmask(w),
        Kind::Add => mod_add(child(0), child(1), w),
        Kind::Mul => mod_mul(child(0), child(1), w),
        Kind::And => child(0) & child(1),
        Kind::Or => child(0) | child(1),
        Kind::Xor => child(0) ^ child(1),
        Kind::Not => mod_not(child(0), w),
        Kind::Neg => mod_neg(child(0), w),
        Kind::Shr(k) => mod_shr(child(0), u64::from(*k), w),
        Kind::ZExt(_) | Kind::SExt(_) | Kind::Trunc(_) | Kind::Concat => {
            unreachable!("casts and Concat are refused")
        }
    }
}
