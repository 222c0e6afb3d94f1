//! The published Rust behind the names that the harness uses: expression files become its `Expr`
//! and back. bridge.rs does the same for semilinear forms, in each build.

use std::sync::{Arc, OnceLock};

use crate::core::expr::{render, Expr, Kind};
use crate::ir::semilinear::structural_hash;
use crate::record::{self, Record, Records};

pub use crate::bridge::{normalized, passed};
pub use crate::ir::term_refiner::{can_change_coefficient_to, can_change_mask_to, reduce_mask};

/// The tree of a well-formed expression.
pub fn expr(records: &[Record]) -> Arc<Expr> {
    let mut stack: Vec<Arc<Expr>> = Vec::new();
    for record in records {
        push_node(&mut stack, record);
    }
    stack.pop().expect("a root")
}

/// Puts the node of a record in place of its children, which stand last on the stack.
pub fn push_node(stack: &mut Vec<Arc<Expr>>, record: &Record) {
    let node = match record::arity(record.kind) {
        0 => leaf(record),
        1 => unary(record, stack.pop().expect("a child")),
        _ => {
            let right = stack.pop().expect("a right child");
            binary(record, stack.pop().expect("a left child"), right)
        }
    };
    stack.push(node);
}

fn leaf(record: &Record) -> Arc<Expr> {
    match record.kind {
        record::CONSTANT => Expr::constant(record.literal),
        _ => Expr::variable(u32::from(record.arg)),
    }
}

fn unary(record: &Record, child: Arc<Expr>) -> Arc<Expr> {
    match record.kind {
        record::NOT => Expr::not(child),
        record::NEG => Expr::neg(child),
        record::SHR => Expr::shr(child, u64::from(record.arg)),
        record::ZEXT => Expr::zext(child, u32::from(record.arg)),
        record::SEXT => Expr::sext(child, u32::from(record.arg)),
        _ => Expr::trunc(child, u32::from(record.arg)),
    }
}

fn binary(record: &Record, left: Arc<Expr>, right: Arc<Expr>) -> Arc<Expr> {
    match record.kind {
        record::ADD => Expr::add(left, right),
        record::MUL => Expr::mul(left, right),
        record::AND => Expr::and(left, right),
        record::OR => Expr::or(left, right),
        record::XOR => Expr::xor(left, right),
        _ => Expr::concat(left, right),
    }
}

/// `structural_hash` of a well-formed expression.
pub fn hash(records: &[Record]) -> u64 {
    structural_hash(&expr(records))
}

/// A well-formed expression in infix form, variables named v0 to v65535.
pub fn text(records: &[Record]) -> String {
    static NAMES: OnceLock<Vec<String>> = OnceLock::new();
    let names = NAMES.get_or_init(|| (0..=u16::MAX).map(|i| format!("v{i}")).collect());
    render(&expr(records), names, u32::from(records[0].width))
}

/// The records of a tree without casts, at w bits.
pub fn records(tree: &Expr, w: u8) -> Records {
    let child = |i: usize| records(&tree.children[i], w);
    let unary = |kind: u8, arg: u8| record::unary(kind, arg, child(0));
    let binary = |kind: u8| record::binary(kind, child(0), child(1));
    match tree.kind {
        Kind::Constant(value) => record::literal(w, value),
        Kind::Variable(number) => record::variable(w, number_of(number)),
        Kind::Add => binary(record::ADD),
        Kind::Mul => binary(record::MUL),
        Kind::And => binary(record::AND),
        Kind::Or => binary(record::OR),
        Kind::Xor => binary(record::XOR),
        Kind::Not => unary(record::NOT, 0),
        Kind::Neg => unary(record::NEG, 0),
        Kind::Shr(count) => unary(record::SHR, byte(count)),
        _ => unreachable!("no form has casts"),
    }
}

/// A variable's number in a record.
pub fn number_of(number: u32) -> u16 {
    u16::try_from(number).expect("a number that a record can hold")
}

pub fn byte(number: u32) -> u8 {
    u8::try_from(number).expect("a number that a record can hold")
}
