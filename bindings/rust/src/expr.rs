use crate::{Refusal, RECORD_BYTES};
use std::ops::{Add, BitAnd, BitOr, BitXor, Mul, Neg, Not, Shr, Sub};

const CONSTANT: u8 = 0;
pub const VARIABLE: u8 = 1;
const ADD: u8 = 2;
const MUL: u8 = 3;
const AND: u8 = 4;
const OR: u8 = 5;
const XOR: u8 = 6;
const NOT: u8 = 7;
const NEG: u8 = 8;
const SHR: u8 = 9;

/// An expression, as the bytes of its records (document 01: tangle). It is built by Rust's
/// operators; what they make is looked at by the library alone, which refuses what it does not take.
///
/// ```
/// use hogzelt::Expr;
///
/// let a = Expr::variable(8, 0);
/// let expr = a.clone() ^ Expr::constant(8, 15);
/// assert_eq!(expr.value(&[5]), Ok(10));
/// assert_eq!((a.clone() - a).value(&[5]), Ok(0));
/// ```
#[derive(Clone, Debug, PartialEq, Eq, Hash)]
pub struct Expr {
    bytes: Vec<u8>,
    width: u8,
}

impl Expr {
    /// A literal at a width of 1 to 64 bits.
    pub fn constant(width: u8, value: u64) -> Self {
        Self::leaf(width, CONSTANT, 0, value)
    }

    /// The variable of a number, any of 65,536.
    pub fn variable(width: u8, number: u16) -> Self {
        Self::leaf(width, VARIABLE, number, 0)
    }

    /// The records, children before their parent.
    pub fn as_bytes(&self) -> &[u8] {
        &self.bytes
    }

    /// The width, as it was given to the leaves.
    pub fn width(&self) -> u8 {
        self.width
    }

    /// The value under an assignment: [`crate::expr_value`].
    pub fn value(&self, vars: &[u64]) -> Result<u64, Refusal> {
        crate::expr_value(&self.bytes, vars)
    }

    fn leaf(width: u8, kind: u8, argument: u16, literal: u64) -> Self {
        let empty = Self {
            bytes: Vec::new(),
            width,
        };
        empty.with_root(kind, argument, literal)
    }

    fn unary(self, kind: u8, argument: u8) -> Self {
        self.with_root(kind, u16::from(argument), 0)
    }

    fn binary(mut self, kind: u8, right: Self) -> Self {
        self.bytes.extend_from_slice(&right.bytes);
        self.with_root(kind, 0, 0)
    }

    /// The records with a root behind them. Byte 1 has the argument; in a variable it is the low byte
    /// of the number, and byte 5 the high one. A size that does not fit is that of an expression which
    /// is refused for its length.
    fn with_root(mut self, kind: u8, argument: u16, literal: u64) -> Self {
        let size = ((self.bytes.len() >> RECORD_BYTES.trailing_zeros()) + 1) as u16;
        let [low, high] = argument.to_le_bytes();
        self.bytes.extend_from_slice(&[kind, low]);
        self.bytes.extend_from_slice(&size.to_le_bytes());
        self.bytes.extend_from_slice(&[self.width, high, 0, 0]);
        self.bytes.extend_from_slice(&literal.to_le_bytes());
        self
    }
}

impl AsRef<[u8]> for Expr {
    fn as_ref(&self) -> &[u8] {
        &self.bytes
    }
}

macro_rules! binary {
    ($($trait:ident, $method:ident, $kind:ident;)*) => {
        $(impl $trait for Expr {
            type Output = Expr;

            fn $method(self, right: Expr) -> Expr {
                self.binary($kind, right)
            }
        })*
    };
}

binary! {
    Add, add, ADD;
    Mul, mul, MUL;
    BitAnd, bitand, AND;
    BitOr, bitor, OR;
    BitXor, bitxor, XOR;
}

/// x - y is an Add of x and a Neg of y.
impl Sub for Expr {
    type Output = Expr;

    // there is no kind for it
    #[allow(clippy::suspicious_arithmetic_impl)]
    fn sub(self, right: Expr) -> Expr {
        self + -right
    }
}

impl Not for Expr {
    type Output = Expr;

    fn not(self) -> Expr {
        self.unary(NOT, 0)
    }
}

impl Neg for Expr {
    type Output = Expr;

    fn neg(self) -> Expr {
        self.unary(NEG, 0)
    }
}

/// The count may be 0 to 63.
impl Shr<u8> for Expr {
    type Output = Expr;

    fn shr(self, count: u8) -> Expr {
        self.unary(SHR, count)
    }
}
