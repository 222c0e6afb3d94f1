//! The 16-byte record of an expression file (document 01, "The tangle file") and builders of
//! expressions. An expression is the list of its records, children before parent, root last.

pub const RECORD_BYTES: usize = 16;
pub const MAX_RECORDS: usize = 1024;

pub const CONSTANT: u8 = 0;
pub const VARIABLE: u8 = 1;
pub const ADD: u8 = 2;
pub const MUL: u8 = 3;
pub const AND: u8 = 4;
pub const OR: u8 = 5;
pub const XOR: u8 = 6;
pub const NOT: u8 = 7;
pub const NEG: u8 = 8;
pub const SHR: u8 = 9;
pub const ZEXT: u8 = 10;
pub const SEXT: u8 = 11;
pub const TRUNC: u8 = 12;
pub const CONCAT: u8 = 13;

/// One record. `arg` has byte 1 and, above it, byte 5, which is not 0 in variables alone; `zeros` are
/// bytes 6 and 7, which must be 0 in a valid file.
#[derive(Clone, Copy, Debug, PartialEq, Eq)]
pub struct Record {
    pub kind: u8,
    pub arg: u16,
    pub size: u16,
    pub width: u8,
    pub zeros: [u8; 2],
    pub literal: u64,
}

pub type Records = Vec<Record>;

impl Record {
    pub fn new(kind: u8, arg: u16, size: usize, width: u8, literal: u64) -> Self {
        Self {
            kind,
            arg,
            size: size as u16,
            width,
            zeros: [0; 2],
            literal,
        }
    }

    pub fn from_bytes(b: &[u8]) -> Self {
        Self {
            kind: b[0],
            arg: u16::from_le_bytes([b[1], b[5]]),
            size: u16::from_le_bytes([b[2], b[3]]),
            width: b[4],
            zeros: [b[6], b[7]],
            literal: u64::from_le_bytes(b[8..16].try_into().expect("eight bytes")),
        }
    }

    pub fn to_bytes(self) -> [u8; RECORD_BYTES] {
        let mut b = [0; RECORD_BYTES];
        b[0] = self.kind;
        [b[1], b[5]] = self.arg.to_le_bytes();
        b[2..4].copy_from_slice(&self.size.to_le_bytes());
        b[4] = self.width;
        b[6..8].copy_from_slice(&self.zeros);
        b[8..16].copy_from_slice(&self.literal.to_le_bytes());
        b
    }
}

/// The number of children of a kind up to 13.
pub fn arity(kind: u8) -> usize {
    match kind {
        CONSTANT | VARIABLE => 0,
        NOT..=TRUNC => 1,
        _ => 2,
    }
}

/// The records of a file whose length is a multiple of 16.
pub fn split(file: &[u8]) -> Records {
    file.chunks_exact(RECORD_BYTES)
        .map(Record::from_bytes)
        .collect()
}

pub fn bytes(records: &[Record]) -> Vec<u8> {
    records.iter().flat_map(|r| r.to_bytes()).collect()
}

pub fn literal(width: u8, value: u64) -> Records {
    vec![Record::new(CONSTANT, 0, 1, width, value)]
}

pub fn variable(width: u8, number: u16) -> Records {
    vec![Record::new(VARIABLE, number, 1, width, 0)]
}

/// A record of a unary kind over `child`, of the child's width.
pub fn unary(kind: u8, arg: u8, mut child: Records) -> Records {
    let width = root(&child).width;
    let size = child.len() + 1;
    child.push(Record::new(kind, u16::from(arg), size, width, 0));
    child
}

/// A record of a binary kind over two children, of the left child's width.
pub fn binary(kind: u8, mut left: Records, mut right: Records) -> Records {
    let width = root(&left).width;
    left.append(&mut right);
    left.push(Record::new(kind, 0, left.len() + 1, width, 0));
    left
}

fn root(records: &[Record]) -> &Record {
    records.last().expect("an expression has a root")
}

/// A record of `kind` over one or two variables, or a leaf: the smallest expression of each kind.
pub fn smallest(kind: u8, arg: u8, width: u8) -> Records {
    match (kind, arity(kind)) {
        (CONSTANT, _) => literal(width, 5),
        (VARIABLE, _) => variable(width, u16::from(arg)),
        (_, 1) => unary(kind, arg, variable(width, 0)),
        _ => binary(kind, variable(width, 0), variable(width, 1)),
    }
}

/// `count` unary records over `leaf`, by turns of the kinds in `kinds`.
pub fn nested(kinds: &[u8], count: usize, leaf: Records) -> Records {
    (0..count).fold(leaf, |child, i| unary(kinds[i % kinds.len()], 0, child))
}

/// A chain of `leaves` leaves whose left children grow.
pub fn left_chain(kind: u8, leaves: usize, leaf: impl Fn(usize) -> Records) -> Records {
    (1..leaves).fold(leaf(0), |left, i| binary(kind, left, leaf(i)))
}

/// A chain of `leaves` leaves whose right children grow.
pub fn right_chain(kind: u8, leaves: usize, leaf: impl Fn(usize) -> Records) -> Records {
    (1..leaves).fold(leaf(0), |right, i| binary(kind, leaf(i), right))
}

/// `count` records of a binary kind over one of a unary kind each, whose left children grow.
#[cfg(feature = "library")]
pub fn left_turns(one: u8, two: u8, count: usize, leaf: Records) -> Records {
    (0..count).fold(leaf.clone(), |left, _| {
        binary(two, unary(one, 0, left), leaf.clone())
    })
}

/// The same, whose right children grow.
#[cfg(feature = "library")]
pub fn right_turns(one: u8, two: u8, count: usize, leaf: Records) -> Records {
    (0..count).fold(leaf.clone(), |right, _| {
        binary(two, leaf.clone(), unary(one, 0, right))
    })
}

/// A balanced expression over the leaves `first` to `first + leaves - 1`.
pub fn balanced(kind: u8, first: usize, leaves: usize, leaf: &dyn Fn(usize) -> Records) -> Records {
    if leaves == 1 {
        return leaf(first);
    }
    let half = leaves / 2;
    let left = balanced(kind, first, half, leaf);
    binary(
        kind,
        left,
        balanced(kind, first + half, leaves - half, leaf),
    )
}
