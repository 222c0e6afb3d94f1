//! Random tangles that meet the rules of request #109 often: Not over sums, products by numbers and
//! Neg, and variable-free parts below bitwise operators.

use crate::normal_cases::{case, Case};
use crate::normal_limits as limits;
use crate::normal_random::{constant, either, number};
use crate::prng::Prng;
use crate::random;
use crate::record::{
    binary, literal, split, unary, variable, Records, ADD, AND, CONSTANT, MAX_RECORDS, MUL, NEG,
    NOT, OR, SHR, XOR,
};

/// The width of a tangle, and how many variables it may have.
#[derive(Clone, Copy)]
struct Over {
    w: u8,
    variables: usize,
}

/// Tangles at any width.
pub fn tangles(rng: &mut Prng, count: usize) -> Vec<Case> {
    (0..count)
        .map(|_| {
            let w = random::width(rng);
            let most = rng.pick(&[2, 3, 4, 5]);
            case(&Over { w, variables: 8 }.sum(rng, most))
        })
        .collect()
}

/// Small ones at 1 to 3 bits over up to three variables, so that every assignment can be tried.
pub fn small(rng: &mut Prng, count: usize) -> Vec<Case> {
    (0..count)
        .map(|_| {
            let over = Over {
                w: 1 + rng.below(3) as u8,
                variables: 1 + rng.below(3),
            };
            let most = 1 + rng.below(3);
            case(&over.sum(rng, most))
        })
        .collect()
}

/// Many Nots above each other, some over Neg, sums and products by numbers.
pub fn nested(rng: &mut Prng, count: usize) -> Vec<Case> {
    (0..count)
        .map(|_| {
            let w = random::width(rng);
            let over = Over { w, variables: 8 };
            let mut tree = over.sum(rng, 2);
            let records = tree.len() + rng.pick(&[8, 30, 30, 100, 400]);
            while tree.len() < records {
                tree = match rng.below(8) {
                    0 => over.with_factor(rng, tree),
                    1 => {
                        let other = over.atom(rng, 1);
                        either(rng, ADD, tree, other)
                    }
                    2 => unary(NEG, 0, tree),
                    _ => unary(NOT, 0, tree),
                };
            }
            case(&tree)
        })
        .collect()
}

/// Sums whose table is nearly full or too full, below Not or Neg and with literals of more than w
/// bits.
pub fn tables(rng: &mut Prng, count: usize) -> Vec<Case> {
    let mut made = limits::atoms(rng, count / 2);
    made.extend(limits::tree_records(rng, count - made.len()));
    made.iter()
        .map(|one| {
            let mut tree = split(&one.file);
            let w = tree[0].width;
            for record in tree.iter_mut().filter(|r| r.kind == CONSTANT && w < 64) {
                record.literal |= rng.word() >> w << w;
            }
            while tree.len() < MAX_RECORDS && !rng.one_in(3) {
                tree = unary(rng.pick(&[NOT, NEG]), 0, tree);
            }
            case(&tree)
        })
        .collect()
}

/// And, Or or Xor of the two, in either order.
fn bitwise(rng: &mut Prng, first: Records, second: Records) -> Records {
    let kind = rng.pick(&[AND, OR, XOR]);
    either(rng, kind, first, second)
}

impl Over {
    fn leaf(self, rng: &mut Prng) -> Records {
        variable(self.w, rng.below(self.variables) as u16)
    }

    /// A tree without variables, a literal a third of the time.
    fn variable_free(self, rng: &mut Prng) -> Records {
        match rng.below(6) {
            0 | 1 => number(rng, self.w),
            2 => unary(NEG, 0, number(rng, self.w)),
            3 => {
                let inner = constant(rng, 4, self.w);
                unary(SHR, rng.byte() % self.w, inner)
            }
            _ => constant(rng, 6, self.w),
        }
    }

    /// A bitwise tree over variables and variable-free parts, with up to `depth` operators above
    /// each other.
    fn atom(self, rng: &mut Prng, depth: usize) -> Records {
        if depth == 0 {
            return self.leaf(rng);
        }
        let inner = self.atom(rng, depth - 1);
        match rng.below(8) {
            0 => unary(NOT, 0, inner),
            1 => unary(SHR, rng.byte() % self.w, inner),
            2 | 3 => {
                let other = self.atom(rng, depth - 1);
                bitwise(rng, inner, other)
            }
            _ => {
                let other = self.variable_free(rng);
                bitwise(rng, inner, other)
            }
        }
    }

    /// The tree times a number, which is 0 modulo 2^w one time in eight.
    fn with_factor(self, rng: &mut Prng, tree: Records) -> Records {
        let factor = match rng.below(16) {
            0 => literal(self.w, 0),
            1 => literal(self.w, 1u64.checked_shl(self.w.into()).unwrap_or(0)),
            2..=5 => self.variable_free(rng),
            _ => number(rng, self.w),
        };
        either(rng, MUL, factor, tree)
    }

    /// A sum with Nots, `depth` levels of them at most.
    fn sum(self, rng: &mut Prng, depth: usize) -> Records {
        if depth == 0 {
            return self.atom(rng, 2);
        }
        match rng.below(32) {
            0..=10 => unary(NOT, 0, self.sum(rng, depth - 1)),
            11..=16 => {
                let (left, right) = (self.sum(rng, depth - 1), self.sum(rng, depth - 1));
                binary(ADD, left, right)
            }
            17..=20 => {
                let inner = self.sum(rng, depth - 1);
                self.with_factor(rng, inner)
            }
            21..=23 => unary(NEG, 0, self.sum(rng, depth - 1)),
            24..=27 => self.atom(rng, 3),
            28 => {
                let (inner, other) = (self.sum(rng, depth - 1), self.variable_free(rng));
                either(rng, ADD, inner, other)
            }
            29 => binary(MUL, literal(self.w, 0), self.nonlinear(rng, depth - 1)),
            30 => self.nonlinear(rng, depth - 1),
            _ => self.variable_free(rng),
        }
    }

    /// A product of variables, or a bitwise operator or Shr that may stand over a sum.
    fn nonlinear(self, rng: &mut Prng, depth: usize) -> Records {
        let inner = self.sum(rng, depth);
        match rng.below(4) {
            0 => binary(MUL, self.leaf(rng), self.leaf(rng)),
            1 => unary(SHR, rng.byte() % self.w, inner),
            2 => {
                let other = self.variable_free(rng);
                bitwise(rng, inner, other)
            }
            _ => {
                let other = self.atom(rng, 1);
                bitwise(rng, inner, other)
            }
        }
    }
}
