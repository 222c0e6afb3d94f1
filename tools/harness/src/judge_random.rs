//! Random pairs for the judge: sums and their rewritings, which are equal by the laws that made
//! them, the same with a slip, and pairs that are refused.

use crate::judge_cases::{pair, Pair};
use crate::model;
use crate::normal_cases::add;
use crate::normal_random::{constant, either, number, sum};
use crate::numbers;
use crate::prng::Prng;
use crate::random;
use crate::record::{
    binary, literal, unary, variable, Record, Records, ADD, AND, CONSTANT, MAX_RECORDS, MUL, NEG,
    NOT, OR, RECORD_BYTES, SHR, XOR,
};

/// A rewriting is not made longer than this.
const MOST_RECORDS: usize = 200;

/// What a pair is made over.
#[derive(Clone, Copy)]
struct Over {
    w: u8,
    variables: usize,
    /// whether a Shr may stand over a variable, with a count that may be above 0
    shifts: bool,
}

impl Over {
    /// Any width, one to five variables, no shifts.
    fn any(rng: &mut Prng) -> Over {
        Over {
            w: random::width(rng),
            variables: 1 + rng.below(5),
            shifts: false,
        }
    }

    fn leaf(self, rng: &mut Prng) -> Records {
        variable(self.w, rng.below(self.variables) as u16)
    }

    /// A literal, or one time in four a bitwise tree of literals.
    fn mask(self, rng: &mut Prng) -> Records {
        if !rng.one_in(4) {
            return number(rng, self.w);
        }
        let (left, right) = (number(rng, self.w), number(rng, self.w));
        let tree = binary(rng.pick(&[AND, OR, XOR]), left, right);
        unary(SHR, rng.byte() % self.w, tree)
    }

    /// A bitwise tree over variables and literals with up to `depth` operators above each other.
    fn atom(self, rng: &mut Prng, depth: usize) -> Records {
        if depth == 0 {
            return self.leaf(rng);
        }
        let inner = self.atom(rng, depth - 1);
        let other = match rng.below(8) {
            0 | 1 => return unary(NOT, 0, inner),
            2 if self.shifts => return unary(SHR, rng.byte() % self.w, inner),
            2 => return unary(SHR, 0, inner),
            3 | 4 => self.mask(rng),
            _ => self.atom(rng, depth - 1),
        };
        let kind = rng.pick(&[AND, OR, XOR]);
        either(rng, kind, inner, other)
    }

    /// A number times an atom, or an atom.
    fn term(self, rng: &mut Prng) -> Records {
        let depth = rng.below(4);
        let atom = self.atom(rng, depth);
        match rng.below(8) {
            0 => atom,
            1 => unary(NEG, 0, atom),
            2 => {
                let factor = constant(rng, 5, self.w);
                either(rng, MUL, factor, atom)
            }
            3 => either(rng, MUL, literal(self.w, 1 << (self.w - 1)), atom),
            4 => either(rng, MUL, literal(self.w, 0), atom),
            _ => {
                let factor = number(rng, self.w);
                either(rng, MUL, factor, atom)
            }
        }
    }

    /// A sum of up to `most` terms.
    fn sum(self, rng: &mut Prng, most: usize) -> Records {
        let mut terms: Vec<Records> = (0..1 + rng.below(most)).map(|_| self.term(rng)).collect();
        if rng.one_in(2) {
            terms.push(number(rng, self.w));
        }
        sum(rng, terms)
    }

    /// A sum of `records` records or a few more.
    fn filled(self, rng: &mut Prng, records: usize) -> Records {
        let mut tree = self.term(rng);
        while tree.len() < records {
            let term = self.term(rng);
            tree = either(rng, ADD, tree, term);
        }
        tree
    }

    /// A sum of terms that is 0 under every assignment: a term and its negative, written otherwise.
    fn nothing(self, rng: &mut Prng) -> Records {
        let depth = rng.below(3);
        let atom = self.atom(rng, depth);
        let factor = random::word(rng, self.w);
        let again = self.rewritten(rng, &atom, true);
        let first = binary(MUL, literal(self.w, factor), atom);
        let second = binary(MUL, literal(self.w, factor.wrapping_neg()), again);
        either(rng, ADD, first, second)
    }

    /// A tree of the same value. Arithmetic may come in where `linear` holds, as it does in sums.
    fn rewritten(self, rng: &mut Prng, tree: &[Record], linear: bool) -> Records {
        let root = tree[tree.len() - 1];
        let below = &tree[..tree.len() - 1];
        let linear_below = matches!(root.kind, ADD | MUL | NEG);
        match root.kind {
            NOT | NEG | SHR => {
                let inner = self.rewritten(rng, below, linear && linear_below);
                self.unary(rng, root, inner, linear)
            }
            ADD | MUL | AND | OR | XOR => {
                let right = usize::from(below[below.len() - 1].size);
                let (left, right) = below.split_at(below.len() - right);
                let left = self.rewritten(rng, left, linear && linear_below);
                let right = self.rewritten(rng, right, linear && linear_below);
                self.binary(rng, root.kind, left, right, linear)
            }
            CONSTANT => self.constant(rng, root),
            _ => self.leaf_again(rng, tree, linear),
        }
    }

    /// The literal with other bits above w.
    fn constant(self, rng: &mut Prng, root: Record) -> Records {
        match self.w < 64 && rng.one_in(3) {
            true => literal(self.w, root.literal ^ rng.word() >> self.w << self.w),
            false => vec![root],
        }
    }

    /// A variable, whole or in two parts.
    fn leaf_again(self, rng: &mut Prng, tree: &[Record], linear: bool) -> Records {
        let again = || tree.to_vec();
        let mask = rng.word();
        let masked = |mask: u64| binary(AND, again(), literal(self.w, mask));
        match rng.below(8) {
            0 => binary(rng.pick(&[AND, OR]), again(), again()),
            1 => unary(NOT, 0, unary(NOT, 0, again())),
            2 if linear => add(masked(mask), masked(!mask)),
            3 => binary(rng.pick(&[OR, XOR]), masked(mask), masked(!mask)),
            _ => again(),
        }
    }

    fn unary(self, rng: &mut Prng, root: Record, inner: Records, linear: bool) -> Records {
        let minus_one = || literal(self.w, u64::MAX);
        match root.kind {
            // ~x is -x - 1, and x ^ -1
            NOT if linear && rng.one_in(3) => add(unary(NEG, 0, inner), minus_one()),
            NOT if rng.one_in(3) => binary(XOR, inner, minus_one()),
            NEG if rng.one_in(2) => binary(MUL, minus_one(), inner),
            kind => unary(kind, root.arg as u8, inner),
        }
    }

    fn binary(self, rng: &mut Prng, kind: u8, x: Records, y: Records, linear: bool) -> Records {
        if x.len() + y.len() > MOST_RECORDS {
            return either(rng, kind, x, y);
        }
        let not = |tree: Records| unary(NOT, 0, tree);
        let neg = |tree: Records| unary(NEG, 0, tree);
        let and = |x: &Records, y: &Records| binary(AND, x.clone(), y.clone());
        let twice = |tree: Records| binary(MUL, literal(self.w, 2), tree);
        let meet = and(&x, &y);
        match (kind, rng.below(4)) {
            (OR, 0) if linear => add(add(x, y), neg(meet)),
            (XOR, 0) if linear => add(add(x, y), neg(twice(meet))),
            (AND, 0) if linear => add(add(x.clone(), y.clone()), neg(binary(OR, x, y))),
            (AND, 1) => not(binary(OR, not(x), not(y))),
            (OR, 1) => not(binary(AND, not(x), not(y))),
            (XOR, 1) => binary(OR, and(&x, &not(y.clone())), and(&not(x), &y)),
            (XOR, 2) => binary(AND, binary(OR, x, y), not(meet)),
            _ => either(rng, kind, x, y),
        }
    }

    /// A sum and a rewriting of it, with up to two terms more that come to 0.
    fn rewriting(self, rng: &mut Prng, most: usize) -> (Records, Records) {
        let left = self.sum(rng, most);
        let mut right = self.rewritten(rng, &left, true);
        for _ in 0..rng.below(3) {
            let nothing = self.nothing(rng);
            right = either(rng, ADD, right, nothing);
        }
        (left, right)
    }

    /// The two with one atom more in the right, under a mask of one place or times a power of 2.
    fn slipped(self, rng: &mut Prng, left: Records, right: Records) -> (Records, Records) {
        let depth = rng.below(3);
        let atom = self.atom(rng, depth);
        let one = literal(self.w, 1 << rng.below(usize::from(self.w)));
        let slip = match rng.below(4) {
            0 => either(rng, MUL, one, atom),
            _ => either(rng, AND, one, atom),
        };
        (left, either(rng, ADD, right, slip))
    }
}

/// `count` pairs, each in either order.
pub fn either_order<T>(
    rng: &mut Prng,
    count: usize,
    make: impl Fn(&mut Prng) -> (T, T),
    pair: impl Fn(&T, &T) -> Pair,
) -> Vec<Pair> {
    (0..count)
        .map(|_| {
            let (left, right) = make(rng);
            match rng.one_in(2) {
                true => pair(&left, &right),
                false => pair(&right, &left),
            }
        })
        .collect()
}

/// `count` pairs of expressions, each in either order.
fn pairs(
    rng: &mut Prng,
    count: usize,
    make: impl Fn(&mut Prng) -> (Records, Records),
) -> Vec<Pair> {
    either_order(rng, count, make, |left, right| pair(left, right))
}

/// Sums beside their rewritings.
pub fn rewritings(rng: &mut Prng, count: usize) -> Vec<Pair> {
    pairs(rng, count, |rng| Over::any(rng).rewriting(rng, 5))
}

/// Rewritings with a slip, mostly at one place.
pub fn one_place(rng: &mut Prng, count: usize) -> Vec<Pair> {
    pairs(rng, count, |rng| {
        let over = Over::any(rng);
        let (left, right) = over.rewriting(rng, 4);
        over.slipped(rng, left, right)
    })
}

/// Two sums that have nothing in common but the width, mostly.
pub fn any_two(rng: &mut Prng, count: usize) -> Vec<Pair> {
    pairs(rng, count, |rng| {
        let over = Over::any(rng);
        let other = match rng.one_in(8) {
            true => Over::any(rng),
            false => over,
        };
        (over.sum(rng, 4), other.sum(rng, 4))
    })
}

/// Two sums that have the value 0 where all variables are 0.
pub fn alike_at_zeros(rng: &mut Prng, count: usize) -> Vec<Pair> {
    pairs(rng, count, |rng| {
        let over = Over::any(rng);
        let mut side = || {
            let tree = over.sum(rng, 2);
            let less = model::value(&tree, &[]).wrapping_neg();
            add(tree, literal(over.w, less))
        };
        (side(), side())
    })
}

/// Pairs at 1 to 3 bits, so that every assignment can be tried: rewritings, slips and any two.
pub fn small(rng: &mut Prng, count: usize) -> Vec<Pair> {
    pairs(rng, count, |rng| {
        let over = Over {
            w: 1 + rng.below(3) as u8,
            variables: 1 + rng.below(4),
            shifts: rng.one_in(16),
        };
        let (left, right) = over.rewriting(rng, 3);
        match rng.below(4) {
            0 => (left, over.sum(rng, 3)),
            1 => over.slipped(rng, left, right),
            _ => (left, right),
        }
    })
}

/// Rewritings and slips whose variables have numbers over the whole range.
pub fn wide_numbers(rng: &mut Prng, count: usize) -> Vec<Pair> {
    let mut made = rewritings(rng, count / 2);
    made.extend(one_place(rng, count - made.len()));
    for pair in &mut made {
        let both = [&pair.left[..], &pair.right].concat();
        let renamed = numbers::renamed(rng, &both);
        let (left, right) = renamed.split_at(pair.left.len());
        (pair.left, pair.right) = (left.to_vec(), right.to_vec());
    }
    made
}

/// Rewritings and slips over up to eight variables, some of them under a factor of 0.
pub fn many_variables(rng: &mut Prng, count: usize) -> Vec<Pair> {
    pairs(rng, count, |rng| {
        let over = Over {
            variables: 4 + rng.below(5),
            ..Over::any(rng)
        };
        let (left, right) = over.rewriting(rng, 4);
        match rng.one_in(2) {
            true => over.slipped(rng, left, right),
            false => (left, right),
        }
    })
}

/// Rewritings, slips and any two with shifts over variables.
pub fn shifts(rng: &mut Prng, count: usize) -> Vec<Pair> {
    pairs(rng, count, |rng| {
        let over = Over {
            variables: 1 + rng.below(6),
            shifts: true,
            ..Over::any(rng)
        };
        let (left, right) = over.rewriting(rng, 3);
        match rng.below(3) {
            0 => (left, over.sum(rng, 3)),
            1 => over.slipped(rng, left, right),
            _ => (left, right),
        }
    })
}

/// Rewritings of which one side or both have bytes changed, taken away or added.
pub fn damaged(rng: &mut Prng, count: usize) -> Vec<Pair> {
    let mut made = rewritings(rng, count);
    for pair in &mut made {
        let which = rng.below(3);
        if which != 0 {
            pair.left = spoiled(rng, &pair.left);
        }
        if which != 1 {
            pair.right = spoiled(rng, &pair.right);
        }
    }
    made
}

fn spoiled(rng: &mut Prng, file: &[u8]) -> Vec<u8> {
    let mut file = file.to_vec();
    match rng.below(8) {
        0 => file.truncate(rng.below(file.len() + 1)),
        1 => file.extend((0..rng.below(2 * RECORD_BYTES)).map(|_| 0)),
        2 => numbers::spoil(rng, &mut file),
        3 => file = vec![rng.byte(); rng.below(4 * RECORD_BYTES)],
        _ => file = random::damaged(rng, &file),
    }
    file
}

/// Sums of many atoms beside their rewritings, some with a slip, up to the most records.
pub fn long(rng: &mut Prng, count: usize) -> Vec<Pair> {
    pairs(rng, count, |rng| {
        let over = Over {
            variables: 2 + rng.below(3),
            ..Over::any(rng)
        };
        let left = over.filled(rng, 400);
        let right = over.rewritten(rng, &left, true);
        let (left, right) = match right.len() < MAX_RECORDS - 20 {
            true => (left, right),
            false => (left.clone(), left),
        };
        match rng.one_in(2) {
            true => over.slipped(rng, left, right),
            false => (left, right),
        }
    })
}
