//! Pairs of semilinear forms for the judge (request #102): verdicts by hand, each refusal beside
//! each other, the same shapes at every width, the largest tables, and random pairs
//! (judge_forms_random.rs).

use crate::family::{family, Family};
use crate::form::{Form, HEAD_BYTE, MAX_ATOMS, MAX_TREE_RECORDS, RESULT_BYTES};
use crate::judge_cases::Pair;
use crate::judge_forms_random as random_pairs;
use crate::judge_model::Verdict;
use crate::prng::Prng;
use crate::record::{
    binary, left_chain, literal, nested, right_chain, unary, variable, Records, AND, NOT, OR,
    RECORD_BYTES, SHR, XOR,
};

/// All families.
const FAMILIES: [Family<Pair>; 11] = [
    family("by hand", 0, 0, |_, _| {
        by_hand().into_iter().map(|(pair, _)| pair).collect()
    }),
    family("refusals beside each other", 0, 0, |_, _| refusals()),
    family("widths 1 to 64", 0, 0, |_, _| every_width()),
    family("largest tables", 0, 0, |_, _| {
        largest().into_iter().map(|(pair, _)| pair).collect()
    }),
    family("what a pass makes", 0, 48, random_pairs::passed),
    family("the same with a slip", 0, 40, random_pairs::slipped),
    family("normalised", 0, 24, random_pairs::normalised),
    family("one atom beside its sum", 0, 16, random_pairs::one_atom),
    family("atoms without a term", 0, 30, random_pairs::unused),
    family("variables of two bytes", 0, 16, random_pairs::wide_numbers),
    family("damaged", 0, 24, random_pairs::damaged),
];

/// All that is stored.
pub fn stored(rng: &mut Prng) -> Vec<Pair> {
    let made = FAMILIES
        .iter()
        .map(|family| (family.make)(rng, family.stored));
    made.flatten().collect()
}

pub fn pair(left: &Form, right: &Form) -> Pair {
    Pair {
        left: left.bytes(),
        right: right.bytes(),
    }
}

/// The form of these terms, each with an atom of its own, and a constant.
pub fn sheet(w: u8, terms: &[(u64, Records)], constant: u64) -> Form {
    let mut form = Form::new(w, constant);
    for (coeff, tree) in terms {
        form.push_term(HEAD_BYTE, tree.clone(), *coeff);
    }
    form
}

/// The form with these atoms more, which have no term.
fn beside(mut form: Form, trees: &[Records]) -> Form {
    for tree in trees {
        form.push(HEAD_BYTE, tree.clone());
    }
    form
}

/// The sum of so many variables from `first` on.
fn variables(w: u8, first: u16, count: u16) -> Form {
    let terms: Vec<(u64, Records)> = (first..first + count)
        .map(|number| (1, variable(w, number)))
        .collect();
    sheet(w, &terms, 0)
}

/// Forms at 8 bits with the verdict that they have.
pub fn by_hand() -> Vec<(Pair, Verdict)> {
    let lists = [equal(), unlike(), refused()].concat();
    let made = lists
        .iter()
        .map(|(left, right, verdict)| (pair(left, right), *verdict));
    made.collect()
}

type ByHand = Vec<(Form, Form, Verdict)>;

fn v(number: u16) -> Records {
    variable(8, number)
}

fn mask(number: u16, value: u64) -> Records {
    binary(AND, v(number), literal(8, value))
}

/// v0 and v1 below an operator.
fn both(kind: u8) -> Records {
    binary(kind, v(0), v(1))
}

fn not(tree: Records) -> Records {
    unary(NOT, 0, tree)
}

fn half(tree: Records) -> Records {
    unary(SHR, 1, tree)
}

/// One term.
fn one(coeff: u64, tree: Records) -> Form {
    sheet(8, &[(coeff, tree)], 0)
}

fn constant(value: u64) -> Form {
    Form::new(8, value)
}

fn equal() -> ByHand {
    let sum = || variables(8, 0, 2);
    let xor_15 = one(1, binary(XOR, v(0), literal(8, 15)));
    let shifted_literal = half(not(literal(8, 3)));
    let pairs = [
        (xor_15, sheet(8, &[(1, v(0)), (254, mask(0, 15))], 15)),
        (sum(), sheet(8, &[(1, both(XOR)), (2, both(AND))], 0)),
        (
            one(128, both(XOR)),
            sheet(8, &[(128, v(0)), (128, v(1))], 0),
        ),
        (one(1, not(v(0))), sheet(8, &[(255, v(0))], 255)),
        (one(1, unary(SHR, 0, v(0))), one(1, v(0))),
        (
            one(1, binary(AND, v(0), shifted_literal)),
            one(1, mask(0, 126)),
        ),
        (one(1, mask(0, 271)), one(1, mask(0, 15))),
        (one(16, mask(0, 255)), one(16, mask(0, 15))),
        (
            sheet(8, &[(1, mask(0, 15)), (1, mask(0, 240))], 0),
            one(1, v(0)),
        ),
        // an atom twice
        (sheet(8, &[(3, v(0)), (253, v(0))], 7), constant(7)),
        (sum().with_heads(0), sum().with_heads(3)),
        (constant(15), constant(15)),
        // atoms without a term
        (beside(constant(0), &[v(65_535)]), constant(0)),
        (
            beside(sum(), &[v(2), v(3)]),
            beside(sum(), &[v(4), both(OR)]),
        ),
    ];
    pairs
        .into_iter()
        .map(|(left, right)| (left, right, Verdict::EQUAL))
        .collect()
}

fn unlike() -> ByHand {
    let at = Verdict::unlike;
    let sum = || variables(8, 0, 2);
    let nothing = || constant(0);
    vec![
        (one(1, both(OR)), sum(), at(0, 3)),
        (sum(), sheet(8, &[(1, v(0)), (1, v(1))], 1), at(0, 0)),
        (constant(1), constant(2), at(0, 0)),
        (one(1, not(v(0))), one(255, v(0)), at(0, 0)),
        (one(1, mask(0, 15)), one(1, mask(0, 31)), at(4, 1)),
        (one(1, mask(0, 127)), one(1, v(0)), at(7, 1)),
        (one(1, v(0)), one(1, v(1)), at(0, 1)),
        (sum(), sheet(8, &[(1, v(0)), (2, v(1))], 0), at(0, 2)),
        // a lower place with a higher index before a higher place with a lower one
        (
            sheet(8, &[(1, both(AND)), (1, mask(0, 2))], 0),
            nothing(),
            at(0, 3),
        ),
        (one(3, v(0)), one(131, v(0)), at(0, 1)),
        (one(64, mask(0, 254)), nothing(), at(1, 1)),
        (variables(8, 0, 5), variables(8, 0, 4), at(0, 16)),
        // the variables of atoms without a term take their place in the index
        (beside(one(1, v(1)), &[v(0)]), nothing(), at(0, 2)),
        (
            one(1, v(1)),
            beside(nothing(), &[both(XOR), v(2)]),
            at(0, 2),
        ),
        (
            beside(one(1, v(2)), &[v(0)]),
            beside(nothing(), &[v(1)]),
            at(0, 4),
        ),
        (
            one(1, mask(4, 16)),
            beside(nothing(), &[v(3), v(2), v(1), v(0)]),
            at(4, 16),
        ),
        // variables that share their low byte
        (one(1, v(0)), one(1, v(256)), at(0, 1)),
        (one(1, v(256)), beside(nothing(), &[v(0)]), at(0, 2)),
        (one(1, v(65_535)), beside(nothing(), &[v(255)]), at(0, 2)),
        (one(1, mask(256, 8)), one(1, mask(512, 8)), at(3, 1)),
    ]
}

/// The refusals of the two together.
fn refused() -> ByHand {
    let (five, six) = (|| variables(8, 0, 5), || variables(8, 0, 6));
    let (a, nothing) = (|| one(1, v(0)), || constant(0));
    let shifted = || half(v(0));
    let atoms = |form: Form| -> Vec<Records> { form.atoms.into_iter().map(|a| a.tree).collect() };
    let list = [
        (a(), one(1, shifted()), 13),
        (one(1, shifted()), one(1, shifted()), 13),
        (nothing(), beside(nothing(), &[shifted()]), 13),
        (beside(five(), &[shifted()]), five(), 13),
        (one(1, unary(SHR, 63, not(v(0)))), nothing(), 13),
        // 0 wherever one place alone has bits, and 1 at v0 = 3
        (one(1, binary(AND, v(0), shifted())), nothing(), 13),
        (six(), six(), 12),
        (variables(8, 0, 3), variables(8, 3, 3), 12),
        (beside(a(), &atoms(six())), a(), 12),
        (
            beside(a(), &[v(1), v(2)]),
            beside(a(), &[v(3), v(4), v(256)]),
            12,
        ),
        (beside(six(), &[shifted()]), a(), 12),
        (one(1, shifted()), six(), 12),
        (a(), variables(9, 0, 1), 11),
        (constant(1), Form::new(9, 1), 11),
        (beside(six(), &[shifted()]), variables(9, 0, 6), 11),
    ];
    list.into_iter()
        .map(|(left, right, number)| (left, right, Verdict::refused(number)))
        .collect()
}

/// Bytes of each refusal and of some forms, every one beside every other one.
fn refusals() -> Vec<Pair> {
    let sum = variables(8, 0, 2).bytes();
    let mut other_hash = sum.clone();
    other_hash[8] ^= 1;
    let shifted = one(1, half(v(0)));
    let files = [
        vec![],
        sum[1..].to_vec(),
        vec![0; RESULT_BYTES + RECORD_BYTES],
        other_hash,
        sum,
        variables(9, 0, 1).bytes(),
        variables(8, 2, 5).bytes(),
        shifted.bytes(),
        beside(variables(8, 0, 6), &[half(v(1))]).bytes(),
    ];
    let of = |left: &Vec<u8>| -> Vec<Pair> {
        let beside = files.iter().map(|right| Pair {
            left: left.clone(),
            right: right.clone(),
        });
        beside.collect()
    };
    files.iter().flat_map(of).collect()
}

/// A pair at each width, by turns: equal, or unlike at the highest place alone.
pub fn every_width() -> Vec<Pair> {
    let at = |w: u8| {
        let (top, ones) = (1 << (w - 1), u64::MAX >> (64 - w));
        let (a, b) = (|| variable(w, 0), || variable(w, 1));
        let masked = |tree: Records, value: u64| binary(AND, tree, literal(w, value));
        let of = |terms: &[(u64, Records)]| sheet(w, terms, 0);
        match w % 5 {
            0 => (
                of(&[(1, unary(NOT, 0, a()))]),
                sheet(w, &[(ones, a())], ones),
            ),
            1 => (of(&[(1, a())]), of(&[(1, masked(a(), ones - top))])),
            2 => (
                of(&[(top, binary(OR, a(), b()))]),
                of(&[(top, a()), (top, b()), (top, binary(AND, a(), b()))]),
            ),
            3 => (
                of(&[(1, binary(XOR, a(), literal(w, top)))]),
                sheet(w, &[(1, a())], top),
            ),
            _ => (
                of(&[(1, a()), (1, b())]),
                of(&[(1, masked(a(), ones - top)), (1, b())]),
            ),
        }
    };
    (1..=64)
        .map(at)
        .map(|(left, right)| pair(&left, &right))
        .collect()
}

/// Full tables, or nearly full ones, on one side or both, with the verdict that they have.
pub fn largest() -> Vec<(Pair, Verdict)> {
    let w = 64;
    let leaf = |i: usize| variable(w, i as u16 % 5);
    let leaves = MAX_TREE_RECORDS / 2;
    let of = |terms: &[(u64, Records)]| sheet(w, terms, 5);
    let full: Vec<(u64, Records)> = (0..MAX_ATOMS).map(|i| full_term(i, 0)).collect();
    let mut turned = full.clone();
    turned.reverse();
    // an And of all five variables, times an odd number, less its highest place
    let mut slipped = full.clone();
    slipped[252] = full_term(252, 1 << 63);
    let half = &full[..MAX_ATOMS / 2];
    let negative = |(coeff, tree): &(u64, Records)| (coeff.wrapping_neg(), tree.clone());
    let gone = [half.to_vec(), half.iter().map(negative).collect()].concat();
    let below_not = |tree: Records| sheet(w, &[(3, not(tree))], 1);
    let nots = nested(&[NOT], MAX_TREE_RECORDS - 2, leaf(0));
    vec![
        (pair(&of(&full), &of(&full)), Verdict::EQUAL),
        (pair(&of(&full), &of(&turned)), Verdict::EQUAL),
        (pair(&of(&turned), &of(&slipped)), Verdict::unlike(63, 31)),
        (pair(&of(&gone), &of(&[])), Verdict::EQUAL),
        (
            pair(
                &below_not(left_chain(XOR, leaves, leaf)),
                &below_not(right_chain(XOR, leaves, leaf)),
            ),
            Verdict::EQUAL,
        ),
        (
            pair(
                &below_not(left_chain(OR, leaves, leaf)),
                &below_not(right_chain(AND, leaves, leaf)),
            ),
            Verdict::unlike(0, 1),
        ),
        (
            pair(&sheet(w, &[(1, nots)], 0), &sheet(w, &[(1, leaf(0))], 0)),
            Verdict::EQUAL,
        ),
    ]
}

/// The term of an atom of a full table: Not over And, Or or Xor of variables and a literal, 12
/// records. `slip` is changed in the literal.
fn full_term(i: usize, slip: u64) -> (u64, Records) {
    let kinds = [AND, OR, XOR];
    let leaf = |j: usize| match j {
        5 => literal(64, !(i as u64) ^ slip),
        _ => variable(64, ((i + j * (1 + i % 4)) % 5) as u16),
    };
    let tree = not(left_chain(kinds[i % 3], 6, leaf));
    (u64::MAX - 3 * i as u64, tree)
}
