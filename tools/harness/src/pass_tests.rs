//! Tests of the passes and columns of the build with the partings: worked examples with answers
//! written by hand, and the order in which terms are put.

use crate::cases::SEED;
use crate::columns;
use crate::form::{Form, Term, HEAD_BYTE, RESULT_BYTES};
use crate::form_model;
use crate::pass::{self, Pass, ALL, PASSES};
use crate::pass_cases::FAMILIES;
use crate::pass_checks;
use crate::pass_examples::{a, and, b, form, like_b, like_shifted, not, shifted_mask};
use crate::prng::Prng;
use crate::record::{binary, literal, unary, Records, AND, SHR, XOR};
use crate::written::{written, Written};

/// The form with an atom more and its term; a coefficient of 0 is an atom without one.
fn with(mut form: Form, tree: Records, coeff: u64) -> Form {
    match coeff {
        0 => form.push(HEAD_BYTE, tree),
        _ => form.push_term(HEAD_BYTE, tree, coeff),
    }
    form
}

/// The form with other terms, atom and coefficient, and another constant.
fn of(mut form: Form, constant: u64, terms: &[(u16, u64)]) -> Form {
    form.constant = constant;
    form.terms = terms
        .iter()
        .map(|&(atom, coeff)| Term { atom, coeff })
        .collect();
    form
}

/// The pass makes `after`, with new heads, of `before`, and returns the flag.
pub fn check(pass: Pass, before: &Form, after: &Form, flag: u64) {
    let wanted = Written {
        flag,
        ..written(&after.clone().with_heads(HEAD_BYTE))
    };
    let answer = pass::answer(pass, &before.bytes(), RESULT_BYTES);
    assert_eq!(answer.numbers(), wanted.numbers(), "{before:?}");
    assert!(answer.out == wanted.out, "{before:?}");
}

#[test]
fn refined_by_hand() {
    let refined = |before: &Form, after: Form| check(Pass::Refine, before, &after, 0);
    let one = form(0, &[(16, and(a(), 255))]);
    let cut = with(of(one.clone(), 0, &[]), and(a(), 15), 16);
    refined(&one, cut);
    let two = form(0, &[(1, and(a(), 15)), (1, and(a(), 240))]);
    let whole = with(of(two.clone(), 0, &[]), a(), 1);
    refined(&two, whole);
    // a bare variable is a group of one
    let bare = form(0, &[(16, a())]);
    let cut = with(of(bare.clone(), 0, &[]), and(a(), 15), 16);
    refined(&bare, cut);
    // an atom that is cut to nothing stays in the table
    let high = form(0, &[(16, and(a(), 240))]);
    let none = with(of(high.clone(), 0, &[]), and(a(), 0), 0);
    refined(&high, none);
    // a coefficient becomes 2^w - 1 without a new atom
    let top = form(0, &[(1, and(a(), 128))]);
    refined(&top, of(top.clone(), 0, &[(0, 255)]));
    // parting 1: one hash, two groups
    let unlike = form(0, &[(1, and(b(), 15)), (1, and(like_b(), 240))]);
    refined(&unlike, unlike.clone());
    // parting 3: the mask is 126 and not 254
    let shifted = unary(SHR, 1, not(literal(8, 3)));
    let mask = form(0, &[(1, binary(AND, a(), shifted)), (1, and(a(), 1))]);
    let merged = with(of(mask.clone(), 0, &[]), and(a(), 127), 1);
    refined(&mask, merged);
    // the collapse: 2·A + 3·B + 5·C is 2·(A | C) + 3·(B | C)
    let three = [(2, and(a(), 3)), (3, and(a(), 12)), (5, and(a(), 48))];
    let three = form(0, &three);
    let left = with(of(three.clone(), 0, &[]), and(a(), 51), 2);
    refined(&three, with(left, and(a(), 60), 3));
}

#[test]
fn recovered_by_hand() {
    let recovered = |before: &Form, after: Form| check(Pass::Recover, before, &after, 0);
    let xor = |mask: u64| binary(XOR, literal(8, mask), a());
    let three = [(1, and(a(), 252)), (255, and(a(), 3)), (255, and(a(), 0))];
    let three = form(0, &three);
    let pair = of(three.clone(), 253, &[(2, 255)]);
    recovered(&three, with(pair, xor(3), 1));
    // 128 is its own negative; of two masks with as many ones the first is taken
    let half = form(0, &[(128, and(a(), 15)), (128, and(a(), 240))]);
    let pair = with(of(half.clone(), 128, &[]), xor(15), 128);
    recovered(&half, pair);
    // an unused bare atom is found; a used one is added to, and may vanish
    let unused = form(0, &[(1, and(a(), 15)), (2, and(a(), 240)), (0, a())]);
    recovered(&unused, of(unused.clone(), 0, &[(0, 255), (2, 2)]));
    let used = form(0, &[(254, a()), (1, and(a(), 15)), (2, and(a(), 240))]);
    recovered(&used, of(used.clone(), 0, &[(1, 255)]));
    // parting 1: a bare atom of the same hash is not the bare one
    let masked = |mask: u64| and(shifted_mask(), mask);
    let unlike = form(0, &[(1, like_shifted()), (1, masked(15)), (2, masked(240))]);
    let found = of(unlike.clone(), 0, &[(0, 1), (1, 255)]);
    recovered(&unlike, with(found, shifted_mask(), 2));
}

#[test]
fn coalesced_by_hand() {
    let coalesced = |before: &Form, after: Form| check(Pass::Coalesce, before, &after, 0);
    let three = form(0, &[(1, and(a(), 1)), (1, and(a(), 2)), (2, and(a(), 4))]);
    let first = with(of(three.clone(), 0, &[]), and(a(), 3), 1);
    coalesced(&three, with(first, and(a(), 4), 2));
    // a group of one is left alone, also at mask 0; beside another, mask 0 counts
    let alone = form(0, &[(1, and(a(), 0))]);
    coalesced(&alone, alone.clone());
    let two = form(0, &[(1, and(a(), 3)), (2, and(a(), 0))]);
    coalesced(&two, with(of(two.clone(), 0, &[]), and(a(), 3), 1));
}

#[test]
fn flattened_by_hand() {
    let inverted = form(0, &[(1, not(a()))]);
    let flat = with(of(inverted.clone(), 255, &[]), a(), 255);
    check(Pass::Flatten, &inverted, &flat, 1);
    let xor = form(7, &[(3, binary(XOR, a(), literal(8, 15)))]);
    let pass = with(of(xor.clone(), 52, &[]), and(a(), 240), 3);
    let both = with(pass, and(a(), 15), 253);
    check(Pass::Flatten, &xor, &both, 1);
    let nothing = form(0, &[(1, binary(AND, a(), not(a())))]);
    check(Pass::Flatten, &nothing, &of(nothing.clone(), 0, &[]), 1);
    let shifted = form(0, &[(1, unary(SHR, 0, a()))]);
    check(Pass::Flatten, &shifted, &shifted, 0);
}

#[test]
fn columns_by_hand() {
    let form = form(0, &[(1, and(a(), 15))]);
    let answer = columns::answer(&form.bytes(), columns::RESULT_WORDS);
    assert_eq!([answer.refusal, answer.classes], [0, 2]);
    assert_eq!(answer.out[..5], [15, 2, 240, 0, 0]);
    assert!(pass_checks::hold(&form, &answer, &[0x5A]));
    let mut wrong = answer.clone();
    wrong.out[1] = 1;
    assert!(!pass_checks::hold(&form, &wrong, &[0x5A]));
}

/// Every accepted answer is a valid form of the same value, and columns tell the bits of values.
#[test]
fn values_are_kept() {
    let rng = &mut Prng::new(SEED);
    let vars: Vec<u64> = (0..256).map(|_| rng.word()).collect();
    for family in &FAMILIES {
        for case in (family.make)(rng, family.compared / 100) {
            let Ok(form) = form_model::read(&case.file) else {
                continue;
            };
            for pass in PASSES {
                let answer = pass::answer(pass, &case.file, case.bytes());
                let kept = || pass_checks::keeps_value(&form, &answer, &vars);
                assert!(answer.refusal != 0 || kept(), "{pass:?}, {form:?}");
            }
            let answer = columns::answer(&case.file, case.words());
            let told = || pass_checks::hold(&form, &answer, &vars);
            assert!(answer.refusal != 0 || told(), "{form:?}");
        }
    }
}

/// Without any one of partings 1 to 3, or without difference 9, a worked example has another answer.
#[test]
fn partings_are_needed() {
    let terms = [(1, and(b(), 15)), (1, and(like_b(), 240))];
    let three = [(1, and(a(), 252)), (255, and(a(), 3)), (255, and(a(), 0))];
    let shifted = unary(SHR, 1, not(literal(8, 3)));
    let masks = [(1, binary(AND, a(), shifted)), (1, and(a(), 1))];
    let twice = [(1, and(and(a(), 60), 15)), (1, and(a(), 3))];
    for (number, pass, form) in [
        (1, Pass::Refine, form(0, &terms)),
        (2, Pass::Recover, form(0, &three)),
        (3, Pass::Refine, form(0, &masks)),
        (9, Pass::Refine, form(0, &twice)),
    ] {
        let wanted = pass::parted(pass, &form, ALL);
        assert!(pass::parted(pass, &form, ALL & !(1 << number)) != wanted);
        assert_eq!(pass_checks::needed(pass, &form, &wanted), Some(1 << number));
    }
}

#[test]
fn terms_are_put_in_order() {
    let mut mixed = of(form(0, &[(0, a()), (0, b()), (0, not(a()))]), 0, &[]);
    let terms = [(2, 7), (1, 200), (0, 1), (1, 56), (0, 2)];
    mixed = of(mixed, 0, &terms);
    mixed.settle();
    assert_eq!(mixed, of(mixed.clone(), 0, &[(0, 3), (2, 7)]));
}
