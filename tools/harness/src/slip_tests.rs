//! Worked examples that each exclude one slip, with answers written by hand from the published Rust
//! and document 01's partings, and held to the build with the partings. The same table is computed
//! on the definitions (crates/claims/specs: Slips.antt, Wide.antt, OnBytes.antt).

use crate::columns;
use crate::form::{Form, HEAD_BYTE, RESULT_BYTES};
use crate::list::{self, Case};
use crate::normal_model;
use crate::parted::bridge;
use crate::pass::{self, Pass};
use crate::pass_examples::{a, and, b, not};
use crate::pass_tests::check;
use crate::record::{
    binary, bytes, left_chain, literal, unary, variable, Records, ADD, AND, MUL, NEG, SHR, XOR,
};
use crate::written::written;

/// An atom: its tree, and the coefficient of its term, 0 where it has none.
pub type Row = (Records, u64);

pub fn rows(width: u8, constant: u64, rows: &[Row]) -> Form {
    let mut form = Form::new(width, constant);
    for (tree, coeff) in rows {
        match coeff {
            0 => form.push(HEAD_BYTE, tree.clone()),
            _ => form.push_term(HEAD_BYTE, tree.clone(), *coeff),
        }
    }
    form
}

/// A masked variable a at 8 bits.
fn low(mask: u64, coeff: u64) -> Row {
    (and(a(), mask), coeff)
}

/// The same at w bits.
fn masked(w: u8, mask: u64, coeff: u64) -> Row {
    let tree = binary(AND, variable(w, 0), literal(w, mask));
    (tree, coeff)
}

fn becomes(pass: Pass, before: &[Row], after: &[Row]) {
    check(pass, &rows(8, 0, before), &rows(8, 0, after), 0);
}

#[test]
fn flattened() {
    let nested = |coeff| (and(and(a(), 60), 15), coeff);
    let plain = rows(8, 0, &[nested(1)]);
    check(Pass::Flatten, &plain, &plain, 0);
    let xor = |coeff| (binary(XOR, a(), literal(8, 15)), coeff);
    let after = rows(8, 15, &[xor(0), low(240, 1), low(15, 255)]);
    check(Pass::Flatten, &rows(8, 0, &[xor(1)]), &after, 1);
    for same in [(a(), 1), (not(a()), 0)] {
        let form = rows(8, 0, &[same]);
        check(Pass::Flatten, &form, &form, 0);
    }
}

#[test]
fn recovered() {
    becomes(
        Pass::Recover,
        &[low(15, 3), low(0, 2), low(240, 1)],
        &[low(15, 2), low(0, 2), low(240, 0), (a(), 1)],
    );
}

#[test]
fn coalesced() {
    becomes(
        Pass::Coalesce,
        &[low(1, 2), low(2, 2), low(4, 1), low(0, 1)],
        &[
            low(1, 0),
            low(2, 0),
            low(4, 0),
            low(0, 0),
            low(4, 1),
            low(3, 2),
        ],
    );
    becomes(
        Pass::Coalesce,
        &[low(3, 1), low(0, 2)],
        &[low(3, 0), low(0, 0), low(3, 1)],
    );
    let two = [low(3, 1), low(2, 1)];
    becomes(Pass::Coalesce, &two, &two);
    let both = |mask: u64| (and(binary(XOR, a(), b()), mask), 1);
    let two = [both(15), both(240)];
    becomes(Pass::Coalesce, &two, &two);
}

#[test]
fn refined() {
    let refined = |before: &[Row], after: &[Row]| becomes(Pass::Refine, before, after);
    refined(
        &[low(128, 1), low(64, 5)],
        &[low(128, 0), low(64, 0), low(192, 1)],
    );
    refined(
        &[low(1, 2), low(2, 1), low(4, 1), low(8, 2)],
        &[
            low(1, 0),
            low(2, 0),
            low(4, 0),
            low(8, 0),
            low(6, 1),
            low(9, 2),
        ],
    );
    refined(
        &[low(1, 2), low(8, 2), low(2, 1), low(4, 1)],
        &[
            low(1, 0),
            low(8, 0),
            low(2, 0),
            low(4, 0),
            low(6, 1),
            low(9, 2),
        ],
    );
    refined(
        &[low(4, 3), low(1, 1), low(2, 2)],
        &[low(4, 0), low(1, 0), low(2, 0), low(5, 1), low(6, 2)],
    );
    refined(
        &[low(128, 1), low(1, 3)],
        &[low(128, 0), low(1, 0), low(129, 3)],
    );
    refined(
        &[low(1, 1), low(2, 1), low(4, 1)],
        &[low(1, 0), low(2, 0), low(4, 0), low(3, 0), low(7, 1)],
    );
}

/// The words of the columns, up to the zeros, and the count of classes.
fn told(form: &Form, words: &[u64], classes: u64) {
    let answer = columns::answer(&form.bytes(), columns::RESULT_WORDS);
    assert_eq!([answer.refusal, answer.classes], [0, classes], "{form:?}");
    assert_eq!(&answer.out[..words.len()], words, "{form:?}");
    assert!(answer.out[words.len()..].iter().all(|&word| word == 0));
}

#[test]
fn columns() {
    const OPAQUE: u64 = 0xDEAD << 48;
    let chain = |count| left_chain(AND, count, |i| variable(8, i as u16));
    told(&rows(8, 0, &[(chain(5), 1)]), &[255, 1 << 31, 0], 1);
    told(&rows(8, 0, &[(chain(6), 1)]), &[255, OPAQUE, 0], 1);
    let shifted = |count| (unary(SHR, count, a()), 1);
    told(&rows(8, 0, &[shifted(1)]), &[255, OPAQUE, 0], 1);
    told(&rows(8, 0, &[shifted(0)]), &[255, 2, 0], 1);
    let second = rows(8, 0, &[low(15, 1), shifted(1)]);
    told(&second, &[15, 2, OPAQUE | 1, 240, 0, OPAQUE | 1, 0], 2);
}

const TOP: u64 = u64::MAX;
const HALF: u64 = 1 << 63;
const QUARTER: u64 = 1 << 62;

#[test]
fn normalised_wide() {
    let var = |w| variable(w, 0);
    let minus_one = |w| binary(XOR, var(w), literal(w, TOP));
    let product = |w| binary(MUL, literal(w, HALF), var(w));
    for (tree, wanted) in [
        (
            minus_one(63),
            rows(
                63,
                HALF - 1,
                &[(var(63), 1), masked(63, HALF - 1, HALF - 2)],
            ),
        ),
        (
            minus_one(64),
            rows(64, TOP, &[(var(64), 1), masked(64, TOP, TOP - 1)]),
        ),
        (product(63), rows(63, 0, &[])),
        (product(64), rows(64, 0, &[(var(64), HALF)])),
        (
            binary(ADD, product(64), product(64)),
            rows(64, 0, &[(var(64), 0)]),
        ),
        (unary(NEG, 0, var(63)), rows(63, 0, &[(var(63), HALF - 1)])),
    ] {
        let answer = normal_model::answer(&bytes(&tree), RESULT_BYTES);
        assert_eq!(answer, written(&wanted));
        assert_eq!(bridge::normalized(&tree), Ok(wanted));
    }
}

#[test]
fn passed_wide() {
    let wide = |w, before: &[Row], after: &[Row], pass| {
        check(pass, &rows(w, 0, before), &rows(w, 0, after), 0);
    };
    let bare = |w, coeff| (variable(w, 0), coeff);
    for (w, top, high) in [(63, HALF - 1, QUARTER), (64, TOP, HALF)] {
        let mask = |mask, coeff| masked(w, mask, coeff);
        // refining
        wide(
            w,
            &[mask(3, high)],
            &[mask(3, 0), mask(1, high)],
            Pass::Refine,
        );
        wide(w, &[mask(high, 1)], &[mask(high, top)], Pass::Refine);
        wide(
            w,
            &[mask(5, top), mask(1, top), mask(4, top), mask(2, top)],
            &[
                mask(5, 0),
                mask(1, 0),
                mask(4, 0),
                mask(2, 0),
                mask(5, top),
                mask(7, top),
            ],
            Pass::Refine,
        );
        let halves = [mask(high - 1, 1), mask(high, 1)];
        let none = [mask(high - 1, 0), mask(high, 0)];
        let with = |row: Row| [none[0].clone(), none[1].clone(), row];
        wide(w, &halves, &with(bare(w, 1)), Pass::Refine);
        // coalescing: all places, and coefficients that add to 0
        wide(w, &halves, &with(bare(w, 1)), Pass::Coalesce);
        wide(
            w,
            &[mask(1, high), mask(1, high)],
            &[mask(1, 0), mask(1, 0)],
            Pass::Coalesce,
        );
        // recovering: a difference, and an Xor
        wide(
            w,
            &[mask(15, 3), mask(top - 15, 1)],
            &[mask(15, 2), mask(top - 15, 0), bare(w, 1)],
            Pass::Recover,
        );
        let xor = binary(XOR, literal(w, 15), variable(w, 0));
        let after = [mask(top - 15, 0), mask(15, 0), (xor, 1)];
        let before = rows(w, 0, &[mask(top - 15, 1), mask(15, top)]);
        check(Pass::Recover, &before, &rows(w, top - 14, &after), 0);
        // flattening: all bits inverted, by a literal that is cut at 63 bits
        let xor = |coeff| {
            let tree = binary(XOR, variable(w, 0), literal(w, TOP));
            (tree, coeff)
        };
        let after = rows(w, top - 2, &[xor(0), bare(w, top - 2)]);
        check(Pass::Flatten, &rows(w, 0, &[xor(3)]), &after, 1);
        // columns: the highest place, by a literal with bit 63
        let form = rows(w, 0, &[masked(w, HALF | high, 1)]);
        told(&form, &[high - 1, 0, high, 2, 0], 2);
    }
}

/// Two orders of the same calls, with a refused one between them: unlike forms.
#[test]
fn order_matters() {
    let product = |mask: u64| binary(MUL, literal(8, 128), and(a(), mask));
    let file = bytes(&binary(ADD, product(15), product(240)));
    let before = rows(8, 0, &[low(15, 128), low(240, 128)]);
    let answer = normal_model::answer(&file, RESULT_BYTES);
    assert_eq!(answer, written(&before));
    let xor = (binary(XOR, literal(8, 15), a()), 128);
    let refined = [low(15, 0), low(240, 0), low(1, 128), low(0, 0)];
    let recovered = [low(15, 0), low(240, 0), xor];
    for (first, last, wanted) in [
        (Pass::Refine, Pass::Recover, rows(8, 0, &refined)),
        (Pass::Recover, Pass::Refine, rows(8, 128, &recovered)),
    ] {
        let short = RESULT_BYTES - 1;
        assert_eq!(
            pass::answer(Pass::Compact, &before.bytes(), short).refusal,
            2
        );
        let ran = list::answer(&Case {
            file: file.clone(),
            words: list::words(&[
                (first, RESULT_BYTES),
                (Pass::Compact, short),
                (last, RESULT_BYTES),
            ]),
            sheet: RESULT_BYTES,
            spare: RESULT_BYTES,
        });
        assert!(ran.written.out == written(&wanted).out);
    }
}
