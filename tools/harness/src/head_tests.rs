//! Byte 1 of heads: 0 to 4 are read alike, 4 is written, and other bytes are refused by 10.

use crate::cases::SEED;
use crate::columns::{self, Columns, RESULT_WORDS};
use crate::entry;
use crate::form::{Form, ATOM, HEAD_BYTE, RESULT_BYTES};
use crate::form_model;
use crate::model::Answer;
use crate::parted::bridge;
use crate::pass::{self, Pass, PASSES};
use crate::pass_cases::FAMILIES;
use crate::pass_examples::{a, and, b, each_head, form, not};
use crate::prng::Prng;
use crate::record::{binary, bytes, literal, split, unary, ADD, OR, RECORD_BYTES, SHR, XOR};
use crate::written::Written;

/// The bytes at the places of byte 1 of the heads in the bytes of a form.
fn head_bytes(form: &[u8]) -> Vec<u16> {
    let records = split(form);
    let heads = records.iter().filter(|record| record.kind == ATOM);
    heads.map(|head| head.arg).collect()
}

/// The refusals of the five passes and, last, of the columns.
fn refusals(bytes: &[u8]) -> [u64; 6] {
    let mut all = [columns::answer(bytes, RESULT_WORDS).refusal; 6];
    for (refusal, pass) in all.iter_mut().zip(PASSES) {
        *refusal = pass::answer(pass, bytes, RESULT_BYTES).refusal;
    }
    all
}

/// The value, the columns, and what each pass gives.
fn answers(bytes: &[u8], vars: &[u64]) -> (Answer, Columns, [Written; 5]) {
    let passed = PASSES.map(|pass| pass::answer(pass, bytes, RESULT_BYTES));
    let columns = columns::answer(bytes, RESULT_WORDS);
    (form_model::answer(bytes, vars), columns, passed)
}

/// Bytes 0 to 4 of one form: the same value, columns and result of every pass, with new heads.
#[test]
fn bytes_are_read_alike() {
    let rng = &mut Prng::new(SEED);
    let vars: Vec<u64> = (0..256).map(|_| rng.word()).collect();
    let (mut heads, mut refused) = (0, 0);
    for family in &FAMILIES {
        for case in (family.make)(rng, family.compared / 500) {
            let Ok(form) = form_model::read(&case.file) else {
                continue;
            };
            let of = |byte| form.clone().with_heads(byte).bytes();
            let wanted = answers(&of(HEAD_BYTE), &vars);
            for old in (0..=4).map(of) {
                assert!(answers(&old, &vars) == wanted, "{form:?}");
                assert!(entry::compact_answer(&old, RESULT_BYTES) == wanted.2[4]);
            }
            for answer in wanted.2 {
                let bytes = head_bytes(answer.form());
                assert!(bytes.iter().all(|byte| *byte == 4), "{form:?}");
                heads += bytes.len();
                refused += usize::from(answer.refusal != 0);
            }
        }
    }
    assert!(heads > 0 && refused > 0);
}

/// Every pass changes the worked example with each byte in more than its heads.
#[test]
fn passes_change_the_example() {
    for before in each_head() {
        let new = before.clone().with_heads(HEAD_BYTE).bytes();
        for pass in PASSES {
            let answer = pass::answer(pass, &before.bytes(), RESULT_BYTES);
            assert_eq!(answer.refusal, 0);
            assert!(answer.form() != new, "{pass:?}");
        }
    }
}

/// Without unused atoms, compaction changes byte 1 of the heads and nothing else.
#[test]
fn compaction_renews_heads() {
    let terms = [(3, and(a(), 15)), (5, not(b())), (7, binary(XOR, a(), b()))];
    let before = form(1, &terms).with_heads(0).bytes();
    for answer in [
        form_model::compact(&before, RESULT_BYTES),
        pass::answer(Pass::Compact, &before, RESULT_BYTES),
    ] {
        assert_eq!(answer.numbers(), [0, before.len() as u64, 3, 0]);
        let differs = |at: &usize| answer.out[*at] != before[*at];
        let changed: Vec<usize> = (0..before.len()).filter(differs).collect();
        let heads = [0, 4, 7].map(|record| record * RECORD_BYTES + 1);
        assert_eq!(changed, heads);
        assert!(changed.iter().all(|at| answer.out[*at] == 4));
    }
}

/// Over every tree 0 to 4 are accepted, also 3 where it is no Not; every other byte is refused.
#[test]
fn bytes_that_are_refused() {
    let trees = [
        a(),
        not(a()),
        and(a(), 15),
        binary(OR, a(), b()),
        binary(XOR, a(), b()),
        unary(SHR, 1, a()),
    ];
    for tree in trees {
        let form = form(0, &[(1, tree.clone()), (2, b())]);
        for byte in 0..=255 {
            let mut first = form.clone();
            first.atoms[0].head_byte = byte;
            let mut last = form.clone();
            last.atoms[1].head_byte = byte;
            let refusal = if byte <= 4 { 0 } else { 10 };
            for bytes in [first.bytes(), last.bytes()] {
                assert_eq!(refusals(&bytes), [refusal; 6], "{tree:?}, {byte}");
                assert_eq!(form_model::answer(&bytes, &[1]).refusal, refusal);
                assert_eq!(form_model::compact(&bytes, RESULT_BYTES).refusal, refusal);
            }
        }
    }
}

/// Normalising `a ^ 15` and `~a + b`: new heads, whatever the trees, from model and Rust.
#[test]
fn normalising_writes_new_heads() {
    let xor = binary(XOR, a(), literal(8, 15));
    let answer = entry::normalize_answer(&bytes(&xor), RESULT_BYTES);
    assert_eq!(answer.numbers(), [0, 144, 2, 0]);
    assert_eq!(answer.out[..8], [33, 4, 1, 0, 8, 0, 0, 0]);
    assert_eq!(answer.out[32..40], [33, 4, 3, 0, 8, 0, 0, 0]);
    let sum = binary(ADD, not(a()), b());
    let answer = entry::normalize_answer(&bytes(&sum), RESULT_BYTES);
    assert_eq!(head_bytes(answer.form()), [4, 4]);
    let made: Form = bridge::normalized(&sum).expect("a form");
    assert!(made.atoms.iter().all(|atom| atom.head_byte == 4));
}
