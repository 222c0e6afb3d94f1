//! Tests of the harness itself: the models beside document 01's examples and beside those parts of
//! the published Rust that evaluate expressions, make forms or compact them, and the vector file
//! read back.

use crate::cases::{self, SEED};
use crate::collide;
use crate::core::expr_utils::collect_vars;
use crate::entry;
use crate::form::{Form, HEAD_BYTE, MAX_ATOMS, MAX_TREE_RECORDS, RESULT_BYTES};
use crate::form_model;
use crate::form_random;
use crate::ir::semilinear::compute_atom_truth_table;
use crate::ir::semilinear_normalizer::normalize_to_semilinear;
use crate::model::{answer, refusal};
use crate::normal_model;
use crate::prng::Prng;
use crate::published;
use crate::random::{expression, width, Kinds};
use crate::record::{
    arity, balanced, binary, bytes, left_chain, literal, smallest, unary, variable, Record,
    Records, ADD, AND, CONSTANT, MUL, NEG, NOT, OR, SHR, TRUNC, VARIABLE, XOR,
};
use crate::written::Written;

const ROUNDS: usize = 20_000;

/// The examples in the table of refusals.
#[test]
fn refusals_of_the_document() {
    assert_eq!(refusal(&[0; 15]), 1);
    assert_eq!(refusal(&bytes(&[Record::new(ADD, 0, 1, 8, 0)])), 3);
    assert_eq!(refusal(&bytes(&literal(65, 0))), 4);
    assert_eq!(refusal(&bytes(&unary(TRUNC, 8, variable(8, 0)))), 5);
    assert_eq!(refusal(&bytes(&unary(SHR, 64, variable(8, 0)))), 6);
    assert_eq!(refusal(&bytes(&smallest(ADD, 0, 8))), 0);
}

/// Bitwise expressions under assignments of 0 and 1: `compute_atom_truth_table` evaluates them.
#[test]
fn bitwise_values_of_the_rust() {
    let rng = &mut Prng::new(SEED);
    let mut compared = 0;
    for _ in 0..ROUNDS {
        let w = width(rng);
        let count = 1 + rng.below(12);
        let records = without_sums(expression(rng, count, w, Kinds::Accepted));
        let tree = published::expr(&records);
        let mut support = Vec::new();
        collect_vars(&tree, &mut support);
        support.sort_unstable();
        support.dedup();
        let table = compute_atom_truth_table(&tree, &support, u32::from(w));
        for (row, &expected) in table.iter().enumerate() {
            let mut vars = vec![0; 256];
            for (j, &number) in support.iter().enumerate() {
                vars[number as usize] = (row >> j & 1) as u64;
            }
            assert_eq!(answer(&bytes(&records), &vars).value, expected);
            compared += 1;
        }
    }
    assert!(compared > ROUNDS);
}

/// The same shape with And for Add and Mul, and Not for Neg.
fn without_sums(mut records: Records) -> Records {
    for record in &mut records {
        match record.kind {
            ADD | MUL => record.kind = AND,
            NEG => record.kind = NOT,
            _ => {}
        }
    }
    records
}

/// Expressions of literals: the normaliser evaluates them. Add, Mul or Neg below a bitwise operator
/// is left out, since the Rust reads it as 0 there.
#[test]
fn constant_values_of_the_rust() {
    let rng = &mut Prng::new(SEED);
    let mut compared = 0;
    for _ in 0..ROUNDS {
        let w = width(rng);
        let count = 1 + rng.below(12);
        let mut records = expression(rng, count, w, Kinds::Accepted);
        for record in &mut records {
            if record.kind == VARIABLE {
                *record = Record::new(CONSTANT, 0, 1, w, rng.word());
            }
        }
        if sums_below_bitwise(&records) {
            continue;
        }
        let form = normalize_to_semilinear(&published::expr(&records), &[], u32::from(w));
        let form = form.expect("no variable, so no product of variables");
        assert_eq!(answer(&bytes(&records), &[]).value, form.constant);
        assert!(form.terms.is_empty());
        compared += 1;
    }
    assert!(compared > ROUNDS / 4);
}

/// Whether an Add, Mul or Neg stands below an And, Or, Xor or Not.
fn sums_below_bitwise(records: &[Record]) -> bool {
    let is_sum = |r: &Record| matches!(r.kind, ADD | MUL | NEG);
    let is_bitwise = |r: &Record| arity(r.kind) > 0 && r.kind != SHR && !is_sum(r);
    records.iter().enumerate().any(|(at, record)| {
        let below = &records[at + 1 - usize::from(record.size)..at];
        is_bitwise(record) && below.iter().any(is_sum)
    })
}

/// The examples of refusals of forms, in the table and in "The sheet".
#[test]
fn form_refusals_of_the_document() {
    let mut form = Form::new(8, 5);
    assert_eq!(form_model::compact(&[0; 15], RESULT_BYTES).refusal, 1);
    assert_eq!(form_model::compact(&form.bytes(), 57_359).refusal, 2);
    assert_eq!(form_model::read(&form.bytes()), Ok(form.clone()));
    form.push_term(HEAD_BYTE, variable(8, 0), 0);
    assert_eq!(form_model::read(&form.bytes()), Err(10));
    let mut whole = Form::new(8, 5).bytes();
    whole.resize(RESULT_BYTES, 0);
    assert_eq!(form_model::read(&whole), Err(10));
    let full = form_random::full(&mut Prng::new(SEED), 64);
    let size: usize = full.atoms.iter().map(|atom| atom.tree.len()).sum();
    assert_eq!((full.atoms.len(), size), (MAX_ATOMS, MAX_TREE_RECORDS));
    assert_eq!(full.bytes().len(), RESULT_BYTES);
    assert_eq!(form_model::read(&full.bytes()), Ok(full));
}

/// The starred puzzles of document 01 that normalising alone answers with one or two terms.
#[test]
fn normalised_forms_of_the_document() {
    let (a, b) = (variable(8, 0), variable(8, 1));
    let xor = published::normalized(&binary(XOR, a.clone(), literal(8, 15)));
    let mut wanted = Form::new(8, 15);
    wanted.push_term(HEAD_BYTE, a.clone(), 1);
    wanted.push_term(HEAD_BYTE, binary(AND, a.clone(), literal(8, 15)), 254);
    assert_eq!(xor, Ok(wanted));
    let both = |l: &Records, r: &Records| binary(AND, l.clone(), r.clone());
    let sum = published::normalized(&binary(ADD, both(&a, &b), both(&b, &a)));
    let mut wanted = Form::new(8, 0);
    wanted.push_term(HEAD_BYTE, both(&a, &b), 2);
    assert_eq!(sum, Ok(wanted));
    assert_eq!(published::normalized(&binary(MUL, a, b)), Err(8));
}

/// What the normaliser of the Rust makes is a valid form, of the value that the expression has, and
/// both compact it alike. Add, Mul or Neg below a bitwise operator is left out, as above.
#[test]
fn normalised_forms_of_the_rust() {
    let rng = &mut Prng::new(SEED);
    let (mut compared, mut shorter) = (0, 0);
    for _ in 0..ROUNDS {
        let w = width(rng);
        let count = 1 + rng.below(24);
        let records = expression(rng, count, w, Kinds::Accepted);
        if sums_below_bitwise(&records) {
            continue;
        }
        let Ok(form) = published::normalized(&records) else {
            continue;
        };
        let written = entry::compact_answer(&form.bytes(), RESULT_BYTES);
        assert_eq!(written.refusal, 0);
        let used = &written.out[..written.used as usize];
        let vars: Vec<u64> = (0..256).map(|_| rng.word()).collect();
        let expected = answer(&bytes(&records), &vars);
        assert_eq!(form_model::answer(&form.bytes(), &vars), expected);
        assert_eq!(form_model::answer(used, &vars), expected);
        compared += 1;
        shorter += usize::from(used.len() < form.bytes().len());
    }
    assert!(compared > ROUNDS / 8 && shorter > 0);
}

/// The constant and the terms of a form as document 01 writes them.
pub fn terms_text(file: &[u8]) -> String {
    written_text(&normal_model::answer(file, RESULT_BYTES))
}

/// The same of an answer.
pub fn written_text(written: &Written) -> String {
    if written.refusal != 0 {
        return format!("refusal {}", written.refusal);
    }
    let form = form_model::read(written.form()).expect("a valid form");
    let mut text = form.constant.to_string();
    for term in &form.terms {
        let tree = published::text(&form.atoms[usize::from(term.atom)].tree);
        text += &format!(", {}·({tree})", term.coeff);
    }
    text
}

/// The starred puzzles of document 01 about normalising, `3 & (1 + 2)` as the customer's request #104 has
/// it, and the examples of refusals 2, 8 and 9.
#[test]
fn normalising_of_the_document() {
    let (a, b) = (|| variable(8, 0), || variable(8, 1));
    let n = |value: u64| literal(8, value);
    let not = |x: Records| unary(NOT, 0, x);
    let product = || binary(MUL, a(), b());
    let both = |l: Records, r: Records| binary(AND, l, r);
    let sum_of_all = balanced(ADD, 0, 256, &|i| variable(8, i as u16));
    let puzzles = [
        (n(5), "5"),
        (binary(XOR, a(), n(15)), "15, 1·(v0), 254·(v0 & 15)"),
        (binary(OR, a(), n(15)), "15, 1·(v0), 255·(v0 & 15)"),
        (both(not(a()), n(15)), "15, 255·(v0 & 15)"),
        (binary(MUL, n(0), product()), "0"),
        (product(), "refusal 8"),
        (binary(XOR, a(), unary(NEG, 0, n(1))), "refusal 8"),
        (both(n(3), binary(ADD, n(1), n(2))), "3"),
        (
            binary(ADD, both(a(), b()), both(b(), a())),
            "0, 2·(v0 & v1)",
        ),
        (binary(XOR, variable(1, 0), literal(1, 1)), "1, 1·(v0)"),
        (both(not(not(a())), n(15)), "15, 255·(~v0 & 15)"),
        (binary(ADD, not(not(a())), a()), "0, 2·(~~v0)"),
        (
            binary(ADD, sum_of_all.clone(), unary(SHR, 1, a())),
            "refusal 9",
        ),
        (
            binary(ADD, binary(ADD, sum_of_all, unary(SHR, 1, a())), product()),
            "refusal 8",
        ),
    ];
    for (tree, wanted) in puzzles {
        assert_eq!(terms_text(&bytes(&tree)), wanted);
    }
    let short = normal_model::answer(&bytes(&n(5)), 57_359);
    assert_eq!((short.refusal, short.out), (2, vec![0; 57_359]));
}

/// A literal gives a tree any hash; with one hash and the same variables the newest atom decides.
#[test]
fn atoms_of_one_hash() {
    let (a, b) = (|| variable(8, 0), || variable(8, 1));
    let first = binary(AND, binary(AND, a(), b()), literal(8, 7));
    let second = binary(AND, binary(AND, b(), a()), literal(8, 0));
    let second = collide::with_hash(second, published::hash(&first));
    assert_eq!(second[3].literal, 12_854_858_925_997_745_560);
    assert_eq!(published::hash(&second), published::hash(&first));
    let sum = |list: [&Records; 3]| {
        let tree = left_chain(ADD, 3, |i| list[i].clone());
        let written = entry::normalize_answer(&bytes(&tree), RESULT_BYTES);
        written.terms
    };
    assert_eq!(sum([&first, &second, &first]), 3);
    assert_eq!(sum([&first, &second, &second]), 2);
}

#[test]
fn vector_file_reads_back() {
    let entries = cases::entries();
    let file = entry::write(&entries);
    assert_eq!(entry::read(&file), Ok(entries));
    assert!(entry::read(&file[..file.len() - 16]).is_err());
}
