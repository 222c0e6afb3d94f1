//! Masks upon masks: the split of an atom beside a model of its own, answers written by hand, and what
//! the published Rust gives instead. The table is computed on the definitions too
//! (crates/claims/specs/Masks.antt).

use crate::bridge;
use crate::cases::SEED;
use crate::form::{Form, HEAD_BYTE, MAX_TREE_RECORDS, RESULT_BYTES};
use crate::form_model;
use crate::list;
use crate::model;
use crate::numbers;
use crate::parted;
use crate::pass::{self, Pass, ALL, PASSES};
use crate::pass_checks;
use crate::pass_examples::{a, and, b, like_shifted, not, shifted_mask};
use crate::pass_tests::check;
use crate::prng::Prng;
use crate::record::{binary, literal, unary, Record, Records, AND, SHR, VARIABLE, XOR};
use crate::slip_tests::{self, Row};
use crate::sorted;
use crate::stacked_cases::{chain, doubling, worked, FORMS, LISTS};

const ROUNDS: usize = 2_000;

/// Difference 9, as a set of one.
const JOINED: u16 = 1 << 9;

/// A form at 8 bits.
fn rows(constant: u64, rows: &[Row]) -> Form {
    slip_tests::rows(8, constant, rows)
}

fn twice(tree: Records, m: u64, n: u64) -> Records {
    and(and(tree, m), n)
}

/// a & m, and (a & m) & n, with a coefficient.
fn low(mask: u64, coeff: u64) -> Row {
    (and(a(), mask), coeff)
}

fn nested(m: u64, n: u64, coeff: u64) -> Row {
    (twice(a(), m, n), coeff)
}

/// The request's examples, and others of each pass.
#[test]
fn by_hand() {
    let becomes = |pass: Pass, before: &[Row], after: &[Row]| {
        check(pass, &rows(0, before), &rows(0, after), 0);
    };
    let both = [Pass::Refine, Pass::Coalesce];
    let on_left = |coeff| {
        let inner = binary(AND, literal(8, 60), a());
        (binary(AND, literal(8, 15), inner), coeff)
    };
    for pass in both {
        for tree in [|coeff| nested(60, 15, coeff), on_left] {
            becomes(
                pass,
                &[tree(1), low(3, 1)],
                &[tree(0), low(3, 0), low(15, 1)],
            );
        }
    }
    becomes(Pass::Refine, &[nested(48, 15, 1)], &[nested(48, 15, 0)]);
    becomes(
        Pass::Refine,
        &[nested(60, 255, 16)],
        &[nested(60, 255, 0), low(12, 16)],
    );
    // an uncut mask makes no new atom, whatever the masks below it
    for pass in PASSES {
        for row in [nested(60, 15, 1), nested(12, 255, 16), on_left(3)] {
            becomes(pass, std::slice::from_ref(&row), std::slice::from_ref(&row));
        }
    }
    // the split stops where both sides have variables
    for basis in [binary(XOR, a(), b()), binary(AND, a(), b())] {
        let masked = |mask, coeff| (and(basis.clone(), mask), coeff);
        let stacked = |coeff| (twice(basis.clone(), 60, 15), coeff);
        becomes(
            Pass::Refine,
            &[stacked(1), masked(3, 1)],
            &[stacked(0), masked(3, 0), masked(15, 1)],
        );
    }
    let written = |coeff| {
        let halved = unary(SHR, 1, not(literal(8, 3)));
        (and(binary(AND, a(), halved), 255), coeff)
    };
    becomes(
        Pass::Refine,
        &[written(1), low(1, 1)],
        &[written(0), low(1, 0), low(127, 1)],
    );
    let complements = rows(0, &[nested(63, 15, 1), low(240, 255)]);
    let xor = (binary(XOR, literal(8, 15), a()), 255);
    let found = rows(15, &[nested(63, 15, 0), low(240, 0), xor]);
    check(Pass::Recover, &complements, &found, 0);
    let apart = [nested(60, 15, 1), nested(60, 240, 255)];
    for pass in PASSES {
        becomes(pass, &apart, &apart);
    }
    becomes(Pass::Flatten, &[nested(48, 15, 1)], &[nested(48, 15, 1)]);
    let inverted = |coeff| (twice(not(a()), 60, 15), coeff);
    let flat = rows(12, &[inverted(0), low(12, 255)]);
    check(Pass::Flatten, &rows(0, &[inverted(1)]), &flat, 1);
}

/// What the published Rust gives on the inputs that are not shortened, and on the request's own.
#[test]
fn by_the_rust() {
    let gives = |pass: Pass, before: &[Row], after: Form| {
        for passed in [bridge::passed, sorted::bridge::passed] {
            let mut found = passed(pass, &rows(0, before)).form;
            found.settle();
            assert_eq!(found, after.clone().with_heads(HEAD_BYTE), "{pass:?}");
        }
    };
    let alone = [nested(60, 15, 1)];
    gives(
        Pass::Flatten,
        &alone,
        rows(0, &[nested(60, 15, 0), low(12, 1)]),
    );
    let nothing = [nested(48, 15, 1)];
    gives(Pass::Flatten, &nothing, rows(0, &[nested(48, 15, 0)]));
    gives(Pass::Refine, &nothing, rows(0, &nothing));
    let opposite = [nested(60, 15, 1), nested(60, 240, 255)];
    let xor = (binary(XOR, literal(8, 15), and(a(), 60)), 255);
    let recovered = [nested(60, 15, 0), nested(60, 240, 0), xor];
    gives(Pass::Recover, &opposite, rows(15, &recovered));
    let beside = [nested(60, 15, 1), low(3, 1)];
    for pass in [Pass::Refine, Pass::Coalesce] {
        gives(pass, &beside, rows(0, &beside));
    }
}

/// Difference 1 in the search for a bare atom: the Rust takes one of the same hash, and loses the value.
#[test]
fn bare_by_hash_alone() {
    let masked = |mask, coeff| (and(shifted_mask(), mask), coeff);
    let form = rows(0, &[(like_shifted(), 1), masked(15, 1), masked(240, 2)]);
    let vars = [8, 0];
    assert_eq!(form_model::value(&form, &vars), 4);
    let kept = pass::answer(Pass::Recover, &form.bytes(), RESULT_BYTES);
    assert_eq!(form_model::answer(kept.form(), &vars).value, 4);
    let lost = sorted::bridge::passed(Pass::Recover, &form).form;
    assert_eq!(form_model::value(&lost, &vars), 252);
}

/// The number of the first record of the tree that ends before `end`.
fn first(tree: &[Record], end: usize) -> usize {
    end - usize::from(tree[end - 1].size)
}

fn has_variable(tree: &[Record]) -> bool {
    tree.iter().any(|record| record.kind == VARIABLE)
}

/// Basis and mask of an atom, from the request's words: a loop over the records.
fn split(tree: &[Record]) -> Option<(Records, u64)> {
    let top = u64::MAX >> (64 - tree[0].width);
    let (mut start, mut end, mut mask) = (0, tree.len(), top);
    let mut steps = 0;
    while tree[end - 1].kind == AND {
        let cut = first(tree, end - 1);
        let (left, right) = (&tree[start..cut], &tree[cut..end - 1]);
        match (has_variable(left), has_variable(right)) {
            (true, false) => {
                mask &= model::value(right, &[]);
                end = cut;
            }
            (false, true) => {
                mask &= model::value(left, &[]);
                (start, end) = (cut, end - 1);
            }
            _ => break,
        }
        steps += 1;
    }
    let basis = tree[start..end].to_vec();
    (steps > 0 || basis[0].kind == VARIABLE && basis.len() == 1).then_some((basis, mask))
}

/// The build with the differences splits as the model does, and the model's basis is never an And with
/// one variable-free side.
#[test]
fn split_as_the_model() {
    let rng = &mut Prng::new(SEED);
    let mut deep = 0;
    for family in &FORMS {
        for case in (family.make)(rng, ROUNDS.min(family.compared)) {
            let form = form_model::read(&case.file).expect("a valid form");
            for atom in &form.atoms {
                let wanted = split(&atom.tree);
                assert_eq!(parted::bridge::split(&atom.tree), wanted);
                let one_step = bridge::split(&atom.tree);
                assert_eq!(sorted::bridge::split(&atom.tree), one_step);
                deep += usize::from(one_step != wanted);
                if let Some((basis, _)) = wanted {
                    let again = split(&basis);
                    assert!(again.is_none() || basis.len() == 1);
                }
            }
        }
    }
    assert!(deep > ROUNDS);
}

/// The same chains on the left, on the right and by turns have one split, and so have masks that are
/// each as long as what they stand over.
#[test]
fn chains() {
    for count in [1, 2, 100, 1_535] {
        let mask = |i: usize| literal(8, !(1 << (i % 7)));
        let wanted = (0..count).fold(255, |all, i| all & !(1 << (i % 7)));
        for side in 0..3 {
            let tree = chain(a(), count, |i| [false, true, i % 2 == 0][side], mask);
            assert_eq!(tree.len(), 2 * count + 1);
            assert_eq!(parted::bridge::split(&tree), Some((a(), wanted & 255)));
        }
    }
    let tree = doubling(8, MAX_TREE_RECORDS);
    assert_eq!(tree.len(), 2_047);
    assert_eq!(parted::bridge::split(&tree), split(&tree));
    assert_eq!(split(&tree).map(|(basis, _)| basis), Some(a()));
}

/// Let go, difference 9 leaves the answers of the Rust with sorted maps and the partings; held, many
/// answers need it, and every pass but compaction has some.
#[test]
fn difference_9_alone() {
    let mut needed = [0; PASSES.len()];
    for form in worked() {
        for (number, pass) in PASSES.into_iter().enumerate() {
            let with = pass::parted(pass, &form, ALL);
            let without = pass::parted(pass, &form, ALL & !JOINED);
            assert_eq!(
                pass::settled(sorted::bridge::passed(pass, &form)),
                pass::parted(pass, &form, 0)
            );
            needed[number] += usize::from(with != without);
        }
    }
    let (last, others) = needed.split_last().expect("five passes");
    assert!(
        *last == 0 && others.iter().all(|count| *count >= 5),
        "{needed:?}"
    );
}

/// Values are kept by each pass, and by lists of passes.
#[test]
fn values_are_kept() {
    let rng = &mut Prng::new(SEED);
    for family in &FORMS {
        for case in (family.make)(rng, ROUNDS.min(family.compared)) {
            let form = form_model::read(&case.file).expect("a valid form");
            let vars = numbers::words(rng, &case.file);
            for pass in PASSES {
                let answer = pass::answer(pass, &case.file, RESULT_BYTES);
                let kept = || pass_checks::keeps_value(&form, &answer, &vars);
                assert!(answer.refusal != 0 || kept(), "{pass:?}, {form:?}");
            }
        }
    }
    for family in &LISTS {
        for case in (family.make)(rng, ROUNDS) {
            let ran = list::answer(&case);
            if ran.written.refusal == 0 {
                let vars = numbers::words(rng, &case.file);
                let wanted = model::answer(&case.file, &vars);
                assert_eq!(form_model::answer(ran.written.form(), &vars), wanted);
            }
        }
    }
}
