//! The model of the judge on the verdicts by hand, on forms, and beside all assignments by an
//! evaluator of its own.

use crate::cases::SEED;
use crate::form::Form;
use crate::judge_cases::{by_hand, FAMILIES};
use crate::judge_forms;
use crate::judge_forms_random;
use crate::judge_model::{answer, of_forms, Verdict};
use crate::judge_random;
use crate::normal_model;
use crate::prng::Prng;
use crate::record::{
    arity, binary, bytes, literal, split, unary, variable, Record, Records, ADD, AND, CONSTANT,
    MUL, NEG, NOT, OR, SHR, VARIABLE, XOR,
};
use crate::refusal::{OF_JUDGE, OF_JUDGE_FORMS};

const ROUNDS: usize = 3_000;

#[test]
fn verdicts_by_hand() {
    for (number, (pair, wanted)) in by_hand().into_iter().enumerate() {
        assert_eq!(answer(&pair.left, &pair.right), wanted, "pair {number}");
    }
}

/// The value by recursion from the root, on words: `word` gives that of a variable.
fn value(tree: &[Record], word: &dyn Fn(u16) -> u64) -> u64 {
    let root = tree[tree.len() - 1];
    let below = &tree[..tree.len() - 1];
    let top = u64::MAX >> (64 - root.width);
    if arity(root.kind) == 0 {
        return top
            & if root.kind == VARIABLE {
                word(root.arg)
            } else {
                root.literal
            };
    }
    let second = usize::from(below[below.len() - 1].size);
    let (first, second) = below.split_at(below.len() - second);
    let (x, y) = match first.is_empty() {
        true => (0, value(second, word)),
        false => (value(first, word), value(second, word)),
    };
    top & match root.kind {
        ADD => x.wrapping_add(y),
        MUL => x.wrapping_mul(y),
        AND => x & y,
        OR => x | y,
        XOR => x ^ y,
        NOT => !y,
        NEG => y.wrapping_neg(),
        _ => y >> root.arg,
    }
}

fn variables(left: &[Record], right: &[Record]) -> Vec<u16> {
    let records = left.iter().chain(right);
    let mut numbers: Vec<u16> = records
        .filter(|record| record.kind == VARIABLE)
        .map(|record| record.arg)
        .collect();
    numbers.sort_unstable();
    numbers.dedup();
    numbers
}

/// On small pairs: equal exactly when no assignment tells them apart, and the first of one place
/// that does so is the one that is given.
#[test]
fn all_assignments() {
    let rng = &mut Prng::new(SEED + 102);
    let mut seen = [0; 2];
    for pair in judge_random::small(rng, ROUNDS) {
        let verdict = answer(&pair.left, &pair.right);
        if verdict.refusal != 0 {
            continue;
        }
        seen[verdict.equal as usize] += 1;
        let (left, right) = (split(&pair.left), split(&pair.right));
        let numbers = variables(&left, &right);
        let w = usize::from(left[0].width);
        let place_of = |v: u16| numbers.iter().position(|&n| n == v).expect("a variable");
        let differ = |word: &dyn Fn(u16) -> u64| value(&left, word) != value(&right, word);
        let some =
            (0..1u64 << (w * numbers.len())).any(|all| differ(&|v| all >> (w * place_of(v))));
        assert_eq!(some, verdict.equal == 0);
        let first = (0..w as u64)
            .flat_map(|place| (0..1u64 << numbers.len()).map(move |index| (place, index)))
            .find(|&(place, index)| differ(&|v| (index >> place_of(v) & 1) << place));
        let given = (verdict.equal == 0).then_some((verdict.place, verdict.index));
        assert_eq!(first, given);
    }
    assert!(seen.iter().all(|&count| count > ROUNDS / 10), "{seen:?}");
}

/// A shift needs its refusal: the two agree wherever one place alone has bits, and not at a = 3.
#[test]
fn a_shift_is_refused() {
    let a = || variable(8, 0);
    let shifted = binary(AND, a(), unary(SHR, 1, a()));
    assert!((0..8).all(|place| value(&shifted, &|_| 1 << place) == 0));
    assert_eq!(value(&shifted, &|_| 3), 1);
    let verdict = answer(&bytes(&shifted), &bytes(&literal(8, 0)));
    assert_eq!(verdict, Verdict::refused(13));
}

/// Rewritings are equal, whatever their width; damage gives every refusal of a side.
#[test]
fn families() {
    let rng = &mut Prng::new(SEED + 103);
    for pair in judge_random::rewritings(rng, ROUNDS / 10) {
        assert_eq!(answer(&pair.left, &pair.right), Verdict::EQUAL);
    }
    let mut seen = vec![0; OF_JUDGE.len()];
    for family in &FAMILIES {
        for pair in (family.make)(rng, family.stored) {
            let verdict = answer(&pair.left, &pair.right);
            match OF_JUDGE.iter().position(|r| *r == verdict.refusal) {
                Some(at) => {
                    seen[at] += 1;
                    assert_eq!(verdict, Verdict::refused(verdict.refusal));
                }
                None => assert_eq!(verdict.refusal, 0),
            }
        }
    }
    assert!(seen.iter().all(|&count| count > 5), "{seen:?}");
}

/// Two exchanged give the same verdict where they are judged.
#[test]
fn either_order() {
    let rng = &mut Prng::new(SEED + 104);
    for pair in judge_random::one_place(rng, ROUNDS / 10) {
        let verdict = answer(&pair.left, &pair.right);
        assert_eq!(verdict, answer(&pair.right, &pair.left));
    }
}

#[test]
fn forms_by_hand() {
    let all = [judge_forms::by_hand(), judge_forms::largest()].concat();
    for (number, (pair, wanted)) in all.into_iter().enumerate() {
        assert_eq!(of_forms(&pair.left, &pair.right), wanted, "pair {number}");
    }
    let (good, mut bad) = (Form::new(8, 0).bytes(), Form::new(8, 0).bytes());
    bad[5] = 1;
    assert_eq!(of_forms(&bad, &[]), Verdict::refused(10));
    assert_eq!(of_forms(&[], &bad), Verdict::refused(1));
    assert_eq!(of_forms(&good, &bad), Verdict::refused(10));
    assert_eq!(
        of_forms(&Form::new(9, 0).bytes(), &bad),
        Verdict::refused(10)
    );
}

/// Equal, or unlike at the highest place alone.
#[test]
fn forms_at_every_width() {
    for (top, pair) in judge_forms::every_width().into_iter().enumerate() {
        let wanted = match (top + 1) % 5 {
            1 | 4 => Verdict::unlike(top as u64, 1),
            _ => Verdict::EQUAL,
        };
        assert_eq!(
            of_forms(&pair.left, &pair.right),
            wanted,
            "width {}",
            top + 1
        );
    }
}

/// What a pass makes of a form is equal to it, and so is the sum that one atom is lowered to.
#[test]
fn forms_of_passes() {
    let rng = &mut Prng::new(SEED + 106);
    let mut made = judge_forms_random::passed(rng, ROUNDS / 10);
    made.extend(judge_forms_random::one_atom(rng, ROUNDS / 10));
    for pair in made {
        assert_ne!(pair.left, pair.right);
        assert_eq!(of_forms(&pair.left, &pair.right), Verdict::EQUAL);
    }
}

/// The families of forms have every outcome.
#[test]
fn families_of_forms() {
    let mut seen = vec![0; 2 + OF_JUDGE_FORMS.len()];
    for pair in judge_forms::stored(&mut Prng::new(SEED + 107)) {
        let verdict = of_forms(&pair.left, &pair.right);
        let refused = OF_JUDGE_FORMS.iter().position(|r| *r == verdict.refusal);
        seen[refused.map_or(verdict.equal as usize, |at| 2 + at)] += 1;
    }
    assert!(seen.iter().all(|&count| count > 5), "{seen:?}");
}

/// What two expressions are judged as, their normalised forms are too. The variables of an
/// expression that its form has lost may change the index alone.
#[test]
fn forms_of_expressions() {
    let rng = &mut Prng::new(SEED + 105);
    let mut made = judge_random::rewritings(rng, ROUNDS / 10);
    made.extend(judge_random::one_place(rng, ROUNDS / 10));
    let mut seen = [0; 2];
    for pair in made {
        let verdict = answer(&pair.left, &pair.right);
        if verdict.refusal != 0 {
            continue;
        }
        let [left, right] = [&pair.left, &pair.right]
            .map(|file| normal_model::form(&split(file)).expect("an accepted expression"));
        let of_forms = of_forms(&left.bytes(), &right.bytes());
        assert_eq!(
            (of_forms.equal, of_forms.place),
            (verdict.equal, verdict.place)
        );
        seen[verdict.equal as usize] += 1;
    }
    assert!(seen.iter().all(|&count| count > ROUNDS / 40), "{seen:?}");
}

/// The value of a literal above w bits is cut, in this evaluator too.
#[test]
fn evaluator() {
    let tree = binary(ADD, literal(8, 271), unary(NEG, 0, variable(8, 300)));
    assert_eq!(value(&tree, &|v| u64::from(v == 300)), 14);
    assert_eq!(tree[0].kind, CONSTANT);
}
