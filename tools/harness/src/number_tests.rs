//! Variables of two bytes: byte 1 of a record has the low one, byte 5 the high one, in variables alone.

use std::collections::HashSet;

use crate::cases::SEED;
use crate::columns::{self, RESULT_WORDS};
use crate::entry;
use crate::form::{Form, ATOM, HEAD_BYTE, RESULT_BYTES, SUM, TERM};
use crate::form_model;
use crate::list;
use crate::model;
use crate::number_cases::{of_512, BY_HASH, FORMS, LISTS, NORMAL, RECORDS};
use crate::numbers::{self, MOST_WORDS};
use crate::pass::{self, Pass, PASSES};
use crate::pass_checks;
use crate::prng::Prng;
use crate::published;
use crate::record::{
    balanced, binary, bytes, literal, smallest, split, unary, variable, Records, ADD, AND, CONCAT,
    CONSTANT, MUL, NOT, OR, RECORD_BYTES, VARIABLE, XOR,
};

const HASH_FACTOR: u64 = 0x517C_C1B7_2722_0A95;

fn v(number: u16) -> Records {
    variable(8, number)
}

fn masked(number: u16, mask: u64) -> Records {
    binary(AND, v(number), literal(8, mask))
}

/// Words that differ from each other at 64 bits, and the low bytes of v0, v255, v256 and v65535 too.
fn words(count: usize) -> Vec<u64> {
    (0..count as u64).map(|i| 3 * i + (i >> 8) + 7).collect()
}

/// The constant and the terms as text.
fn text(form: &[u8]) -> String {
    let form = form_model::read(form).expect("a valid form");
    let mut text = form.constant.to_string();
    for term in &form.terms {
        let tree = published::text(&form.atoms[usize::from(term.atom)].tree);
        text += &format!(", {}·({tree})", term.coeff);
    }
    text
}

/// What normalising gives, by the model and by the Rust, as text.
fn normalised(tree: &Records) -> String {
    let answer = entry::normalize_answer(&bytes(tree), RESULT_BYTES);
    match answer.refusal {
        0 => text(answer.form()),
        refusal => format!("refusal {refusal}"),
    }
}

fn form(terms: &[(u64, Records)]) -> Form {
    let mut form = Form::new(8, 9);
    for (coeff, tree) in terms {
        form.push_term(HEAD_BYTE, tree.clone(), *coeff);
    }
    form
}

fn passed(pass: Pass, form: &Form) -> String {
    let answer = pass::answer(pass, &form.bytes(), RESULT_BYTES);
    assert_eq!(answer.refusal, 0);
    text(answer.form())
}

/// The records of the request: their refusals, values, and hashes in the heads of their forms.
#[test]
fn records_of_the_request() {
    let full = words(MOST_WORDS);
    let wanted = [
        Ok((0, 0x517C_C1B7_2722_0A94)),
        Ok((255, 0x7CC1_B727_220A_9501)),
        Ok((256, 0xCE3E_78DE_492C_9F94)),
        Ok((65_535, 0xC1B7_2722_0A95_0001)),
        Err(3),
        Err(3),
    ];
    for (file, wanted) in RECORDS.iter().zip(wanted) {
        let normal = entry::normalize_answer(file, RESULT_BYTES);
        match wanted {
            Ok((number, hash)) => {
                assert_eq!(split(file), v(number));
                let answer = model::answer(file, &full);
                assert_eq!(
                    (answer.refusal, answer.value),
                    (0, full[usize::from(number)] % 256)
                );
                assert_eq!(split(normal.form())[0].literal, hash, "v{number}");
                assert_eq!(published::hash(&split(file)), hash);
            }
            Err(refusal) => {
                assert_eq!(model::refusal(file), refusal);
                assert_eq!(normal.refusal, refusal);
            }
        }
    }
}

/// Every number is written to bytes 1 and 5, read back, reads its own word, and has a hash of its own.
#[test]
fn every_number() {
    let full = words(MOST_WORDS);
    let mut hashes = HashSet::new();
    for number in 0..=u16::MAX {
        let tree = variable(64, number);
        let file = bytes(&tree);
        let [low, high] = number.to_le_bytes();
        assert_eq!(file[..8], [1, low, 1, 0, 64, high, 0, 0]);
        assert_eq!(file[8..], [0; 8]);
        assert_eq!(split(&file), tree);
        assert_eq!(model::answer(&file, &full).value, full[usize::from(number)]);
        let hash = 1 ^ (u64::from(number) + 1).wrapping_mul(HASH_FACTOR);
        assert_eq!(published::hash(&tree), hash);
        hashes.insert(hash);
    }
    assert_eq!(hashes.len(), MOST_WORDS);
}

/// Beyond the end of an assignment a variable is 0; words from 65,536 on are not read.
#[test]
fn assignments_of_every_length() {
    for number in numbers::EDGES {
        let file = bytes(&variable(64, number));
        let form = form_of(variable(64, number)).bytes();
        for count in [
            0,
            1,
            255,
            256,
            257,
            512,
            MOST_WORDS - 1,
            MOST_WORDS,
            MOST_WORDS + 9,
        ] {
            let list = words(count);
            let wanted = match usize::from(number) < count {
                true => 7 + 3 * u64::from(number) + u64::from(number >> 8),
                false => 0,
            };
            for answer in [
                model::answer(&file, &list),
                form_model::answer(&form, &list),
            ] {
                assert_eq!(
                    (answer.refusal, answer.value),
                    (0, wanted),
                    "v{number}, {count}"
                );
            }
        }
    }
}

fn form_of(tree: Records) -> Form {
    let mut form = Form::new(tree[0].width, 0);
    form.push_term(HEAD_BYTE, tree, 1);
    form
}

/// Byte 5 is refused by 3 in every kind but a variable, bytes 6 and 7 in all of them.
#[test]
fn bytes_of_each_kind() {
    for kind in CONSTANT..=CONCAT {
        let file = bytes(&smallest(kind, 0, 8));
        let root = file.len() - RECORD_BYTES;
        for at in 5..=7 {
            for byte in [1, 2, 128, 255] {
                let mut copy = file.clone();
                copy[root + at] = byte;
                let wanted = match (kind, at) {
                    (VARIABLE, 5) => 0,
                    _ => 3,
                };
                assert_eq!(model::refusal(&copy), wanted, "kind {kind}, byte {at}");
                let normal = entry::normalize_answer(&copy, RESULT_BYTES);
                assert_eq!(normal.refusal, wanted, "kind {kind}, byte {at}");
            }
        }
    }
}

/// Bytes 5, 6 and 7 in a form: 10, but for byte 5 of a variable where the hash is right.
#[test]
fn bytes_of_forms() {
    let form = form(&[(3, masked(256, 15)), (5, unary(NOT, 0, v(65_535)))]);
    let records = form.records();
    let mut met = HashSet::new();
    for at in 0..records.len() {
        for place in 5..=7 {
            for rehashed in [false, true] {
                let mut file = form.bytes();
                file[at * RECORD_BYTES + place] ^= 2;
                if rehashed {
                    let mut changed = split(&file);
                    crate::form_random::rehash(&mut changed);
                    file = bytes(&changed);
                }
                let valid = rehashed && place == 5 && records[at].kind == VARIABLE;
                let wanted = if valid { 0 } else { 10 };
                assert_eq!(form_model::answer(&file, &[]).refusal, wanted);
                assert_eq!(columns::answer(&file, RESULT_WORDS).refusal, wanted);
                for pass in PASSES {
                    assert_eq!(pass::answer(pass, &file, RESULT_BYTES).refusal, wanted);
                }
                met.insert(records[at].kind);
            }
        }
    }
    let kinds = [CONSTANT, VARIABLE, AND, NOT, SUM, ATOM, TERM];
    assert_eq!(met, HashSet::from(kinds));
}

/// Variables that share a byte, or have the bytes exchanged, are two.
#[test]
fn variables_that_share_a_byte() {
    let twice = |x: Records| binary(MUL, literal(8, 2), x);
    let sum = |x: Records, y: Records| binary(ADD, x, y);
    for (tree, wanted) in [
        (sum(v(256), twice(v(0))), "0, 1·(v256), 2·(v0)"),
        (sum(v(1), twice(v(256))), "0, 1·(v1), 2·(v256)"),
        (binary(XOR, v(256), v(0)), "0, 1·(v256 ^ v0)"),
        (binary(XOR, v(256), v(256)), "0, 1·(v256 ^ v256)"),
        (
            sum(masked(256, 15), masked(0, 15)),
            "0, 1·(v256 & 15), 1·(v0 & 15)",
        ),
        (sum(masked(256, 15), masked(256, 15)), "0, 2·(v256 & 15)"),
        (
            sum(binary(AND, v(257), v(1)), binary(AND, v(1), v(257))),
            "0, 2·(v257 & v1)",
        ),
        (
            sum(binary(OR, v(65_535), v(255)), v(255)),
            "0, 1·(v65535 | v255), 1·(v255)",
        ),
        (binary(MUL, v(0), v(256)), "refusal 8"),
    ] {
        assert_eq!(normalised(&tree), wanted);
    }
    let both = bytes(&sum(v(256), twice(v(0))));
    let mut vars = vec![0; 257];
    (vars[0], vars[256]) = (5, 100);
    assert_eq!(model::answer(&both, &vars).value, 110);
    assert_eq!(model::answer(&both, &vars[..256]).value, 10);
}

/// Tables of 256 atoms and of one more; one atom of 512 variables.
#[test]
fn limits_of_the_table() {
    let sum_of = |first: u16, count| balanced(ADD, 0, count, &|i| v(first + i as u16));
    let answer = |tree: &Records| {
        let answer = entry::normalize_answer(&bytes(tree), RESULT_BYTES);
        (answer.refusal, answer.terms)
    };
    assert_eq!(bytes(&sum_of(0, 257)).len(), 513 * RECORD_BYTES);
    assert_eq!(answer(&sum_of(0, 257)), (9, 0));
    assert_eq!(answer(&sum_of(0, 256)), (0, 256));
    assert_eq!(answer(&sum_of(1, 256)), (0, 256));
    assert_eq!(answer(&sum_of(65_280, 256)), (0, 256));
    for first in [0, 65_024] {
        let (all_ones, parity) = (of_512(AND, first), of_512(XOR, first));
        assert_eq!(all_ones.len(), 1023);
        assert_eq!((answer(&all_ones), answer(&parity)), ((0, 1), (0, 1)));
        let from = usize::from(first);
        let mut vars = vec![0; from];
        vars.resize(from + 512, u64::MAX);
        for at in [0, 255, 256, 511] {
            vars[from + at] = 0xA5 << at % 50;
            let wanted = vars[from + at];
            assert_eq!(model::answer(&bytes(&all_ones), &vars).value, wanted);
            // of the other words there is an odd number
            assert_eq!(model::answer(&bytes(&parity), &vars).value, !wanted);
            vars[from + at] = u64::MAX;
        }
        assert_eq!(model::answer(&bytes(&parity), &vars).value, 0);
    }
}

/// New atoms come by the hash of their variable, whatever the order of the atoms before.
#[test]
fn groups_by_hash() {
    let hash = |number: u16| published::hash(&v(number));
    assert!(BY_HASH.is_sorted_by_key(|number| hash(*number)));
    let text = |tree: &dyn Fn(u16) -> String| {
        BY_HASH
            .map(tree)
            .iter()
            .fold("9".to_string(), |all, one| all + one)
    };
    for order in [[0, 3, 255, 256, 65_535], [65_535, 256, 255, 3, 0]] {
        let of = |terms: &dyn Fn(u16) -> Vec<(u64, Records)>| {
            form(
                &order
                    .iter()
                    .flat_map(|number| terms(*number))
                    .collect::<Vec<_>>(),
            )
        };
        let cut = of(&|i| vec![(16, v(i))]);
        assert_eq!(
            passed(Pass::Refine, &cut),
            text(&|i| format!(", 16·(v{i} & 15)"))
        );
        let halves = of(&|i| vec![(1, masked(i, 15)), (1, masked(i, 240))]);
        assert_eq!(
            passed(Pass::Refine, &halves),
            text(&|i| format!(", 1·(v{i})"))
        );
        let bits = of(&|i| vec![(1, masked(i, 1)), (1, masked(i, 2)), (2, masked(i, 4))]);
        let coalesced = text(&|i| format!(", 1·(v{i} & 3), 2·(v{i} & 4)"));
        assert_eq!(passed(Pass::Coalesce, &bits), coalesced);
        // the difference of the coefficients stays on the second mask of each
        let unlike = of(&|i| vec![(1, masked(i, 15)), (2, masked(i, 240))]);
        let recovered = passed(Pass::Recover, &unlike);
        let bare: Vec<&str> = recovered.split(", ").filter(|t| !t.contains('&')).collect();
        let wanted: Vec<String> = BY_HASH.iter().map(|i| format!("(v{i})")).collect();
        let found: Vec<&str> = bare[1..]
            .iter()
            .filter_map(|t| t.split('·').nth(1))
            .collect();
        assert_eq!(found, wanted);
    }
}

/// Flattening asks for the value of the one variable, whatever its number.
#[test]
fn flattening() {
    for number in [0, 255, 256, 257, 65_534, 65_535] {
        let xor = form(&[(3, binary(XOR, v(number), literal(8, 5)))]);
        let answer = pass::answer(Pass::Flatten, &xor.bytes(), RESULT_BYTES);
        assert_eq!((answer.refusal, answer.flag), (0, 1));
        // the mask 250 is written as -6
        let wanted = format!("24, 3·(v{number} & -6), 253·(v{number} & 5)");
        assert_eq!(text(answer.form()), wanted);
    }
    // two variables are left, and so is one alone
    for tree in [binary(XOR, v(256), v(0)), v(65_535), masked(256, 5)] {
        let whole = form(&[(3, tree)]);
        let answer = pass::answer(Pass::Flatten, &whole.bytes(), RESULT_BYTES);
        assert_eq!((answer.refusal, answer.flag), (0, 0));
        assert_eq!(answer.form(), whole.bytes());
    }
}

/// The rows of a table go by the numbers of the variables: v255, then v256, then v65535.
#[test]
fn columns_by_number() {
    let not = |x: Records| unary(NOT, 0, x);
    let words = |tree: Records| {
        let answer = columns::answer(&form(&[(1, tree)]).bytes(), RESULT_WORDS);
        answer.out[..2 * answer.classes as usize].to_vec()
    };
    assert_eq!(words(binary(AND, v(256), not(v(255)))), [255, 0b0100]);
    assert_eq!(words(binary(AND, not(v(256)), v(255))), [255, 0b0010]);
    assert_eq!(words(binary(AND, not(v(256)), v(1))), [255, 0b0010]);
    let last = binary(AND, v(65_535), not(binary(OR, v(256), v(255))));
    assert_eq!(words(last), [255, 0b0001_0000]);
    assert_eq!(words(masked(65_535, 15)), [15, 2, 240, 0]);
}

/// A sample of the random cases: model and Rust agree, values are kept, and all numbers are met.
#[test]
fn random_cases() {
    let rng = &mut Prng::new(SEED);
    let mut met = HashSet::new();
    let mut meet = |file: &[u8]| {
        let records = split(file);
        met.extend(records.iter().filter(|r| r.kind == VARIABLE).map(|r| r.arg));
    };
    let mut counts = [0; 3];
    for family in &NORMAL {
        for case in (family.make)(rng, family.compared / 20) {
            let answer = entry::normalize_answer(&case.file, case.length);
            if answer.refusal == 0 {
                let vars = numbers::words(rng, &case.file);
                let value = form_model::answer(answer.form(), &vars);
                assert_eq!(value, model::answer(&case.file, &vars));
                counts[0] += 1;
                meet(&case.file);
            }
        }
    }
    for family in &FORMS {
        for case in (family.make)(rng, family.compared / 40) {
            let Ok(form) = form_model::read(&case.file) else {
                continue;
            };
            let vars = numbers::words(rng, &case.file);
            for pass in PASSES {
                let answer = pass::answer(pass, &case.file, RESULT_BYTES);
                let kept = answer.refusal == 9 || pass_checks::keeps_value(&form, &answer, &vars);
                assert!(kept, "{pass:?}, {form:?}");
            }
            let columns = columns::answer(&case.file, RESULT_WORDS);
            assert!(pass_checks::hold(&form, &columns, &vars), "{form:?}");
            counts[1] += 1;
            meet(&case.file);
        }
    }
    for family in &LISTS {
        for case in (family.make)(rng, family.compared / 100) {
            let answer = list::answer(&case).written;
            if answer.refusal == 0 {
                let vars = numbers::words(rng, &case.file);
                let value = form_model::answer(answer.form(), &vars);
                assert_eq!(value, model::answer(&case.file, &vars));
                counts[2] += 1;
            }
        }
    }
    assert!(counts.iter().all(|count| *count > 100), "{counts:?}");
    assert!(numbers::EDGES.iter().all(|number| met.contains(number)));
    assert!(met.len() > 1000, "{}", met.len());
}
