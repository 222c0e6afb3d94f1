//! The types: refusals as errors, allocated and lent results, the parts of a sheet.

use hogzelt::{
    best_week, columns, normalize, normalize_by_rules, normalize_by_rules_into, normalize_into,
    raw, run_bytes, run_calls_into, run_pass, run_pass_into, run_passes, sheet_value, Call, Expr,
    Pass, Played, Refusal, Rules, Week, EXPR_BYTES, FORM_BYTES, OPAQUE, RECORD_BYTES, RUN_BYTES,
    VERSION,
};
use std::error::Error;

fn a() -> Expr {
    Expr::variable(8, 0)
}

fn number(value: u64) -> Expr {
    Expr::constant(8, value)
}

#[test]
fn refusals() {
    let numbers: Vec<u64> = Refusal::ALL.iter().map(|r| r.number()).collect();
    assert_eq!(
        numbers,
        [1, 2, 3, 4, 5, 6, 8, 9, 10, 11, 12, 13, 18, 20, 21, 32]
    );
    for refusal in Refusal::ALL {
        assert_eq!(Refusal::check(refusal.number()), Err(refusal));
        let error: Box<dyn Error> = refusal.into();
        assert!(!error.to_string().is_empty());
    }
    assert_eq!(Refusal::check(0), Ok(()));
    assert_eq!(normalize([]), Err(Refusal::InputLength));
    assert_eq!(
        normalize(vec![0; EXPR_BYTES + 16]),
        Err(Refusal::InputLength)
    );
    assert_eq!(normalize(a() >> 64), Err(Refusal::ShiftCount));
    assert_eq!(normalize(Expr::variable(65, 0)), Err(Refusal::Width));
    assert_eq!(normalize(a() + Expr::variable(9, 0)), Err(Refusal::Width));
    assert_eq!(normalize(a() & -number(2)), Err(Refusal::Nonlinear));
    assert_eq!(run_pass(Pass::Refine, a()), Err(Refusal::NoForm));
}

#[test]
fn a_refused_call_clears_its_slice() {
    let mut out = vec![0xA5; FORM_BYTES - 1];
    assert_eq!(normalize_into(a(), &mut out), Err(Refusal::ResultLength));
    assert!(out.iter().all(|&byte| byte == 0));
}

#[test]
fn parts_of_a_sheet() {
    let sheet = normalize(a() ^ number(15)).expect("it is linear");
    assert_eq!((sheet.width(), sheet.constant(), sheet.par()), (8, 15, 2));
    let masked = a() & number(15);
    assert_eq!(sheet.atoms(), [a().as_bytes(), masked.as_bytes()]);
    let terms: Vec<(u64, &[u8])> = sheet
        .terms()
        .iter()
        .map(|t| (t.coefficient, t.atom))
        .collect();
    assert_eq!(terms, [(1, a().as_bytes()), (254, masked.as_bytes())]);
    let constant = normalize(number(5)).expect("a number is linear");
    assert_eq!((constant.constant(), constant.par()), (5, 0));
    assert_eq!(constant.columns().expect("a sheet").classes().len(), 0);
}

/// A part without a variable is a number, whatever its operators, but not beside a variable below a
/// bitwise operator.
#[test]
fn numbers_written_as_sums() {
    let three = || number(1) + number(2);
    let masked = || number(3) & three();
    let minus_one = || -number(1);
    for (expr, constant) in [
        (masked(), 3),
        (number(0) * masked(), 0),
        (!three() >> 1, 126),
        (number(8) | three(), 11),
        (number(0) * (a() ^ masked()), 0),
    ] {
        let sheet = normalize(expr).expect("it is a number");
        assert_eq!((sheet.constant(), sheet.atoms().len()), (constant, 0));
    }
    for (expr, coefficient) in [(masked() * a(), 3), (a() + !minus_one(), 1)] {
        let sheet = normalize(expr).expect("it is linear");
        assert_eq!((sheet.constant(), sheet.par()), (0, 1));
        assert_eq!(sheet.terms()[0].coefficient, coefficient);
        assert_eq!(sheet.atoms(), [a().as_bytes()]);
    }
    for expr in [
        a() ^ masked(),
        a() & !three(),
        a() ^ minus_one(),
        a() & (three() >> 1),
    ] {
        assert_eq!(normalize(expr), Err(Refusal::Nonlinear));
    }
}

/// Masks upon masks are joined where terms of one basis are, and an atom that stands alone is left.
#[test]
fn masks_upon_masks() {
    let (sixty, low) = (|| number(60), || number(15));
    for stacked in [(a() & sixty()) & low(), low() & (sixty() & a())] {
        let alone = normalize(stacked.clone()).expect("it is linear");
        let beside = normalize(stacked + (a() & number(3))).expect("it is linear");
        assert_eq!((alone.par(), beside.par()), (1, 2));
        for pass in [Pass::Refine, Pass::Coalesce] {
            let joined = run_pass(pass, &beside).expect("a sheet");
            let masked = a() & low();
            assert_eq!((joined.par(), joined.terms()[0].coefficient), (1, 1));
            assert_eq!(joined.terms()[0].atom, masked.as_bytes());
            assert_eq!(run_pass(pass, &alone), Ok(alone.clone()));
        }
    }
}

/// What rules 2 give: constant, coefficients and atoms, or a refusal. Rules 1 by number are those of
/// normalising.
#[test]
fn rules() {
    type Sum = (u64, Vec<(u64, Expr)>);
    let b = || Expr::variable(8, 1);
    let three = || number(1) + number(2);
    let cases: [(Expr, Result<Sum, Refusal>); 16] = [
        (
            a() ^ -number(1),
            Ok((255, vec![(1, a()), (254, a() & number(255))])),
        ),
        (!(a() + b()), Ok((255, vec![(255, a()), (255, b())]))),
        (!a(), Ok((0, vec![(1, !a())]))),
        (!(!a() + b()), Ok((255, vec![(255, !a()), (255, b())]))),
        (!(number(3) * a()), Ok((255, vec![(253, a())]))),
        (!!(a() + number(1)), Ok((1, vec![(1, a())]))),
        (!(three() & a()), Ok((0, vec![(1, !(number(3) & a()))]))),
        (
            a() ^ (number(3) & three()),
            Ok((3, vec![(1, a()), (254, a() & number(3))])),
        ),
        (!(number(0) * (a() * b())), Ok((255, vec![]))),
        (a() & number(271), Ok((0, vec![(1, a() & number(15))]))),
        (
            (a() & number(271)) + (a() & number(15)),
            Ok((0, vec![(2, a() & number(15))])),
        ),
        (number(271) * a(), Ok((0, vec![(15, a())]))),
        (a() & !(b() + number(1)), Err(Refusal::Nonlinear)),
        (!(a() * b()), Err(Refusal::Nonlinear)),
        (!(a() + b()) & number(15), Err(Refusal::Nonlinear)),
        (a() >> 64, Err(Refusal::ShiftCount)),
    ];
    for (expr, wanted) in cases {
        let found = normalize_by_rules(Rules::Two, &expr).map(|sheet| {
            for x in 0..=255 {
                assert_eq!(sheet.value(&[x, 77]), expr.value(&[x, 77]));
            }
            let terms = sheet
                .terms()
                .iter()
                .map(|t| (t.coefficient, t.atom.to_vec()))
                .collect();
            (sheet.constant(), terms)
        });
        let wanted = wanted.map(|(constant, terms)| {
            let bytes = |(c, atom): (u64, Expr)| (c, atom.as_bytes().to_vec());
            (constant, terms.into_iter().map(bytes).collect::<Vec<_>>())
        });
        assert_eq!(found, wanted);
        assert_eq!(normalize_by_rules(Rules::One, &expr), normalize(&expr));
    }
    assert_eq!(normalize(!(a() + b())), Err(Refusal::Nonlinear));
    let uncut = normalize(a() & number(271)).expect("it is linear");
    assert_eq!(uncut.terms()[0].atom, (a() & number(271)).as_bytes());
}

/// Rules of other numbers are refused before all else, and clear what is written.
#[test]
fn other_rules() {
    let product = a() * Expr::variable(8, 1);
    for rules in [0, 3, 257, (1 << 32) + 1, (1 << 32) + 2, 1 << 63, u64::MAX] {
        for expr in [&[][..], &[0; 15], a().as_bytes(), product.as_bytes()] {
            for length in [0, RECORD_BYTES, FORM_BYTES - 1, FORM_BYTES, FORM_BYTES + 1] {
                let mut out = vec![0xA5; length];
                let (mut used, mut terms) = (7, 7);
                // SAFETY: both slices are valid for their lengths, and all lie apart.
                let refusal = unsafe {
                    raw::hogzelt_normalize_by_rules(
                        rules,
                        expr.as_ptr(),
                        expr.len(),
                        out.as_mut_ptr(),
                        out.len(),
                        &mut used,
                        &mut terms,
                    )
                };
                assert_eq!(Refusal::check(refusal), Err(Refusal::NoRules));
                assert_eq!((used, terms), (0, 0));
                assert!(out.iter().all(|&byte| byte == 0));
            }
        }
    }
}

/// By the rules that there are, refusals have the order of normalising, and clear the slice.
#[test]
fn refusals_by_rules() {
    for rules in Rules::ALL {
        for (expr, length, wanted) in [
            (vec![0; 15], RECORD_BYTES, Refusal::InputLength),
            (vec![0; EXPR_BYTES + 16], FORM_BYTES, Refusal::InputLength),
            (vec![14; 16], RECORD_BYTES, Refusal::ResultLength),
            (vec![14; 16], FORM_BYTES, Refusal::Malformed),
            (
                Expr::variable(65, 0).as_bytes().to_vec(),
                FORM_BYTES,
                Refusal::Width,
            ),
            (
                (a() * a()).as_bytes().to_vec(),
                FORM_BYTES + 1,
                Refusal::ResultLength,
            ),
            (
                (a() * a()).as_bytes().to_vec(),
                FORM_BYTES,
                Refusal::Nonlinear,
            ),
        ] {
            let mut out = vec![0xA5; length];
            assert_eq!(normalize_by_rules_into(rules, expr, &mut out), Err(wanted));
            assert!(out.iter().all(|&byte| byte == 0));
        }
    }
}

/// Byte 1 of heads: 4 is written, 0 to 4 are read alike, and other bytes are refused.
#[test]
fn heads_of_a_sheet() {
    let sheet = normalize(a() ^ number(15)).expect("it is linear");
    let heads = [1, 2 * RECORD_BYTES + 1];
    assert_eq!(heads.map(|at| sheet.as_bytes()[at]), [4, 4]);
    let with = |byte: u8| {
        let mut bytes = sheet.as_bytes().to_vec();
        for at in heads {
            bytes[at] = byte;
        }
        bytes
    };
    for byte in 0..4 {
        let old = with(byte);
        assert_eq!(sheet_value(&old, &[5]), Ok(10));
        assert_eq!(columns(&old), sheet.columns());
        for pass in Pass::ALL {
            assert_eq!(run_pass(pass, &old), sheet.pass(pass));
        }
        assert_eq!(run_pass(Pass::Compact, &old).as_ref(), Ok(&sheet));
    }
    for byte in [5, 6, 128, 255] {
        let bad = with(byte);
        assert_eq!(sheet_value(&bad, &[5]), Err(Refusal::NoForm));
        assert_eq!(columns(&bad).err(), Some(Refusal::NoForm));
        for pass in Pass::ALL {
            assert_eq!(run_pass(pass, &bad), Err(Refusal::NoForm));
        }
    }
}

/// The number of a variable has two bytes: byte 1 of its record, and byte 5.
#[test]
fn variables() {
    let v = |number| Expr::variable(8, number);
    let hashes = [
        (0u16, 0x517C_C1B7_2722_0A94),
        (255, 0x7CC1_B727_220A_9501),
        (256, 0xCE3E_78DE_492C_9F94),
        (65_535, 0xC1B7_2722_0A95_0001_u64),
    ];
    let words: Vec<u64> = (0..65_536).map(|i| 3 * i + (i >> 8) + 7).collect();
    for (number, hash) in hashes {
        let [low, high] = number.to_le_bytes();
        let record = [1, low, 1, 0, 8, high, 0, 0, 0, 0, 0, 0, 0, 0, 0, 0];
        assert_eq!(v(number).as_bytes(), record);
        let place = usize::from(number);
        assert_eq!(v(number).value(&words), Ok(words[place] % 256));
        assert_eq!(v(number).value(&words[..place]), Ok(0));
        let sheet = normalize(v(number)).expect("a variable is linear");
        assert_eq!(sheet.as_bytes()[8..16], hash.to_le_bytes());
        assert_eq!(sheet.value(&words), Ok(words[place] % 256));
    }
    // v256 beside v0, which has the same low byte
    let sum = (v(256) & number(15)) + number(2) * (v(0) & number(15));
    let sheet = run_passes(&sum, &Pass::ALL).expect("it is linear");
    assert_eq!(sheet.par(), 2);
    assert_eq!(sheet.value(&words), sum.value(&words));
    assert_eq!(sum.value(&[3]), Ok(6));
}

/// Byte 5 is 0 in all other records, bytes 6 and 7 in every one.
#[test]
fn bytes_that_must_be_0() {
    let masked = Expr::variable(8, 256) & number(15);
    let sheet = normalize(&masked).expect("it is linear");
    for at in 5..8 {
        for record in 0..3 {
            let mut bytes = masked.as_bytes().to_vec();
            bytes[record * RECORD_BYTES + at] = 2;
            match (record, at) {
                (0, 5) => assert_eq!(hogzelt::expr_value(&bytes, &[9; 513]), Ok(9)),
                _ => assert_eq!(normalize(&bytes), Err(Refusal::Malformed)),
            }
        }
        for record in 0..sheet.as_bytes().len() / RECORD_BYTES {
            let mut bytes = sheet.as_bytes().to_vec();
            bytes[record * RECORD_BYTES + at] ^= 2;
            assert_eq!(sheet_value(&bytes, &[]), Err(Refusal::NoForm));
        }
    }
}

#[test]
fn lists() {
    let sum = (a() & number(15)) + (a() & number(240));
    let sheet = run_passes(&sum, &[Pass::Refine, Pass::Compact]).expect("it is linear");
    assert_eq!((sheet.par(), sheet.atoms().len()), (1, 1));
    let calls = [
        Call {
            pass: Pass::Refine,
            length: RECORD_BYTES,
        },
        Call {
            pass: Pass::Compact,
            length: FORM_BYTES,
        },
    ];
    let (mut out, mut spare) = (vec![0; FORM_BYTES], vec![0; FORM_BYTES]);
    let written = run_calls_into(&sum, &calls, &mut out, &mut spare).expect("it is linear");
    assert_eq!(written.terms, 2, "a call that is refused leaves the form");
    assert_eq!(
        &out[..written.used],
        normalize(&sum).expect("it is linear").as_bytes()
    );
}

#[test]
fn passes_keep_the_value() {
    let sum = number(3) * (!(a() ^ number(9))) - (a() >> 2) + (a() | Expr::variable(8, 1));
    for pass in Pass::ALL {
        let sheet = normalize(&sum)
            .and_then(|s| s.pass(pass))
            .expect("it is linear");
        for x in 0..=255 {
            assert_eq!(sheet.value(&[x, 77]), sum.value(&[x, 77]));
        }
    }
}

#[test]
fn flattening_says_whether_it_did() {
    let mut out = vec![0; FORM_BYTES];
    let flattened = |expr: Expr, out: &mut [u8]| {
        let sheet = normalize(expr).expect("it is linear");
        run_pass_into(Pass::Flatten, &sheet, out)
            .expect("a sheet")
            .flattened
    };
    assert!(flattened(!a(), &mut out));
    assert!(!flattened(a(), &mut out));
}

#[test]
fn opaque_columns() {
    let sheet = normalize((a() >> 1) + a()).expect("it is linear");
    let found = columns(&sheet).expect("a sheet");
    let classes: Vec<_> = found.classes().collect();
    assert_eq!(classes.len(), 1);
    assert_eq!(
        (classes[0].mask, classes[0].tables),
        (255, &[OPAQUE, 2][..])
    );
    assert_eq!(found.as_words(), [255, OPAQUE, 2]);
}

#[test]
fn version() {
    let parts = env!("CARGO_PKG_VERSION").split('.');
    let number = parts.fold(0, |sum, part| {
        100 * sum + part.parse::<u64>().expect("a number")
    });
    assert_eq!(VERSION, number);
}

/// Days from `first` on, all of one par.
fn days(first: u32, par: u16, moves: &[u16]) -> Vec<Played> {
    (first..=u32::MAX)
        .zip(moves)
        .map(|(day, &moves)| Played { day, par, moves })
        .collect()
}

#[test]
fn weeks() {
    let best = |played: &[Played]| best_week(run_bytes(played.iter().copied()));
    let week = |total, day| Ok(Some(Week { total, day }));
    assert_eq!(best(&[]), Ok(None));
    assert_eq!(best(&days(0, 3, &[1; 7])), week(-14, 0));
    assert_eq!(best(&days(0, 3, &[1; 6])), Ok(None));
    assert_eq!(best(&days(0, 0, &[5, 5, 5, 5, 5, 5, 5, 1, 9])), week(31, 1));
    let last = u32::MAX - 6;
    assert_eq!(best(&days(last, 65_535, &[0; 7])), week(-458_745, last));
    assert_eq!(best(&days(0, 4, &[4; 7])), week(0, 0));
    assert_eq!(best(&days(0, 1, &[0; 4_096])), week(-7, 0));
    let mut gap = days(0, 0, &[1; 6]);
    gap.extend(days(7, 0, &[1; 6]));
    assert_eq!(best(&gap), Ok(None));
}

#[test]
fn runs_that_are_refused() {
    let twice = run_bytes([days(5, 0, &[1]), days(5, 0, &[1])].concat());
    assert_eq!(best_week(&twice), Err(Refusal::DaysNotRising));
    for place in 8..16 {
        let mut spoiled = twice.clone();
        spoiled[place] = 1;
        assert_eq!(best_week(spoiled), Err(Refusal::NoRun));
    }
    for length in [
        1,
        15,
        RUN_BYTES - 1,
        RUN_BYTES + 1,
        RUN_BYTES + RECORD_BYTES,
    ] {
        assert_eq!(best_week(vec![0; length]), Err(Refusal::NoRun));
    }
    assert_eq!(best_week(vec![0; RUN_BYTES]), Err(Refusal::DaysNotRising));
}
