//! The judge: verdicts and refusals by hand, and that an assignment tells apart.

use hogzelt::{judge, raw, Assignment, Expr, Refusal, Verdict};

fn var(number: u16) -> Expr {
    Expr::variable(8, number)
}

fn a() -> Expr {
    var(0)
}

fn b() -> Expr {
    var(1)
}

fn number(value: u64) -> Expr {
    Expr::constant(8, value)
}

/// The sum of so many variables from v0 on.
fn sum_of(count: u16) -> Expr {
    (1..count).map(var).fold(a(), |sum, v| sum + v)
}

/// Place and index where the two are unlike; their values under the assignment must differ.
fn unlike(left: &Expr, right: &Expr) -> Option<(u32, u32)> {
    match judge(left, right).expect("they are judged") {
        Verdict::Equal => None,
        Verdict::Unlike(found) => {
            let words = found.words();
            assert_ne!(left.value(&words), right.value(&words));
            Some((found.place, found.index))
        }
    }
}

#[test]
fn equal() {
    let not = |w| !Expr::variable(w, 0);
    let minus = |w| -Expr::variable(w, 0) - Expr::constant(w, 1);
    for (left, right) in [
        (a() ^ b(), a() + b() - number(2) * (a() & b())),
        (number(128) * (a() ^ b()), number(128) * (a() + b())),
        (a() & (!number(3) >> 1), a() & number(126)),
        (not(64), minus(64)),
        (not(1), minus(1)),
        (a() >> 0, a()),
        (number(0) * var(65_535), number(256)),
    ] {
        assert_eq!(judge(&left, &right), Ok(Verdict::Equal));
        assert_eq!(judge(&right, &left), Ok(Verdict::Equal));
    }
    assert!(Verdict::Equal.is_equal());
}

#[test]
fn first_assignments() {
    for (left, right, found) in [
        (a() | b(), a() + b(), (0, 3)),
        (a(), a() + number(1), (0, 0)),
        (a() & number(15), a() & number(31), (4, 1)),
        (a(), b(), (0, 1)),
        // v0 is a variable of the two, and has bit 0 of the index
        (number(0) * a() + b(), number(2) * b(), (0, 2)),
        // unlike at place 1 with index 1 too: the place comes first
        (a() & number(2), number(2) * (b() & number(1)), (0, 2)),
        (var(256), number(0) * a(), (0, 2)),
    ] {
        assert_eq!(unlike(&left, &right), Some(found));
        assert_eq!(unlike(&right, &left), Some(found));
    }
}

#[test]
fn an_assignment() {
    let (left, right) = (var(65_535) & number(16), number(0) * var(3));
    let found = Assignment {
        place: 4,
        index: 2,
        variables: vec![(3, 0), (65_535, 16)],
    };
    let words = found.words();
    assert_eq!((words.len(), words[65_535]), (65_536, 16));
    let verdict = judge(left, right);
    assert_eq!(verdict, Ok(Verdict::Unlike(found)));
    assert!(!verdict.expect("they are judged").is_equal());
    // no variables: no words
    let Ok(Verdict::Unlike(none)) = judge(number(1), number(2)) else {
        panic!("1 is not 2");
    };
    assert_eq!((none.variables.len(), none.words().len()), (0, 0));
}

#[test]
fn refused() {
    let wide = || Expr::variable(9, 0);
    let half = || a() >> 1;
    let product = || a() * b();
    for (left, right, refusal) in [
        (number(0) * half(), number(0), Refusal::ShiftedVariable),
        (a(), half(), Refusal::ShiftedVariable),
        (a(), wide(), Refusal::WidthsDiffer),
        (half() + sum_of(6), wide(), Refusal::WidthsDiffer),
        (a() + number(0) * sum_of(6), a(), Refusal::TooManyVariables),
        (
            sum_of(3),
            var(3) + var(4) + var(5),
            Refusal::TooManyVariables,
        ),
        (sum_of(6), half(), Refusal::TooManyVariables),
        (wide(), product(), Refusal::Nonlinear),
        (product(), a() >> 64, Refusal::Nonlinear),
        (a() >> 64, product(), Refusal::ShiftCount),
    ] {
        assert_eq!(judge(&left, &right), Err(refusal));
    }
    assert_eq!(judge(product(), []), Err(Refusal::Nonlinear));
    assert_eq!(judge([], product()), Err(Refusal::InputLength));
    assert_eq!(unlike(&sum_of(5), &sum_of(4)), Some((0, 16)));
}

/// Beside a refusal, and beside equal, the numbers are 0 whatever stood there.
#[test]
fn numbers_are_written() {
    for (left, right, wanted) in [
        (a(), a(), [0, 1, 0, 0]),
        (a(), Expr::variable(9, 0), [11, 0, 0, 0]),
        (a() & number(16), number(0), [0, 0, 4, 1]),
    ] {
        let (left, right) = (left.as_bytes(), right.as_bytes());
        let (mut equal, mut place, mut index) = (7, 7, 7);
        // SAFETY: both slices are valid for their lengths, and the three numbers lie in neither.
        let refusal = unsafe {
            raw::hogzelt_judge(
                left.as_ptr(),
                left.len(),
                right.as_ptr(),
                right.len(),
                &mut equal,
                &mut place,
                &mut index,
            )
        };
        assert_eq!([refusal, equal, place, index], wanted);
    }
}
