//! Worked examples of the passes and the columns, each with the rule that it shows. The tests hold
//! some of them to answers written by hand (pass_tests.rs).

use crate::collide;
use crate::form::Form;
use crate::pass_cases::{case, Case};
use crate::published;
use crate::record::{binary, literal, nested, unary, variable, Records, AND, NOT, OR, SHR, XOR};

fn n(value: u64) -> Records {
    literal(8, value)
}

pub fn a() -> Records {
    variable(8, 0)
}

pub fn b() -> Records {
    variable(8, 1)
}

pub fn and(x: Records, mask: u64) -> Records {
    binary(AND, x, n(mask))
}

pub fn not(x: Records) -> Records {
    unary(NOT, 0, x)
}

/// A form at 8 bits; a coefficient of 0 is an atom without a term. Heads have any of 0 to 4 in byte 1.
pub fn form(constant: u64, terms: &[(u64, Records)]) -> Form {
    let mut form = Form::new(8, constant);
    for (coeff, tree) in terms {
        let byte = (tree.len() % 5) as u8;
        match coeff {
            0 => form.push(byte, tree.clone()),
            _ => form.push_term(byte, tree.clone(), *coeff),
        }
    }
    form
}

/// A tree of the hash of `b`: `a | K`.
pub fn like_b() -> Records {
    collide::with_hash(binary(OR, a(), n(0)), published::hash(&b()))
}

/// The basis `(a & 60) >> 1`, and a tree of its hash: `(b & L) >> 1`.
pub fn shifted_mask() -> Records {
    unary(SHR, 1, and(a(), 60))
}

pub fn like_shifted() -> Records {
    unary(
        SHR,
        1,
        collide::with_hash(and(b(), 0), published::hash(&and(a(), 60))),
    )
}

/// A form that every pass changes, with each byte that a head may have in all its heads, and with
/// each of some others in the first and in the last.
pub fn heads() -> Vec<Case> {
    let mut all = each_head().to_vec();
    for byte in [5, 6, 128, 255] {
        for at in [0, 5] {
            let mut form = changing();
            form.atoms[at].head_byte = byte;
            all.push(form);
        }
    }
    all.iter().map(case).collect()
}

/// The form with 0, 1, 2, 3 and 4 in byte 1 of its heads.
pub fn each_head() -> [Form; 5] {
    [0, 1, 2, 3, 4].map(|byte| changing().with_heads(byte))
}

fn changing() -> Form {
    form(
        9,
        &[
            (1, and(a(), 15)),
            (1, and(a(), 240)),
            (1, and(b(), 15)),
            (2, and(b(), 240)),
            (3, not(a())),
            (0, b()),
        ],
    )
}

pub fn cases() -> Vec<Case> {
    let shr = |x: Records, count: u8| unary(SHR, count, x);
    let xor = |x: Records, y: Records| binary(XOR, x, y);
    let c = || variable(8, 3);
    let mut all = vec![
        Form::new(8, 5),
        form(0, &[(16, and(a(), 255))]),
        form(0, &[(1, and(a(), 15)), (1, and(a(), 240))]),
        form(
            0,
            &[(1, and(a(), 252)), (255, and(a(), 3)), (255, and(a(), 0))],
        ),
        form(0, &[(1, and(a(), 15))]),
        // parting 1, in a group and in the search for a bare atom
        form(0, &[(1, and(b(), 15)), (1, and(like_b(), 240))]),
        form(
            0,
            &[
                (1, like_shifted()),
                (1, and(shifted_mask(), 15)),
                (2, and(shifted_mask(), 240)),
            ],
        ),
        // parting 3
        form(
            0,
            &[(1, binary(AND, a(), shr(not(n(3)), 1))), (1, and(a(), 1))],
        ),
        // parting 4
        form(0, &[(1, and(a(), 1)), (1, and(a(), 2)), (2, and(a(), 4))]),
        form(
            0,
            &[
                (1, and(a(), 15)),
                (2, and(a(), 240)),
                (1, and(b(), 15)),
                (2, and(b(), 240)),
            ],
        ),
        // refining: groups of one, cut masks, unused atoms, -1, order of groups, masks on the left
        form(0, &[(16, a())]),
        form(0, &[(16, and(a(), 240))]),
        form(0, &[(1, and(a(), 128))]),
        form(0, &[(128, and(a(), 3))]),
        form(0, &[(16, a()), (16, c())]),
        form(0, &[(3, binary(AND, n(15), a())), (3, and(a(), 240))]),
        form(
            0,
            &[(1, and(and(a(), 60), 15)), (1, and(and(a(), 60), 240))],
        ),
        form(
            0,
            &[(1, and(a(), 128)), (129, and(a(), 64)), (1, and(a(), 32))],
        ),
        // the collapse of three terms: the third stands anywhere, the first two may meet
        form(0, &[(2, and(a(), 3)), (3, and(a(), 12)), (5, and(a(), 48))]),
        form(0, &[(5, and(a(), 48)), (2, and(a(), 3)), (3, and(a(), 12))]),
        form(0, &[(2, and(a(), 3)), (3, and(a(), 3)), (5, and(a(), 48))]),
        // recovering: sums before differences, ties of ones, bare atoms in and outside the group
        form(0, &[(128, and(a(), 15)), (128, and(a(), 240))]),
        form(0, &[(1, and(a(), 15)), (255, and(a(), 240))]),
        form(0, &[(1, and(a(), 240)), (255, and(a(), 15))]),
        form(0, &[(1, and(a(), 15)), (2, and(a(), 240)), (0, a())]),
        form(0, &[(254, a()), (1, and(a(), 15)), (2, and(a(), 240))]),
        form(
            0,
            &[
                (254, not(a())),
                (1, and(not(a()), 15)),
                (2, and(not(a()), 240)),
            ],
        ),
        form(0, &[(1, and(a(), 0)), (2, and(a(), 255)), (2, a())]),
        form(
            0,
            &[
                (1, and(a(), 3)),
                (2, and(a(), 252)),
                (3, and(a(), 252)),
                (4, and(a(), 0)),
            ],
        ),
        // coalescing: strictly fewer, mask 0 counts, rising coefficients, a bare atom is looked for
        form(0, &[(1, and(a(), 3)), (2, and(a(), 3)), (3, and(a(), 3))]),
        form(0, &[(1, and(a(), 3)), (2, and(a(), 0))]),
        form(0, &[(1, and(a(), 0))]),
        form(0, &[(9, and(a(), 15)), (9, and(a(), 240)), (0, a())]),
        form(0, &[(1, and(a(), 3)), (255, and(a(), 3))]),
        // flattening: both masks, shifts by 0, a term that vanishes, unused atoms
        form(0, &[(1, not(a()))]),
        form(7, &[(3, xor(a(), n(15)))]),
        form(0, &[(1, binary(AND, a(), not(a())))]),
        form(0, &[(1, binary(OR, a(), not(a())))]),
        form(0, &[(1, shr(a(), 0)), (1, not(shr(a(), 1)))]),
        form(0, &[(1, binary(OR, a(), shr(n(64), 2)))]),
        form(0, &[(0, not(a())), (1, not(b()))]),
        form(
            0,
            &[
                (1, binary(AND, not(a()), n(15))),
                (1, binary(AND, a(), b())),
            ],
        ),
        // columns: unused atoms, variables by number, opaque ones
        form(0, &[(0, and(a(), 15)), (1, and(b(), 60))]),
        form(
            0,
            &[
                (1, binary(AND, b(), not(a()))),
                (1, shr(a(), 1)),
                (1, shr(n(64), 2)),
            ],
        ),
        form(0, &[(1, nested(&[NOT], 5, a())), (1, c())]),
    ];
    // a shift of a literal alone is no atom
    all.retain(|form| crate::form_model::read(&form.bytes()).is_ok());
    for count in 5..=7 {
        let leaf = |number: usize| variable(8, number as u16);
        let tree = crate::record::left_chain(XOR, count, leaf);
        all.push(form(0, &[(1, and(tree, 15))]));
    }
    all.iter().map(case).collect()
}
