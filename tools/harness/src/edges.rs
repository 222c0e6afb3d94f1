//! Hand-chosen expression files at each edge of document 01's rules, with an assignment each. The
//! model gives the expected answers.

use crate::entry::{self, Entry};
use crate::record::{
    self, balanced, binary, left_chain, literal, nested, right_chain, smallest, unary, variable,
    Record, Records, ADD, AND, CONCAT, CONSTANT, MAX_RECORDS, MUL, NEG, NOT, OR, RECORD_BYTES,
    SEXT, SHR, TRUNC, VARIABLE, XOR, ZEXT,
};

/// All hand-chosen cases of the entry type "expression value".
pub fn entries() -> Vec<Entry> {
    [
        lengths(),
        sizes(),
        kinds(),
        zero_bytes(),
        literals(),
        shifts(),
        widths(),
        casts(),
        pairs(),
        assignments(),
        operators(),
        deep_and_wide(),
    ]
    .concat()
}

/// An entry over the assignment v0 = 5, v1 = 3.
fn plain(records: &[Record]) -> Entry {
    raw(record::bytes(records))
}

fn raw(file: Vec<u8>) -> Entry {
    entry::value(file, vec![5, 3])
}

fn cut(mut file: Vec<u8>, length: usize) -> Vec<u8> {
    file.resize(length, 0);
    file
}

fn lengths() -> Vec<Entry> {
    let sum = record::bytes(&smallest(ADD, 0, 8));
    let chain = record::bytes(&nested(&[NEG], MAX_RECORDS, variable(8, 0)));
    let mut all: Vec<Entry> = [0, 1, 8, 15, 17, 31, 32, 33, 47, 48, 49, 64]
        .iter()
        .map(|&length| raw(cut(sum.clone(), length)))
        .collect();
    all.push(plain(&variable(8, 0)));
    for length in [16_383, 16_384, 16_385, 16_399, 16_400] {
        all.push(raw(cut(chain.clone(), length)));
    }
    all
}

/// `records` with the size of record `at` replaced.
fn resized(mut records: Records, at: usize, size: u16) -> Entry {
    records[at].size = size;
    plain(&records)
}

fn sizes() -> Vec<Entry> {
    let sum = || smallest(ADD, 0, 8);
    let of_nots = || {
        let not = || unary(NOT, 0, variable(8, 0));
        binary(ADD, not(), not())
    };
    let mut all = Vec::new();
    for size in [0, 2, 3, 255, 256, 257, 1024, 65_535] {
        all.push(resized(variable(8, 0), 0, size));
        all.push(resized(literal(8, 7), 0, size));
    }
    for size in [0, 1, 2, 4, 5, 259, 768, 65_535] {
        all.push(resized(sum(), 2, size));
    }
    for size in [0, 1, 3, 258] {
        all.push(resized(smallest(NEG, 0, 8), 1, size));
    }
    // children that overlap, or that leave a record between them, under a right or a wrong root
    for at in 0..5 {
        for size in 0..6 {
            all.push(resized(of_nots(), at, size));
        }
    }
    all.extend(missing_children());
    all
}

/// Operators without all their children, and more roots than one.
fn missing_children() -> Vec<Entry> {
    let not = |size| Record::new(NOT, 0, size, 8, 0);
    let add = |size| Record::new(ADD, 0, size, 8, 0);
    let leaf = Record::new(VARIABLE, 0, 1, 8, 0);
    let lists: [&[Record]; 11] = [
        &[not(1)],
        &[not(2)],
        &[add(1)],
        &[add(3)],
        &[leaf, add(2)],
        &[leaf, add(3)],
        &[leaf, leaf],
        &[leaf, leaf, not(2)],
        &[leaf, leaf, not(3)],
        &[leaf, leaf, leaf, add(3)],
        &[leaf, leaf, leaf, add(4)],
    ];
    let mut all: Vec<Entry> = lists.iter().map(|list| plain(list)).collect();
    // parents before their children
    let mut sum = smallest(ADD, 0, 8);
    sum.reverse();
    all.push(plain(&sum));
    all
}

fn kinds() -> Vec<Entry> {
    let mut all = Vec::new();
    for kind in (14..=40).chain([64, 127, 128, 137, 200, 254, 255]) {
        for size in 1..=3 {
            let mut records = smallest(ADD, 0, 8);
            records.drain(..3 - size);
            let root = records.last_mut().expect("a root");
            root.kind = kind;
            root.size = size as u16;
            all.push(plain(&records));
        }
    }
    for kind in CONSTANT..=CONCAT {
        all.push(plain(&smallest(kind, 0, 8)));
        // the same kind at the root of three records
        let mut records = smallest(ADD, 0, 8);
        records[2].kind = kind;
        all.push(plain(&records));
    }
    all
}

/// Each byte that must be 0 made 1, and made 128, in turn, for each kind.
fn zero_bytes() -> Vec<Entry> {
    let mut all = Vec::new();
    for kind in CONSTANT..=CONCAT {
        let file = record::bytes(&smallest(kind, 0, 8));
        let root = file.len() - RECORD_BYTES;
        for at in [1, 5, 6, 7, 8, 9, 10, 11, 12, 13, 14, 15] {
            for value in [1, 128] {
                let mut damaged = file.clone();
                damaged[root + at] = value;
                all.push(raw(damaged));
            }
        }
    }
    all
}

/// 2^w, or 0 at 64 bits.
fn top(w: u8) -> u64 {
    1u64.checked_shl(u32::from(w)).unwrap_or(0)
}

fn literals() -> Vec<Entry> {
    let mut all = Vec::new();
    for w in [1, 2, 7, 8, 31, 32, 33, 63, 64] {
        let edge = top(w);
        let values = [
            0,
            1,
            edge.wrapping_sub(1),
            edge,
            edge.wrapping_add(1),
            edge.wrapping_mul(3),
            0x8000_0000_0000_0000,
            u64::MAX,
        ];
        for value in values {
            all.push(plain(&literal(w, value)));
            all.push(plain(&unary(SHR, 1, literal(w, value))));
            all.push(plain(&unary(NOT, 0, literal(w, value))));
            all.push(plain(&unary(NEG, 0, literal(w, value))));
        }
    }
    all
}

fn shifts() -> Vec<Entry> {
    let mut all = Vec::new();
    for w in [1, 7, 8, 32, 63, 64] {
        let counts = [0, 1, w - 1, w, w + 1, 62, 63, 64, 65, 128, 254, 255];
        for count in counts {
            let shifted = unary(SHR, count, unary(NOT, 0, variable(w, 9)));
            all.push(plain(&shifted));
        }
    }
    // a count above 63 below the root, and over a literal
    all.push(plain(&unary(NOT, 0, unary(SHR, 64, variable(64, 0)))));
    all.push(plain(&unary(SHR, 64, literal(8, 0))));
    all
}

fn widths() -> Vec<Entry> {
    let mut all = Vec::new();
    for w in [0, 1, 2, 63, 64, 65, 66, 127, 128, 129, 192, 255] {
        all.push(plain(&literal(w, 7)));
        all.push(plain(&variable(w, 0)));
        all.push(plain(&smallest(MUL, 0, w)));
        all.push(plain(&smallest(NEG, 0, w)));
    }
    for at in 0..5 {
        for w in [0, 1, 7, 9, 64, 65, 255] {
            let mut records = binary(ADD, smallest(XOR, 0, 8), variable(8, 0));
            records[at].width = w;
            all.push(plain(&records));
        }
    }
    all
}

fn casts() -> Vec<Entry> {
    let mut all = Vec::new();
    for kind in ZEXT..=TRUNC {
        for arg in [0, 1, 8, 64, 65, 255] {
            all.push(plain(&smallest(kind, arg, 8)));
            all.push(plain(&unary(NEG, 0, smallest(kind, arg, 8))));
            all.push(plain(&binary(ADD, smallest(kind, arg, 8), variable(8, 0))));
        }
    }
    all.push(plain(&smallest(CONCAT, 0, 8)));
    all.push(plain(&unary(NOT, 0, smallest(CONCAT, 0, 8))));
    all.push(plain(&binary(MUL, literal(8, 0), smallest(CONCAT, 0, 8))));
    all
}

/// A subexpression of width 8 that alone is refused by the number given, 0 for accepted.
fn refused(number: u64) -> Records {
    let mut records = smallest(SHR, 1, 8);
    match number {
        3 => records[1].arg |= 256,
        4 => records[1].width = 65,
        5 => records[1].kind = SEXT,
        6 => records[1].arg = 64,
        _ => {}
    }
    records
}

/// Two and three refusals in one file: the lowest number wins, whichever record has it.
fn pairs() -> Vec<Entry> {
    let numbers = [0, 3, 4, 5, 6];
    let mut all = Vec::new();
    for first in numbers {
        for second in numbers {
            let both = binary(OR, refused(first), refused(second));
            all.push(plain(&both));
            let file = record::bytes(&both);
            all.push(raw(cut(file.clone(), file.len() - 1)));
            for third in numbers {
                all.push(plain(&binary(AND, both.clone(), refused(third))));
            }
        }
    }
    all.extend(pairs_in_one_record());
    all
}

/// Refusals that meet in one record, and a wrong kind or size beside another refusal.
fn pairs_in_one_record() -> Vec<Entry> {
    let mut shift = smallest(SHR, 255, 0);
    let mut all = vec![plain(&shift)];
    shift[1].zeros[1] = 1;
    all.push(plain(&shift));
    let mut cast = smallest(TRUNC, 8, 65);
    all.push(plain(&cast));
    cast[1].size = 3;
    all.push(plain(&cast));
    let mut kind = binary(ADD, smallest(ZEXT, 8, 8), variable(8, 0));
    kind[2].kind = 14;
    all.push(plain(&kind));
    kind[2].kind = VARIABLE;
    kind[2].size = 2;
    all.push(plain(&kind));
    let mut long = nested(&[TRUNC], MAX_RECORDS, variable(65, 0));
    long[0].kind = 14;
    all.push(plain(&long));
    all
}

fn assignments() -> Vec<Entry> {
    let mut all = Vec::new();
    for w in [1, 8, 63, 64] {
        let edge = top(w);
        let words = [
            vec![],
            vec![0],
            vec![u64::MAX],
            vec![edge],
            vec![edge.wrapping_add(1), edge.wrapping_sub(1)],
            vec![1, 2, u64::MAX - 1],
        ];
        for list in words {
            for number in [0, 1, 2, 3, 127, 128, 254, 255] {
                let file = record::bytes(&variable(w, number));
                all.push(entry::value(file, list.clone()));
            }
        }
    }
    // a word for every variable, and for all but the last
    let words: Vec<u64> = (0..256).map(|i| 0x0101_0101_0101_0101 * i).collect();
    for number in [0, 127, 128, 254, 255] {
        let file = record::bytes(&variable(64, number));
        all.push(entry::value(file.clone(), words.clone()));
        all.push(entry::value(file, words[..255].to_vec()));
    }
    all
}

/// Each operator on numbers at the edges of the width.
fn operators() -> Vec<Entry> {
    let mut all = Vec::new();
    for w in [1, 8, 63, 64] {
        let half = 1 << (w - 1);
        let edges = [0, 1, half, half - 1, top(w).wrapping_sub(1)];
        for kind in ADD..=NEG {
            let file = record::bytes(&smallest(kind, 0, w));
            for a in edges {
                for b in [1, half, top(w).wrapping_sub(1)] {
                    all.push(entry::value(file.clone(), vec![a, b]));
                }
            }
        }
    }
    all
}

fn deep_and_wide() -> Vec<Entry> {
    let leaf = |i: usize| match i % 3 {
        0 => literal(64, 0x0123_4567_89AB_CDEF_u64.wrapping_mul(i as u64 + 1)),
        _ => variable(64, (i % 7) as u16),
    };
    let depth = MAX_RECORDS - 1;
    let mut all = vec![
        plain(&nested(&[NEG], depth, variable(8, 0))),
        plain(&nested(&[NOT], depth, variable(64, 0))),
        plain(&nested(&[NOT, NEG], depth, variable(63, 0))),
        plain(&nested(&[SHR], depth, variable(1, 0))),
        plain(&left_chain(ADD, 512, leaf)),
        plain(&right_chain(XOR, 512, leaf)),
        plain(&balanced(ADD, 0, 512, &leaf)),
        plain(&unary(NEG, 0, balanced(ADD, 0, 512, &leaf))),
        plain(&[nested(&[NEG], 511, leaf(1)), nested(&[NEG], 511, leaf(1))].concat()),
    ];
    // one fault in the deepest record, and in the root, of a file of the greatest length
    let mut deepest = nested(&[NEG], depth - 1, unary(SHR, 64, variable(8, 0)));
    all.push(plain(&deepest));
    deepest[1] = Record::new(TRUNC, 8, 2, 8, 0);
    all.push(plain(&deepest));
    deepest[0].width = 9;
    all.push(plain(&deepest));
    deepest[0].kind = 14;
    all.push(plain(&deepest));
    all.push(resized(nested(&[NEG], depth, variable(8, 0)), depth, 1023));
    all
}
