//! Cases with variables of two bytes: worked ones for every function, random ones made by renaming the
//! variables of those of the other families, and records with byte 5, 6 or 7 set.

use crate::collide;
use crate::entry::{self, Entry, MAX_WORDS};
use crate::family::{family, Family};
use crate::form::{Form, HEAD_BYTE, RESULT_BYTES};
use crate::form_edges::{both, of_tree};
use crate::form_random::{self, rehash};
use crate::list::{self, words};
use crate::list_cases;
use crate::normal_cases as normal;
use crate::normal_limits as limits;
use crate::normal_model;
use crate::normal_random;
use crate::numbers::{assignment, eight, renamed, renamed_form, spoil, EDGES};
use crate::pass::PASSES;
use crate::pass_cases as passes;
use crate::prng::Prng;
use crate::random::{self, Kinds};
use crate::record::{
    self, arity, balanced, binary, left_chain, literal, right_chain, unary, variable, Records, ADD,
    AND, CONSTANT, MUL, NEG, NOT, OR, RECORD_BYTES, SHR, XOR,
};
use crate::{cases, pass_atoms, pass_groups};

/// Families of expressions to be normalised.
pub const NORMAL: [Family<normal::Case>; 4] = [
    family("numbers of two bytes, worked", 0, 0, |_, _| {
        normal::cases(expressions())
    }),
    family("numbers of two bytes", 20_000, 150, normalised),
    family("numbers of two bytes, one hash", 2_000, 30, |rng, n| {
        collide::collisions_over(rng, n, eight)
    }),
    family("bytes 5, 6 and 7 of records", 4_000, 60, spoiled),
];

/// Families of forms for the passes and the columns.
pub const FORMS: [Family<passes::Case>; 4] = [
    family("numbers of two bytes, worked", 0, 0, |_, _| {
        forms().iter().map(passes::case).collect()
    }),
    family("numbers of two bytes", 16_000, 60, random_forms),
    family("numbers of two bytes, one hash", 2_000, 20, |rng, n| {
        passes::made(rng, n, pass_groups::colliding_over_all)
    }),
    family("bytes 5, 6 and 7 of records", 4_000, 40, spoiled_forms),
];

/// Families of lists of passes.
pub const LISTS: [Family<list::Case>; 2] = [
    family("numbers of two bytes, worked", 0, 0, |_, _| lists()),
    family("numbers of two bytes", 20_000, 40, random_lists),
];

const RANDOM_VALUES: usize = 120;
const SPOILED_VALUES: usize = 60;
const RANDOM_HASHES: usize = 60;
const RANDOM_FORMS: usize = 20;
const SPOILED_FORMS: usize = 40;

/// All entries of the vector file, in order.
pub fn entries(rng: &mut Prng) -> Vec<Entry> {
    let mut all = values();
    all.extend((0..RANDOM_VALUES).map(|_| random_value(rng, MAX_WORDS)));
    all.extend((0..SPOILED_VALUES).map(|_| spoiled_value(rng, MAX_WORDS)));
    all.extend(hashes(rng));
    all.extend(form_values());
    for _ in 0..RANDOM_FORMS {
        let form = random_form(rng, 40);
        all.push(entry::form_value(form.bytes(), assignment(rng, MAX_WORDS)));
        all.push(entry::compact(form.bytes(), RESULT_BYTES));
    }
    for _ in 0..SPOILED_FORMS {
        let bytes = spoiled_form(rng);
        all.push(entry::form_value(bytes.clone(), assignment(rng, MAX_WORDS)));
        all.push(entry::compact(bytes, RESULT_BYTES));
    }
    all
}

/// A random expression over variables of two bytes, under an assignment of up to `longest` words.
pub fn random_value(rng: &mut Prng, longest: usize) -> Entry {
    entry::value(random_expression(rng, 40), assignment(rng, longest))
}

fn random_expression(rng: &mut Prng, most: usize) -> Vec<u8> {
    let w = random::width(rng);
    let count = 1 + rng.below(most);
    let records = random::expression(rng, count, w, Kinds::Accepted);
    renamed(rng, &record::bytes(&records))
}

/// Such an expression with byte 5, 6 or 7 of a record set. It may be accepted.
pub fn spoiled_value(rng: &mut Prng, longest: usize) -> Entry {
    let mut file = random_expression(rng, 12);
    spoil(rng, &mut file);
    entry::value(file, assignment(rng, longest))
}

/// A random valid form of 1 to `most` atoms over variables of two bytes.
pub fn random_form(rng: &mut Prng, most: usize) -> Form {
    let form = cases::random_form(rng, most);
    renamed_form(rng, &form)
}

/// The bytes of such a form with byte 5, 6 or 7 of a record set, half of them with the hashes set
/// right afterwards. They may be a form.
pub fn spoiled_form(rng: &mut Prng) -> Vec<u8> {
    let mut bytes = random_form(rng, 4).bytes();
    spoil(rng, &mut bytes);
    if rng.one_in(2) {
        let mut records = record::split(&bytes);
        rehash(&mut records);
        bytes = record::bytes(&records);
    }
    bytes
}

/// The word of each variable in stored assignments.
fn word(number: usize) -> u64 {
    0x0001_0203_0405_0607_u64.wrapping_mul(2 * number as u64 + 3)
}

fn first_words(count: usize) -> Vec<u64> {
    (0..count).map(word).collect()
}

/// Records of one number or another: v0, v255, v256 and v65535, byte 6 of a variable, and byte 5 of a
/// literal.
pub const RECORDS: [[u8; RECORD_BYTES]; 6] = [
    [1, 0, 1, 0, 8, 0, 0, 0, 0, 0, 0, 0, 0, 0, 0, 0],
    [1, 255, 1, 0, 8, 0, 0, 0, 0, 0, 0, 0, 0, 0, 0, 0],
    [1, 0, 1, 0, 8, 1, 0, 0, 0, 0, 0, 0, 0, 0, 0, 0],
    [1, 255, 1, 0, 8, 255, 0, 0, 0, 0, 0, 0, 0, 0, 0, 0],
    [1, 0, 1, 0, 8, 0, 1, 0, 0, 0, 0, 0, 0, 0, 0, 0],
    [0, 0, 1, 0, 8, 1, 0, 0, 5, 0, 0, 0, 0, 0, 0, 0],
];

const LENGTHS: [usize; 7] = [0, 1, 255, 256, 257, 511, 512];

fn values() -> Vec<Entry> {
    let mut all = Vec::new();
    for file in RECORDS {
        for count in LENGTHS {
            all.push(entry::value(file.to_vec(), first_words(count)));
        }
    }
    for number in EDGES {
        for count in LENGTHS {
            let file = record::bytes(&variable(64, number));
            all.push(entry::value(file, first_words(count)));
        }
    }
    for tree in expressions() {
        for words in [vec![5], first_words(512)] {
            all.push(entry::value(record::bytes(&tree), words));
        }
    }
    // all ones but in one word, at which the And of all variables is not all ones
    for at in [0, 255, 256, 511] {
        let mut words = vec![u64::MAX; 512];
        words[at] = word(at);
        all.push(entry::value(record::bytes(&of_512(AND, 0)), words));
    }
    all.extend(set_bytes().into_iter().map(|file| {
        // v0, v1, v256 and v257 differ
        entry::value(file, first_words(258))
    }));
    all
}

/// Byte 5, 6 and 7 of each record set in turn, in a tree of each kind over a variable and a literal.
fn set_bytes() -> Vec<Vec<u8>> {
    let mut all = Vec::new();
    for kind in CONSTANT..=SHR {
        let tree = match arity(kind) {
            0 => binary(ADD, record::smallest(kind, 0, 8), variable(8, 1)),
            1 => binary(
                ADD,
                unary(kind, 0, variable(8, 0)),
                unary(kind, 0, literal(8, 5)),
            ),
            _ => binary(kind, variable(8, 0), literal(8, 5)),
        };
        all.extend(each_set(&record::bytes(&tree)));
    }
    all
}

/// The file with byte 5, 6 and 7 of each record set to 1, and byte 5 to 255.
fn each_set(file: &[u8]) -> Vec<Vec<u8>> {
    let mut all = Vec::new();
    for start in (0..file.len()).step_by(RECORD_BYTES) {
        for (at, byte) in [(5, 1), (5, 255), (6, 1), (7, 1)] {
            let mut copy = file.to_vec();
            copy[start + at] = byte;
            all.push(copy);
        }
    }
    all
}

fn hashes(rng: &mut Prng) -> Vec<Entry> {
    let mut all: Vec<Entry> = EDGES
        .iter()
        .map(|number| entry::hash(&variable(8, *number)))
        .collect();
    all.extend(expressions().iter().map(|tree| entry::hash(tree)));
    for _ in 0..RANDOM_HASHES {
        let file = random_expression(rng, 40);
        all.push(entry::hash(&record::split(&file)));
    }
    all
}

fn v(number: u16) -> Records {
    variable(8, number)
}

fn n(value: u64) -> Records {
    literal(8, value)
}

fn masked(number: u16, mask: u64) -> Records {
    binary(AND, v(number), n(mask))
}

fn sum(terms: &[Records]) -> Records {
    balanced(ADD, 0, terms.len(), &|i| terms[i].clone())
}

/// One tree over 512 variables, the first of which is given: 1,023 records.
pub fn of_512(kind: u8, first: u16) -> Records {
    left_chain(kind, 512, |i| variable(64, first + i as u16))
}

/// Variables whose hashes rise in another order than their numbers: 3, 0, 255, 65535, 256.
pub const BY_HASH: [u16; 5] = [3, 0, 255, 65_535, 256];

/// Expressions that show a rule each, all accepted by the value.
pub fn expressions() -> Vec<Records> {
    let twice = |x: Records| binary(MUL, n(2), x);
    let not = |x: Records| unary(NOT, 0, x);
    let mut all = Vec::new();
    // two variables, and not one, though they share a byte or have the bytes exchanged
    for (one, two) in [
        (256, 0),
        (257, 1),
        (1, 256),
        (65_535, 255),
        (65_280, 255),
        (511, 256),
    ] {
        all.extend([
            sum(&[v(one), twice(v(two))]),
            sum(&[v(one), unary(NEG, 0, v(two))]),
            binary(XOR, v(one), v(two)),
            sum(&[masked(one, 15), masked(two, 15)]),
            sum(&[masked(one, 15), masked(one, 240), masked(two, 15)]),
            binary(OR, v(one), n(15)),
            // shared by its truth table, over the same variables or not
            sum(&[binary(AND, v(one), v(two)), binary(AND, v(two), v(one))]),
            sum(&[
                not(binary(AND, not(v(one)), v(two))),
                binary(OR, v(one), not(v(two))),
                binary(OR, v(two), not(v(one))),
            ]),
        ]);
    }
    all.extend([v(0), v(255), v(256), v(65_535)]);
    all.push(binary(MUL, v(0), v(256)));
    all.push(left_chain(AND, 4, |i| v([0, 1, 256, 257][i])));
    // five variables have a table, six have none
    for count in [5, 6] {
        let numbers = [65_535, 256, 0, 255, 257, 1];
        let tree = |kind| left_chain(kind, count, |i| v(numbers[i]));
        let back = |kind| right_chain(kind, count, |i| v(numbers[i]));
        all.push(sum(&[tree(XOR), back(XOR), tree(AND), back(AND)]));
    }
    all.push(sum(&BY_HASH.map(|number| masked(number, 15))));
    // tables of 256 atoms, and of one more
    let sum_of = |first: u16, count: usize| balanced(ADD, 0, count, &|i| v(first + i as u16));
    all.extend([
        sum_of(0, 256),
        sum_of(0, 257),
        sum_of(1, 256),
        sum_of(65_280, 256),
    ]);
    all.extend([
        of_512(AND, 0),
        of_512(XOR, 0),
        of_512(XOR, 65_024),
        of_512(OR, 65_024),
    ]);
    all
}

/// Forms for the passes, the columns and the value.
pub fn forms() -> Vec<Form> {
    let not = |x: Records| unary(NOT, 0, x);
    let form = |terms: &[(u64, Records)]| {
        let mut form = Form::new(8, 9);
        for (coeff, tree) in terms {
            match coeff {
                0 => form.push(HEAD_BYTE, tree.clone()),
                _ => form.push_term(HEAD_BYTE, tree.clone(), *coeff),
            }
        }
        form
    };
    let mut all = Vec::new();
    // groups by rising hash, whatever the order of the atoms: new atoms come in that order
    for order in [
        [65_535, 256, 255, 3, 0],
        [0, 3, 255, 256, 65_535],
        [256, 65_535, 0, 255, 3],
    ] {
        let of_each = |terms: &dyn Fn(u16) -> Vec<(u64, Records)>| {
            form(
                &order
                    .iter()
                    .flat_map(|number| terms(*number))
                    .collect::<Vec<_>>(),
            )
        };
        all.extend([
            of_each(&|i| vec![(16, v(i))]),
            of_each(&|i| vec![(1, masked(i, 15)), (1, masked(i, 240))]),
            of_each(&|i| vec![(1, masked(i, 15)), (2, masked(i, 240))]),
            of_each(&|i| vec![(1, masked(i, 1)), (1, masked(i, 2)), (2, masked(i, 4))]),
            of_each(&|i| vec![(3, not(v(i)))]),
        ]);
    }
    for number in EDGES {
        let with = |x: Records| form(&[(3, x)]);
        all.extend([
            with(binary(XOR, v(number), n(5))),
            with(not(masked(number, 60))),
            with(binary(OR, v(number), not(v(number)))),
            with(unary(SHR, 0, v(number))),
            with(not(unary(SHR, 1, v(number)))),
            form(&[
                (1, masked(number, 252)),
                (255, masked(number, 3)),
                (0, v(number)),
            ]),
        ]);
    }
    // two groups, and not one; two variables, and not one
    for (one, two) in [(256, 0), (1, 256), (257, 1), (65_535, 255), (511, 65_281)] {
        all.extend([
            form(&[(1, masked(one, 15)), (1, masked(two, 240))]),
            form(&[(1, masked(one, 15)), (2, masked(one, 240)), (0, v(two))]),
            form(&[(1, binary(XOR, v(one), binary(AND, v(two), n(15))))]),
            form(&[
                (1, binary(AND, not(v(two)), v(one))),
                (1, binary(OR, v(one), not(v(two)))),
            ]),
        ]);
    }
    let chain = |count: usize, numbers: [u16; 6]| left_chain(XOR, count, |i| v(numbers[i]));
    for numbers in [
        [255, 256, 65_535, 0, 1, 257],
        [65_535, 65_534, 512, 511, 256, 255],
    ] {
        for count in 2..=6 {
            all.push(form(&[(1, binary(AND, chain(count, numbers), n(15)))]));
        }
    }
    for (kind, first) in [(AND, 0), (XOR, 65_024)] {
        all.push(of_tree(64, of_512(kind, first)));
    }
    all
}

/// Values and compaction of forms: the ones above, and the bytes of a form set one at a time.
fn form_values() -> Vec<Entry> {
    let mut all = Vec::new();
    for form in forms() {
        all.push(entry::form_value(form.bytes(), first_words(258)));
    }
    let mut form = Form::new(8, 7);
    for number in [0, 256, 1, 65_535] {
        form.push_term(HEAD_BYTE, masked(number, 15), 1 + u64::from(number % 5));
    }
    for count in LENGTHS {
        all.push(entry::form_value(form.bytes(), first_words(count)));
    }
    let mut small = Form::new(8, 7);
    small.push_term(0, masked(256, 15), 3);
    small.push_term(3, unary(NOT, 0, unary(SHR, 1, v(65_535))), 5);
    for file in each_set(&small.bytes()) {
        all.extend(both(file.clone()));
        // with the hash of the tree that stands there now
        let mut records = record::split(&file);
        rehash(&mut records);
        all.extend(both(record::bytes(&records)));
    }
    // the hash of another variable that shares a byte
    for (number, other) in [(256, 0), (0, 256), (65_535, 255), (1, 256), (257, 1)] {
        let mut records = of_tree(8, v(number)).records();
        records[1].arg = other;
        all.extend(both(record::bytes(&records)));
    }
    all
}

/// Lists of calls: from the expressions the five passes, once and twice, or one pass, by turns; from sums
/// with the atoms of the forms of groups each pass alone and the five in order.
fn lists() -> Vec<list::Case> {
    let whole = PASSES.map(|pass| (pass, RESULT_BYTES));
    let mut all = Vec::new();
    for (number, tree) in expressions().iter().enumerate() {
        let list = match number % 3 {
            0 => words(&whole),
            1 => words(&whole.repeat(2)),
            _ => words(&[whole[number / 3 % 5], whole[4]]),
        };
        all.push(list_cases::case(record::bytes(tree), list));
    }
    let groups = forms().into_iter().filter(|form| form.atoms.len() >= 5);
    for file in groups.filter_map(|form| list_cases::sum_of(&form)) {
        all.push(list_cases::case(file.clone(), words(&whole)));
        all.extend(whole.map(|call| list_cases::case(file.clone(), words(&[call]))));
    }
    all
}

/// Expressions of the random families with their variables renamed.
fn normalised(rng: &mut Prng, count: usize) -> Vec<normal::Case> {
    let families = [
        normal_random::sums,
        normal_random::sums,
        normal_random::sums,
        normal_random::any,
        normal_random::tables,
        normal_random::tables,
        normal_random::lowering,
        normal_random::products,
        normal_random::constants,
        normal_random::nonlinear,
        normal_random::casts,
    ];
    (0..count)
        .map(|number| {
            let make: fn(&mut Prng, usize) -> Vec<normal::Case> = match number % 40 {
                39 => limits::atoms,
                _ => rng.pick(&families),
            };
            let mut one = make(rng, 1).remove(0);
            one.file = renamed(rng, &one.file);
            one
        })
        .collect()
}

/// The same with byte 5, 6 or 7 of a record set, a third of them damaged elsewhere.
fn spoiled(rng: &mut Prng, count: usize) -> Vec<normal::Case> {
    let mut all = normalised(rng, count);
    for one in &mut all {
        spoil(rng, &mut one.file);
        if rng.one_in(3) {
            one.file = random::damaged(rng, &one.file);
        }
    }
    all
}

/// Forms of the random families with their variables renamed, and those of such expressions.
fn random_forms(rng: &mut Prng, count: usize) -> Vec<passes::Case> {
    (0..count).map(|_| passes::case(&any_form(rng))).collect()
}

fn any_form(rng: &mut Prng) -> Form {
    let families = [
        pass_groups::one,
        pass_groups::several,
        pass_groups::several,
        pass_groups::apart,
        pass_groups::bare,
        pass_atoms::atoms,
        pass_atoms::atoms,
    ];
    match rng.below(64) {
        0 => {
            let w = random::width(rng);
            let form = pass_atoms::near_limits(rng, w);
            renamed_form(rng, &form)
        }
        1..=8 => random_form(rng, 8),
        9..=24 => loop {
            let one = normalised(rng, 1).remove(0);
            let answer = normal_model::answer(&one.file, one.length);
            if answer.refusal == 0 {
                return crate::form_model::read(answer.form()).expect("a form");
            }
        },
        _ => {
            let make: fn(&mut Prng, u8) -> Form = rng.pick(&families);
            let w = random::width(rng);
            let form = make(rng, w);
            renamed_form(rng, &form)
        }
    }
}

/// The same with byte 5, 6 or 7 of a record set, or damaged elsewhere.
fn spoiled_forms(rng: &mut Prng, count: usize) -> Vec<passes::Case> {
    (0..count)
        .map(|_| {
            let file = match rng.one_in(3) {
                true => {
                    let form = any_form(rng);
                    form_random::damaged(rng, &form)
                }
                false => spoiled_form(rng),
            };
            passes::Case { file, excess: 0 }
        })
        .collect()
}

/// Lists from such expressions, from sums written from forms, and from a few that are refused.
fn random_lists(rng: &mut Prng, count: usize) -> Vec<list::Case> {
    (0..count)
        .map(|_| {
            let file = match rng.below(8) {
                0 => spoiled(rng, 1).remove(0).file,
                1 | 2 => normalised(rng, 1).remove(0).file,
                _ => {
                    let file = list_cases::from_form(rng);
                    renamed(rng, &file)
                }
            };
            list_cases::case(file, list_cases::random_words(rng, &PASSES))
        })
        .collect()
}
