//! Forms written directly, of atoms over several variables with literals and shifts, and forms whose
//! table is near one of its limits.

use crate::form::{Form, HEAD_BYTE, MAX_ATOMS, MAX_TREE_RECORDS};
use crate::normal_random::either;
use crate::pass_cases::{case, Case};
use crate::pass_groups::{bare, coefficient, form_of, one, several, Entry};
use crate::prng::Prng;
use crate::random;
use crate::record::{
    binary, literal, nested, unary, variable, Records, AND, CONSTANT, NOT, OR, SHR, XOR,
};

/// Forms of atoms over one to seven variables with literals and shifts, the shifts over variables
/// and over literals.
pub fn atoms(rng: &mut Prng, w: u8) -> Form {
    let mut entries = Vec::new();
    let most = rng.pick(&[4, 4, 4, 12, 40]);
    for _ in 0..1 + rng.below(most) {
        let variables = rng.pick(&[1, 1, 1, 1, 2, 3, 5, 6, 7]);
        let tree = atom(rng, variables, w);
        let coeff = match rng.one_in(6) {
            true => 0,
            false => coefficient(rng, &[], w),
        };
        entries.push(Entry { tree, coeff });
    }
    form_of(rng, entries, w)
}

/// A tree over exactly so many variables, with a few literals and shifts among them.
fn atom(rng: &mut Prng, variables: usize, w: u8) -> Records {
    let from = u16::from(rng.byte() % 4);
    let mut tree = variable(w, from);
    for number in 1..variables {
        let next = decorated(rng, variable(w, from + number as u16), w);
        let kind = rng.pick(&[AND, OR, XOR]);
        tree = either(rng, kind, tree, next);
    }
    for _ in 0..1 + rng.below(4) {
        tree = decorated(rng, tree, w);
    }
    tree
}

/// The tree below one more operator: Not, a shift, or a literal beside it.
fn decorated(rng: &mut Prng, tree: Records, w: u8) -> Records {
    let mut word = literal(w, random::word(rng, w));
    if rng.one_in(12) {
        word = unary(SHR, rng.pick(&[0, 1, w.min(63)]), word);
    }
    match rng.below(10) {
        0 | 1 => unary(NOT, 0, tree),
        2 if rng.one_in(2) => unary(SHR, rng.pick(&[0, 0, 1, w - 1]), tree),
        3 => tree,
        4 => {
            let mut same = tree.clone();
            // the same tree again, its literals changed
            for record in same.iter_mut().filter(|r| r.kind == CONSTANT) {
                record.literal ^= rng.word();
            }
            let kind = rng.pick(&[AND, OR, XOR]);
            binary(kind, tree, unary(NOT, 0, same))
        }
        _ => {
            let kind = rng.pick(&[AND, OR, XOR]);
            either(rng, kind, tree, word)
        }
    }
}

/// Forms whose table is at one of its limits, or a few short of it: a small form, and atoms without
/// terms in front or behind.
pub fn near_limits(rng: &mut Prng, w: u8) -> Form {
    let small = match rng.below(4) {
        0 => one(rng, w),
        1 => bare(rng, w),
        2 => atoms(rng, w),
        _ => several(rng, w),
    };
    let mut form = Form::new(w, small.constant);
    let in_front = rng.one_in(2);
    if in_front {
        fill(rng, &mut form, &small);
    }
    let first = form.atoms.len() as u16;
    form.atoms.extend(small.atoms.iter().cloned());
    for term in &small.terms {
        let mut term = *term;
        term.atom += first;
        form.terms.push(term);
    }
    if !in_front {
        fill(rng, &mut form, &Form::new(w, 0));
    }
    form
}

/// Atoms without terms, so many that the form and `more` are near one of the limits.
fn fill(rng: &mut Prng, form: &mut Form, more: &Form) {
    let w = form.width;
    let short = rng.pick(&[0, 0, 1, 2, 3, 4, 6, 8]);
    let size = |form: &Form| form.atoms.iter().map(|atom| atom.tree.len()).sum::<usize>();
    let atoms = form.atoms.len() + more.atoms.len();
    let records = size(form) + size(more);
    if rng.one_in(2) {
        for _ in atoms..MAX_ATOMS.saturating_sub(short) {
            if size(form) + size(more) < MAX_TREE_RECORDS {
                form.push(rng.byte() % 5, variable(w, u16::from(rng.byte())));
            }
        }
        return;
    }
    let left = MAX_TREE_RECORDS.saturating_sub(records + short);
    if left > 0 && atoms < MAX_ATOMS {
        let kind = rng.pick(&[NOT, SHR]);
        form.push(rng.byte() % 5, nested(&[kind], left - 1, variable(w, 0)));
    }
}

/// A term that refining cuts, one that is flattened, and terms that are recovered and coalesced, beside
/// atoms without terms: tables that the pass fills just up to one of the limits, and tables in which
/// it passes it.
pub fn edges() -> Vec<Case> {
    let (w, a) = (8, || variable(8, 0));
    let masked = |mask: u64| binary(AND, a(), literal(8, mask));
    let changed: [(Vec<(Records, u64)>, Vec<Records>); 4] = [
        (vec![(a(), 16)], vec![masked(15)]),
        (vec![(unary(NOT, 0, masked(15)), 1)], vec![masked(15)]),
        (vec![(masked(15), 1), (masked(240), 2)], vec![a()]),
        (
            vec![(masked(1), 1), (masked(2), 1), (masked(4), 2)],
            vec![masked(3), masked(4)],
        ),
    ];
    let mut all = Vec::new();
    for (terms, new) in changed {
        let with_terms = |mut form: Form| {
            for (tree, coeff) in &terms {
                form.push_term(HEAD_BYTE, tree.clone(), *coeff);
            }
            case(&form)
        };
        for atoms in [MAX_ATOMS - new.len(), MAX_ATOMS - new.len() + 1] {
            let mut form = Form::new(w, 1);
            for number in terms.len()..atoms {
                form.push(HEAD_BYTE, variable(w, 1 + (number - terms.len()) as u16));
            }
            all.push(with_terms(form));
        }
        let made: usize = new.iter().map(Vec::len).sum();
        let own: usize = terms.iter().map(|(tree, _)| tree.len()).sum();
        for short in [made, made - 1] {
            let mut form = Form::new(w, 1);
            let depth = MAX_TREE_RECORDS - short - own - 1;
            form.push(HEAD_BYTE, nested(&[NOT], depth, a()));
            all.push(with_terms(form));
        }
    }
    all
}
