//! The passes and the columns in the benchmark: the published Rust on a form that is there, the Rust
//! with reading and writing the same bytes, and the library. An atom that was read has its variables
//! but no truth table, and the family Mixed, for no pass looks at either.

use std::hint::black_box;
use std::sync::Arc;

use crate::bench_rust as rust;
use crate::bench_table::{Measured, CORE, WHOLE};
use crate::columns::{self, RESULT_WORDS};
use crate::core::expr::Expr;
use crate::core::expr_utils::collect_vars;
use crate::form::RESULT_BYTES;
use crate::ir::semilinear::{
    compact_atom_table, AtomInfo, AtomKey, OperatorFamily, PartitionClass, SemilinearIR,
    WeightedAtom,
};
use crate::ir::structure_recovery::{coalesce_terms, flatten_complex_atoms, recover_structure};
use crate::ir::term_refiner::refine_terms;
use crate::library_forms as library;
use crate::measure::{medians, stack_used};
use crate::pass::{self, Pass};
use crate::passes::bit_partitioner::compute_partitions;
use crate::record::Record;
use crate::refusal::RESULT_LENGTH;

/// A pass over one form. The library's answer, every byte of it, must be that of the Rust with the
/// partings, and so must the timed Rust's where no order of maps is in it.
pub fn passing(pass: Pass, form: &[u8], refusal: u64) -> Result<Measured, String> {
    let ir = read(form).map_err(|refusal| format!("the Rust refuses by {refusal}"))?;
    let wanted = pass::answer(pass, form, RESULT_BYTES);
    let mut out = vec![1; RESULT_BYTES];
    let ordered = !matches!(pass, Pass::Recover | Pass::Coalesce);
    let found = passed(pass, form, &mut out);
    if ordered && (found != wanted.numbers() || out != wanted.out) {
        return Err("the Rust's answer is not that with the partings".to_string());
    }
    out.fill(1);
    let mut answer = [0; 4];
    let stack = stack_used(&mut || answer = library::pass_into(pass, form, &mut out))?;
    let same = answer == wanted.numbers() && out == wanted.out;
    if !same || answer[0] != refusal {
        return Err("the library's answer is not the Rust's".to_string());
    }
    let times = medians(|subject| match subject {
        CORE => {
            let mut ir = ir.clone();
            black_box(apply(pass, &mut ir));
            drop(black_box(ir));
        }
        WHOLE => drop(black_box(passed(pass, form, &mut out))),
        _ => drop(black_box(library::pass_into(pass, form, &mut out))),
    });
    Ok(Measured { times, stack })
}

/// The columns of one form, likewise.
pub fn partitioning(form: &[u8], _: u64) -> Result<Measured, String> {
    let ir = read(form).map_err(|refusal| format!("the Rust refuses by {refusal}"))?;
    let wanted = columns::answer(form, RESULT_WORDS);
    let mut out = vec![1; RESULT_WORDS];
    let numbers = [wanted.refusal, wanted.classes];
    if partitioned(form, &mut out) != numbers || out != wanted.out {
        return Err("the Rust's answer is not that with the partings".to_string());
    }
    out.fill(1);
    let mut answer = [0; 2];
    let stack = stack_used(&mut || answer = library::columns_into(form, &mut out))?;
    if answer != numbers || out != wanted.out {
        return Err("the library's answer is not the Rust's".to_string());
    }
    let times = medians(|subject| match subject {
        CORE => drop(black_box(compute_partitions(&ir))),
        WHOLE => drop(black_box(partitioned(form, &mut out))),
        _ => drop(black_box(library::columns_into(form, &mut out))),
    });
    Ok(Measured { times, stack })
}

/// The published pass, as it is; whether it flattened.
pub fn apply(pass: Pass, ir: &mut SemilinearIR) -> bool {
    match pass {
        Pass::Refine => refine_terms(ir),
        Pass::Recover => recover_structure(ir),
        Pass::Coalesce => coalesce_terms(ir),
        Pass::Flatten => return flatten_complex_atoms(ir),
        Pass::Compact => compact_atom_table(ir),
    }
    false
}

/// A pass from bytes to bytes, with every byte of `out` written: the refusal and the numbers.
pub fn passed(pass: Pass, form: &[u8], out: &mut [u8]) -> [u64; 4] {
    let written = read(form).and_then(|mut ir| {
        let flattened = apply(pass, &mut ir);
        let [refusal, used, terms] = rust::write(&ir, out)?;
        Ok([refusal, used, terms, u64::from(flattened)])
    });
    written.unwrap_or_else(|refusal| {
        out.fill(0);
        [refusal, 0, 0, 0]
    })
}

/// The columns from bytes to words, with every word of `out` written: the refusal and the count.
fn partitioned(form: &[u8], out: &mut [u64]) -> [u64; 2] {
    let written = read(form).and_then(|ir| match out.len() {
        RESULT_WORDS => Ok(compute_partitions(&ir)),
        _ => Err(RESULT_LENGTH),
    });
    match written {
        Ok(classes) => [0, put(classes, out)],
        Err(refusal) => {
            out.fill(0);
            [refusal, 0]
        }
    }
}

/// Writes the classes by lowest place and zeros behind them; returns their count.
fn put(mut classes: Vec<PartitionClass>, out: &mut [u64]) -> u64 {
    classes.sort_by_key(|class| class.mask.trailing_zeros());
    let mut at = 0;
    for class in &classes {
        let end = at + 1 + class.profile.len();
        out[at] = class.mask;
        out[at + 1..end].copy_from_slice(&class.profile);
        at = end;
    }
    out[at..].fill(0);
    classes.len() as u64
}

/// The Rust's form of bytes, or the lowest refusal.
fn read(form: &[u8]) -> Result<SemilinearIR, u64> {
    let sum = rust::read_form(form)?;
    let atoms = sum.atoms.into_iter().zip(sum.heads);
    let atom = |(number, (tree, head)): (u32, (Arc<Expr>, Record))| {
        let mut support = Vec::new();
        collect_vars(&tree, &mut support);
        support.sort_unstable();
        support.dedup();
        AtomInfo {
            atom_id: number,
            key: AtomKey {
                support,
                truth_table: Vec::new(),
            },
            original_subtree: tree,
            structural_hash: head.literal,
            provenance: OperatorFamily::Mixed,
        }
    };
    let term = |(coeff, number): (u64, usize)| WeightedAtom {
        coeff,
        atom_id: number as u32,
    };
    Ok(SemilinearIR {
        constant: sum.constant,
        terms: sum.terms.into_iter().map(term).collect(),
        atom_table: (0u32..).zip(atoms).map(atom).collect(),
        bitwidth: sum.w,
    })
}
