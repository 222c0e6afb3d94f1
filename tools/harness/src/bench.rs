//! The benchmark: the published Rust alone, the Rust with reading and writing the same bytes, and the
//! static library, on the same inputs in one run. It prints the text that stands in
//! docs/ARCHITECTURE.md between two marks, and puts it there where it is given that file.

use std::hint::black_box;

use crate::bench_inputs::{self, Class};
use crate::bench_rust::{self as rust, Sum, Whole};
use crate::bench_table::{text, Measured, Row, CORE, WHOLE};
use crate::form::RESULT_BYTES;
use crate::library;
use crate::library_forms::normalize_into;
use crate::measure::{medians, stack_used};
use crate::pass::{self, PASSES};
use crate::record::RECORD_BYTES;
use crate::{bench_forms, bench_lists, bench_passes};

/// The marks around the printed text in a document.
const BEGIN: &str = "<!-- printed by tools/harness/run.sh bench -->\n";
const END: &str = "<!-- end of what it printed -->\n";

pub fn run(document: Option<&str>) -> Result<(), String> {
    let mut classes = bench_inputs::classes();
    classes.push(bench_inputs::one_atom());
    let mut rows = Vec::new();
    for class in &classes {
        rows.push(row(
            "normalize_to_semilinear",
            class,
            class.refusal,
            normalizing,
        )?);
    }
    for class in &classes {
        rows.push(row("expr_value", class, 0, expr_value)?);
    }
    for class in classes.iter().filter(|class| class.refusal == 0) {
        rows.push(row("semilinear_value", class, 0, form_value)?);
    }
    rows.extend(form_rows(&classes[0].files)?);
    rows.push(row("run_passes", &classes[0], 0, bench_lists::running)?);
    let text = text(&rows);
    print!("{text}");
    match document {
        Some(path) => put_into(path, &text),
        None => Ok(()),
    }
}

/// The rows of the passes and the columns.
fn form_rows(expressions: &[Vec<u8>]) -> Result<Vec<Row>, String> {
    let classes = bench_forms::classes(expressions);
    let mut rows = Vec::new();
    for pass in PASSES {
        for class in &classes {
            let refusal = pass::answer(pass, &class.files[0], RESULT_BYTES).refusal;
            let measure = |form: &[u8], refusal| bench_passes::passing(pass, form, refusal);
            rows.push(row(pass.name(), class, refusal, measure)?);
        }
    }
    for class in &classes {
        let measure = bench_passes::partitioning;
        rows.push(row("compute_partitions", class, 0, measure)?);
    }
    Ok(rows)
}

/// Puts the text between the marks of a document.
fn put_into(path: &str, text: &str) -> Result<(), String> {
    let old = std::fs::read_to_string(path).map_err(|e| format!("{path}: {e}"))?;
    let parts = old.split_once(BEGIN).and_then(|(before, rest)| {
        let (_, after) = rest.split_once(END)?;
        Some((before, after))
    });
    let (before, after) = parts.ok_or_else(|| format!("{path} does not have the two marks"))?;
    let new = format!("{before}{BEGIN}\n{text}\n{END}{after}");
    std::fs::write(path, new).map_err(|e| format!("{path}: {e}"))
}

fn row(
    function: &'static str,
    class: &Class,
    refusal: u64,
    measure: impl Fn(&[u8], u64) -> Result<Measured, String>,
) -> Result<Row, String> {
    let records = class.files.iter().map(|file| file.len() / RECORD_BYTES);
    let inputs: Result<Vec<Measured>, String> = class
        .files
        .iter()
        .map(|file| measure(file, refusal))
        .collect();
    Ok(Row {
        function,
        class: class.name.to_string(),
        records: (
            records.clone().min().expect("an input"),
            records.max().expect("an input"),
        ),
        refusal,
        inputs: inputs.map_err(|e| format!("{function}, {}: {e}", class.name))?,
    })
}

/// Normalising one expression. The library's answer, every byte of it, must be the Rust's.
fn normalizing(file: &[u8], refusal: u64) -> Result<Measured, String> {
    let whole = expression(file)?;
    let mut out = vec![1; RESULT_BYTES];
    let wanted = rust::normalize(file, &mut out);
    let bytes = out.clone();
    out.fill(1);
    let mut answer = [0; 3];
    let stack = stack_used(&mut || answer = normalize_into(file, &mut out))?;
    if answer != wanted || out != bytes || answer[0] != refusal {
        return Err("the library's answer is not the Rust's".to_string());
    }
    let times = medians(|subject| match subject {
        CORE => drop(black_box(rust::core(&whole))),
        WHOLE => drop(black_box(rust::normalize(file, &mut out))),
        _ => drop(black_box(normalize_into(file, &mut out))),
    });
    Ok(Measured { times, stack })
}

fn expression(file: &[u8]) -> Result<Whole, String> {
    rust::read(file).map_err(|refusal| format!("the Rust refuses by {refusal}"))
}

/// The value of one expression.
fn expr_value(file: &[u8], _: u64) -> Result<Measured, String> {
    let whole = expression(file)?;
    let vars = bench_inputs::assignment();
    let mut answer = None;
    let stack = stack_used(&mut || answer = Some(library::expr_value(file, &vars)))?;
    if answer != Some(rust::expr_value(file, &vars)) {
        return Err("the library's value is not the Rust's".to_string());
    }
    let times = medians(|subject| match subject {
        CORE => drop(black_box(rust::value(&whole, &vars))),
        WHOLE => drop(black_box(rust::expr_value(file, &vars))),
        _ => drop(black_box(library::expr_value(file, &vars))),
    });
    Ok(Measured { times, stack })
}

/// The value of the form of one expression.
fn form_value(file: &[u8], _: u64) -> Result<Measured, String> {
    let mut form = vec![0; RESULT_BYTES];
    let [refusal, used, _] = rust::normalize(file, &mut form);
    form.truncate(used as usize);
    let sum: Result<Sum, u64> = rust::read_form(&form);
    let sum = sum.map_err(|_| format!("the Rust has no form: {refusal}"))?;
    let vars = bench_inputs::assignment();
    let mut answer = None;
    let stack = stack_used(&mut || answer = Some(library::semilinear_value(&form, &vars)))?;
    if answer != Some(rust::form_value(&form, &vars)) {
        return Err("the library's value is not the Rust's".to_string());
    }
    let times = medians(|subject| match subject {
        CORE => drop(black_box(rust::sum_value(&sum, &vars))),
        WHOLE => drop(black_box(rust::form_value(&form, &vars))),
        _ => drop(black_box(library::semilinear_value(&form, &vars))),
    });
    Ok(Measured { times, stack })
}
