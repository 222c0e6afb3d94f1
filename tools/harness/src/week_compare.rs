//! The best week by the static library beside the direct computation; its stack, and its time beside
//! that of the direct computation at rising lengths.

use std::hint::black_box;

use hogzelt::raw;

use crate::cases::SEED;
use crate::differences::hex;
use crate::library::UNWRITTEN;
use crate::measure::{medians, stack_used};
use crate::prng::Prng;
use crate::record::RECORD_BYTES;
use crate::refusal::{DAYS_NOT_RISING, NO_RUN};
use crate::stack::show_stack;
use crate::week::{answer, damaged, days, random, run_bytes, Answer, MOST_RECORDS, RUN_BYTES};

const FUNCTION: &str = "hogzelt_best_week";
const RANDOM_RUNS: usize = 200_000;
/// Every so many runs may have as many records as there can be.
const LONG_EVERY: usize = 99;

/// The library's answer, with other numbers in the results before.
pub fn best_week(run: &[u8]) -> Answer {
    let (mut found, mut total, mut day) = (UNWRITTEN, UNWRITTEN as i64, UNWRITTEN);
    // SAFETY: the slice is valid for its length, and the three numbers lie apart from it.
    let refusal = unsafe {
        raw::hogzelt_best_week(run.as_ptr(), run.len(), &mut found, &mut total, &mut day)
    };
    Answer {
        refusal,
        found,
        total,
        day,
    }
}

/// The library's answer, where it is that of the direct computation.
fn check(run: &[u8]) -> Result<Answer, String> {
    let (found, wanted) = (best_week(run), answer(run));
    if found == wanted {
        return Ok(found);
    }
    Err(format!(
        "{FUNCTION} differs: wanted {wanted:?}, found {found:?}\nbytes {}",
        hex(run)
    ))
}

pub fn run() -> Result<(), String> {
    let rng = &mut Prng::new(SEED + 112);
    let (mut weeks, mut none, mut no_run, mut not_rising) = (0, 0, 0, 0);
    for i in 0..RANDOM_RUNS {
        let most = if i % LONG_EVERY == 0 {
            MOST_RECORDS
        } else {
            60
        };
        let bytes = match i % 4 {
            3 => damaged(rng, most),
            _ => run_bytes(&random(rng, most)),
        };
        let found = check(&bytes)?;
        match found.refusal {
            NO_RUN => no_run += 1,
            DAYS_NOT_RISING => not_rising += 1,
            _ if found.found == 1 => weeks += 1,
            _ => none += 1,
        }
    }
    for length in edges() {
        check(&vec![0; length])?;
        no_run += usize::from(length > RUN_BYTES || length % RECORD_BYTES != 0);
        not_rising += usize::from(length <= RUN_BYTES && length % RECORD_BYTES == 0 && length > 16);
        none += usize::from(length == 0 || length == 16);
    }
    println!(
        "{FUNCTION}: {} inputs ({weeks} with a week, {none} without, {no_run} refused by {NO_RUN}, \
         {not_rising} by {DAYS_NOT_RISING}), 0 differences",
        RANDOM_RUNS + edges().len()
    );
    Ok(())
}

/// Lengths of runs of zeros.
fn edges() -> Vec<usize> {
    let most = RUN_BYTES;
    let mut lengths: Vec<usize> = (0..=64).collect();
    lengths.extend([most - 16, most - 1, most, most + 1, most + 16, 2 * most]);
    lengths
}

/// A run of so many consecutive days, of which the last seven are the best.
fn consecutive(records: usize) -> Vec<u8> {
    let moves: Vec<u16> = (0..records).map(|i| (records - i) as u16).collect();
    run_bytes(&days(0, 5_000, &moves))
}

/// The most stack of a call.
pub fn stacks() -> Result<usize, String> {
    let mut most = 0;
    for (shape, bytes) in [
        ("no record", Vec::new()),
        ("consecutive days", consecutive(MOST_RECORDS)),
        ("zeros", vec![0; RUN_BYTES]),
    ] {
        let mut found = Answer::NONE;
        let used = stack_used(&mut || found = best_week(&bytes))?;
        if found != answer(&bytes) {
            return Err(format!("{FUNCTION} differs from the computation: {shape}"));
        }
        most = show_stack(FUNCTION, shape, &bytes, used, most);
    }
    Ok(most)
}

/// The time at rising lengths, with that of the direct computation.
pub fn times() {
    for records in [512, 1_024, 2_048, MOST_RECORDS] {
        let bytes = consecutive(records);
        let [library, direct] = medians(|subject| match subject {
            0 => drop(black_box(best_week(black_box(&bytes)))),
            _ => drop(black_box(answer(black_box(&bytes)))),
        });
        println!(
            "time, {FUNCTION}, consecutive days (records: {records}): {:.1} µs, {:.2} ns per record; \
             the direct computation {:.1} µs",
            library / 1000.0,
            library / records as f64,
            direct / 1000.0
        );
    }
}
