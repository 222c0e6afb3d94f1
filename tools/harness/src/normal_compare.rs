//! Normalising by the static library beside the model, always, and beside the published Rust, where
//! it has an answer: the build with the differences must give the same, and each difference from the
//! build with sorted maps alone is named by its number.

use crate::cases::SEED;
use crate::differences::{Differences, Input};
use crate::dump;
use crate::entry;
use crate::form::Form;
use crate::form_model;
use crate::library_forms as library;
use crate::model;
use crate::normal_cases::{Case, FAMILIES};
use crate::normal_model;
use crate::number_cases;
use crate::numbers;
use crate::parted::ir::partings;
use crate::prng::Prng;
use crate::published;
use crate::record::split;
use crate::refusal::{NONLINEAR, OF_NORMALIZE, TABLE_FULL};
use crate::sum_cases;
use crate::written::{self, Written};
use crate::{parted, sorted};

/// The name of a difference between the sources as they stand and with sorted maps.
const MAP_ORDERS: &str = "difference 4, orders of maps";

/// Inputs of more records are not printed.
const SHOWN_RECORDS: usize = 8;

/// What the cases of a family came to: those accepted, those of each refusal of normalising, and
/// those of two terms or more.
#[derive(Clone, Copy, Default)]
struct Counts {
    outcomes: [usize; 1 + OF_NORMALIZE.len()],
    two_terms: usize,
}

impl Counts {
    fn add(&mut self, answer: &Written) {
        let refused = OF_NORMALIZE.iter().position(|r| *r == answer.refusal);
        assert!(refused.is_some() || answer.refusal == 0);
        self.outcomes[refused.map_or(0, |at| 1 + at)] += 1;
        self.two_terms += usize::from(answer.terms > 1);
    }

    fn plus(&mut self, other: &Self) {
        for (count, more) in self.outcomes.iter_mut().zip(other.outcomes) {
            *count += more;
        }
        self.two_terms += other.two_terms;
    }

    fn line(&self, name: &str) -> String {
        let refused: Vec<String> = self.outcomes[1..].iter().map(usize::to_string).collect();
        format!(
            "| {name} | {} | {} | {} | {} |",
            self.outcomes.iter().sum::<usize>(),
            self.outcomes[0],
            self.two_terms,
            refused.join(" | ")
        )
    }
}

impl Input for Case {
    fn file(&self) -> &[u8] {
        &self.file
    }

    fn text(&self) -> String {
        let expression = dump::expression_text(&self.file);
        format!("{expression}  result slice {}\n", self.length)
    }
}

pub fn run() -> Result<(), String> {
    let rng = &mut Prng::new(SEED + 2);
    let mut all = Counts::default();
    let mut faults = Differences::none(&[]);
    let mut named = Differences::none(&[MAP_ORDERS]);
    println!("| hogzelt_normalize_to_semilinear | inputs | accepted | of two terms or more | 1 | 2 | 3 | 4 | 5 | 6 | 8 | 9 |");
    println!("|---|---|---|---|---|---|---|---|---|---|---|---|");
    let families = FAMILIES.iter().chain(&number_cases::NORMAL);
    for family in families.chain(&sum_cases::NORMAL) {
        let mut counts = Counts::default();
        for case in (family.make)(rng, family.compared) {
            let wanted = check(&case, &mut faults, &mut named);
            if !keeps_value(rng, &case, &wanted) {
                faults.add("no valid form of the expression's value", &case);
            }
            counts.add(&wanted);
        }
        println!("{}", counts.line(family.name));
        all.plus(&counts);
    }
    println!("{}", all.line("all"));
    println!("where the build with sorted maps alone gives another answer, by difference:");
    named.show(SHOWN_RECORDS);
    faults.show(usize::MAX);
    println!(
        "hogzelt_normalize_to_semilinear: {} differences",
        faults.total()
    );
    faults.verdict("normalising")
}

/// The model's answer. Differences from it are noted.
fn check(case: &Case, faults: &mut Differences<Case>, named: &mut Differences<Case>) -> Written {
    let wanted = normal_model::answer(&case.file, case.length);
    if library::normalized(&case.file, case.length) != wanted {
        faults.add("the library differs from the model", case);
    }
    if !entry::rust_normalizes(&case.file, case.length) {
        return wanted;
    }
    let records = split(&case.file);
    if written::of(parted::bridge::normalized(&records)) != wanted {
        faults.add("the Rust with the differences differs from the model", case);
    }
    let sorted = sorted::bridge::normalized(&records);
    if published::normalized(&records) != sorted {
        named.add(MAP_ORDERS, case);
    }
    // with refusal 9 and sums below constants read as 0
    let without = partings::with(partings::ALL, || parted::bridge::normalized(&records));
    if without != sorted && without != Err(TABLE_FULL) {
        faults.add("let go, difference 8 leaves another answer", case);
    }
    if written::of(sorted.clone()) != wanted {
        match name(&wanted, &sorted, without) {
            Some(name) => named.add(name, case),
            None => faults.add("the Rust with sorted maps differs, for no difference", case),
        }
    }
    wanted
}

/// The difference that makes the Rust's answer another one than the wanted, by what both are and what
/// the Rust gives without difference 8.
fn name(
    wanted: &Written,
    sorted: &Result<Form, u64>,
    without: Result<Form, u64>,
) -> Option<&'static str> {
    if written::of(without) == *wanted {
        return (wanted.refusal == TABLE_FULL)
            .then_some("difference 5, refusal 9, accepted by the Rust");
    }
    Some(match (wanted.refusal, sorted.is_ok()) {
        (0, true) => "difference 8, accepted by both",
        (0, false) => "difference 8, the Rust's NonLinearInput is accepted",
        (NONLINEAR, true) => "difference 8, refusal 8, accepted by the Rust",
        (TABLE_FULL, true) => "difference 8, refusal 9, accepted by the Rust",
        (TABLE_FULL, false) => "difference 8, refusal 9, the Rust's NonLinearInput",
        _ => return None,
    })
}

/// Whether what is accepted is a valid form, of the expression's value under a random assignment.
fn keeps_value(rng: &mut Prng, case: &Case, wanted: &Written) -> bool {
    if wanted.refusal != 0 {
        return true;
    }
    let vars = numbers::words(rng, &case.file);
    form_model::answer(wanted.form(), &vars) == model::answer(&case.file, &vars)
}
