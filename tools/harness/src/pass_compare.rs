//! The passes and the columns: the static library beside the published Rust in the build with
//! document 01's partings. Every difference from the build with sorted maps alone is named by the
//! partings that it needs. Values before and after a pass are compared under random assignments, and
//! columns with the bits of the atoms' values.

use crate::bridge;
use crate::cases::SEED;
use crate::columns::{self, Columns};
use crate::differences::{Differences, Input};
use crate::dump;
use crate::form::{Form, HEAD_BYTE};
use crate::form_model;
use crate::library_forms as library;
use crate::number_cases;
use crate::numbers;
use crate::parted;
use crate::pass::{self, Pass, PASSES};
use crate::pass_cases::{Case, FAMILIES};
use crate::pass_checks;
use crate::prng::Prng;
use crate::refusal::{INPUT_LENGTH, NO_FORM, NUMBERS, RESULT_LENGTH, TABLE_FULL};
use crate::sorted;
use crate::stacked_cases;
use crate::written::Written;

const COLUMNS: &str = "compute_partitions";

/// Inputs of more records are not printed for a parting.
const SHOWN_RECORDS: usize = 20;

/// What the cases of a family came to: for the passes and, last, the columns, the answers by their
/// refusal, and those of them that changed more than byte 1 of heads.
#[derive(Clone, Copy, Default)]
struct Counts {
    outcomes: [[usize; NUMBERS]; PASSES.len() + 1],
    changed: [usize; PASSES.len() + 1],
}

impl Counts {
    fn add(&mut self, function: usize, refusal: u64, changed: bool) {
        self.outcomes[function][refusal as usize] += 1;
        self.changed[function] += usize::from(changed);
    }

    fn plus(&mut self, other: &Self) {
        for function in 0..=PASSES.len() {
            for number in 0..NUMBERS {
                self.outcomes[function][number] += other.outcomes[function][number];
            }
            self.changed[function] += other.changed[function];
        }
    }

    fn line(&self, name: &str) -> String {
        let inputs = self.outcomes[0].iter().sum();
        let mut numbers: Vec<usize> = vec![inputs];
        let columns = &self.outcomes[PASSES.len()];
        for refusal in [0, INPUT_LENGTH, RESULT_LENGTH, NO_FORM] {
            numbers.push(columns[refusal as usize]);
        }
        for (function, changed) in self.changed.iter().enumerate() {
            numbers.push(*changed);
            if function + 2 < self.changed.len() {
                numbers.push(self.outcomes[function][TABLE_FULL as usize]);
            }
        }
        let numbers: Vec<String> = numbers.iter().map(usize::to_string).collect();
        format!("| {name} | {} |", numbers.join(" | "))
    }
}

const HEAD: &str = "\
| family | inputs | forms | 1 | 2 | 10 | refining changed | 9 | recovering | 9 | coalescing | 9 | flattening | 9 \
| compacting | two classes or more |
|---|---|---|---|---|---|---|---|---|---|---|---|---|---|---|---|";

impl Input for Case {
    fn file(&self) -> &[u8] {
        &self.file
    }

    fn text(&self) -> String {
        let excess = self.excess;
        let form = dump::form_text("smallest", &self.file);
        format!("  result slice: the right length and {excess}\n{form}")
    }
}

struct Comparison {
    rng: Prng,
    faults: Differences<Case>,
    partings: Differences<Case>,
}

pub fn run() -> Result<(), String> {
    let mut all = Counts::default();
    let mut comparison = Comparison {
        rng: Prng::new(SEED + 5),
        faults: Differences::none(&[]),
        partings: Differences::none(&[]),
    };
    println!("{HEAD}");
    let families = FAMILIES.iter().chain(&number_cases::FORMS);
    for family in families.chain(&stacked_cases::FORMS) {
        let mut counts = Counts::default();
        for case in (family.make)(&mut comparison.rng, family.compared) {
            comparison.check(&case, &mut counts);
        }
        println!("{}", counts.line(family.name));
        all.plus(&counts);
    }
    println!("{}", all.line("all"));
    println!(
        "where the build with sorted maps alone gives another answer, by the partings needed:"
    );
    comparison.partings.show(SHOWN_RECORDS);
    comparison.faults.show(usize::MAX);
    println!(
        "the passes and the columns: {} differences",
        comparison.faults.total()
    );
    comparison.faults.verdict("the passes and columns")
}

impl Comparison {
    fn check(&mut self, case: &Case, counts: &mut Counts) {
        let form = form_model::read(&case.file);
        let new_heads = |form: &Form| form.clone().with_heads(HEAD_BYTE).bytes();
        let unchanged = form.as_ref().map(new_heads).unwrap_or_default();
        let vars = numbers::words(&mut self.rng, &case.file);
        for (function, pass) in PASSES.into_iter().enumerate() {
            let wanted = self.check_pass(pass, case, &form, &vars);
            let changed = wanted.refusal == 0 && wanted.form() != unchanged;
            counts.add(function, wanted.refusal, changed);
        }
        let columns = self.check_columns(case, &form, &vars);
        counts.add(PASSES.len(), columns.refusal, columns.classes > 1);
    }

    fn fault(&mut self, function: &str, what: &str, case: &Case) {
        self.faults.add(&format!("{function}, {what}"), case);
    }

    fn parting(&mut self, function: &str, what: &str, case: &Case) {
        let name = format!("{function}, parting {what}");
        self.partings.add(&name, case);
    }

    /// What the Rust with the partings gives. Differences from it are noted.
    fn check_pass(
        &mut self,
        pass: Pass,
        case: &Case,
        form: &Result<Form, u64>,
        vars: &[u64],
    ) -> Written {
        let wanted = pass::answer(pass, &case.file, case.bytes());
        if library::passed(pass, &case.file, case.bytes()) != wanted {
            self.fault(pass.name(), "the library differs", case);
        }
        if let (Ok(form), 0) = (form, case.excess) {
            self.check_builds(pass, case, form, &wanted);
            if wanted.refusal == 0 && !pass_checks::keeps_value(form, &wanted, vars) {
                self.fault(pass.name(), "no valid form of the same value", case);
            }
        }
        wanted
    }

    /// The build with sorted maps and the sources as they stand, beside the one with the partings.
    fn check_builds(&mut self, pass: Pass, case: &Case, form: &Form, wanted: &Written) {
        let name = pass.name();
        let passed = sorted::bridge::passed(pass, form);
        if bridge::passed(pass, form) != passed {
            self.parting(name, "4, orders of maps, by chance", case);
        }
        let mut settled = passed.clone();
        settled.form.settle();
        if settled != passed {
            self.parting(name, "4, order or sum of terms", case);
        }
        let sorted = pass::settled(passed);
        if sorted != pass::parted(pass, form, 0) {
            self.fault(name, "the edits change an answer where none holds", case);
        }
        if sorted == *wanted {
            return;
        }
        let Some(needed) = pass_checks::needed(pass, form, wanted) else {
            return self.fault(
                name,
                "the Rust with sorted maps differs, for no parting",
                case,
            );
        };
        let numbers: Vec<String> = (1..10)
            .filter(|number| needed >> number & 1 == 1)
            .map(|number| number.to_string())
            .collect();
        self.parting(name, &numbers.join(" and "), case);
    }

    /// The columns by the same rules; the builds must agree but for the order of the classes.
    fn check_columns(&mut self, case: &Case, form: &Result<Form, u64>, vars: &[u64]) -> Columns {
        let wanted = columns::answer(&case.file, case.words());
        if library::columns(&case.file, case.words()) != wanted {
            self.fault(COLUMNS, "the library differs", case);
        }
        if let (Ok(form), 0) = (form, case.excess) {
            let classes = sorted::bridge::partitions(form);
            let as_is = bridge::partitions(form);
            if as_is != parted_order(form) {
                self.parting(COLUMNS, "4, order of classes, by chance", case);
            }
            if columns::settled(classes) != wanted || columns::settled(as_is) != wanted {
                self.fault(COLUMNS, "the builds differ in more than an order", case);
            }
            if !pass_checks::hold(form, &wanted, vars) {
                self.fault(COLUMNS, "the columns do not tell the atoms' bits", case);
            }
        }
        wanted
    }
}

/// The classes by lowest place.
fn parted_order(form: &Form) -> Vec<columns::Class> {
    let mut classes = parted::bridge::partitions(form);
    classes.sort_by_key(|class| class.mask.trailing_zeros());
    classes
}
