//! Lists of passes: the static library beside the model of normalising and the Rust with document
//! 01's partings, call by call. What is accepted must also be what the library's own functions give
//! one after the other, and a valid form of the expression's value.

use crate::cases::SEED;
use crate::differences::{Differences, Input};
use crate::dump;
use crate::form_model;
use crate::library_forms as library;
use crate::list::{self, Case, Ran};
use crate::list_cases::FAMILIES;
use crate::model;
use crate::number_cases;
use crate::numbers;
use crate::pass::PASSES;
use crate::prng::Prng;
use crate::refusal::{OF_LISTS, RESULT_LENGTH, TABLE_FULL};
use crate::stacked_cases;
use crate::sum_cases;
use crate::written::Written;

const FUNCTION: &str = "hogzelt_run_passes";

/// What the lists of a family came to: those accepted and those of each refusal, in their order; the
/// calls that were made, by pass those that gave another form, and the calls by their refusal.
#[derive(Default)]
struct Counts {
    outcomes: [usize; 1 + OF_LISTS.len()],
    calls: usize,
    changed: [usize; PASSES.len()],
    refused: [usize; 1 + TABLE_FULL as usize],
}

impl Counts {
    fn add(&mut self, ran: &Ran) {
        let refused = OF_LISTS.iter().position(|r| *r == ran.written.refusal);
        self.outcomes[refused.map_or(0, |place| 1 + place)] += 1;
        self.calls += ran.made.len();
        for made in &ran.made {
            self.changed[made.pass as usize] += usize::from(made.changed);
            self.refused[made.refusal as usize] += 1;
        }
    }

    fn plus(&mut self, other: &Self) {
        let add = |all: &mut [usize], more: &[usize]| {
            for (count, more) in all.iter_mut().zip(more) {
                *count += more;
            }
        };
        add(&mut self.outcomes, &other.outcomes);
        add(&mut self.changed, &other.changed);
        add(&mut self.refused, &other.refused);
        self.calls += other.calls;
    }

    fn line(&self, name: &str) -> String {
        let mut numbers = vec![self.outcomes.iter().sum()];
        numbers.extend(&self.outcomes[..4]);
        numbers.push(self.outcomes[4..].iter().sum());
        numbers.push(self.calls);
        numbers.extend(self.changed);
        numbers.extend([RESULT_LENGTH, TABLE_FULL].map(|number| self.refused[number as usize]));
        let numbers: Vec<String> = numbers.iter().map(usize::to_string).collect();
        format!("| {name} | {} |", numbers.join(" | "))
    }
}

const HEAD: &str = "\
| family | lists | accepted | 1 | 2 | 32 | 3 to 6, 8, 9 | calls | refining changed | recovering | coalescing | flattening \
| compacting | calls refused by 2 | by 9 |
|---|---|---|---|---|---|---|---|---|---|---|---|---|---|---|";

impl Input for Case {
    fn file(&self) -> &[u8] {
        &self.file
    }

    fn text(&self) -> String {
        let expression = dump::expression_text(&self.file);
        let (words, sheet, spare) = (&self.words, self.sheet, self.spare);
        format!("{expression}  words {words:x?}, slices {sheet} and {spare}\n")
    }
}

pub fn run() -> Result<(), String> {
    let rng = &mut Prng::new(SEED + 11);
    let mut all = Counts::default();
    let mut faults = Differences::none(&[]);
    println!("{HEAD}");
    let families = FAMILIES.iter().chain(&number_cases::LISTS);
    let families = families.chain(&sum_cases::LISTS);
    for family in families.chain(&stacked_cases::LISTS) {
        let mut counts = Counts::default();
        for case in (family.make)(rng, family.compared) {
            let wanted = list::answer(&case);
            check(rng, &case, &wanted.written, &mut faults);
            counts.add(&wanted);
        }
        println!("{}", counts.line(family.name));
        all.plus(&counts);
    }
    println!("{}", all.line("all"));
    faults.show(usize::MAX);
    println!("{FUNCTION}: {} differences", faults.total());
    faults.verdict("lists of passes")
}

/// Notes where the library differs from what is wanted, and where this is not as it must be.
fn check(rng: &mut Prng, case: &Case, wanted: &Written, faults: &mut Differences<Case>) {
    let (found, spare) = library::ran(case);
    if found != *wanted {
        faults.add("the library differs", case);
    }
    if spare.iter().any(|byte| *byte != 0) {
        faults.add("the second slice is not all zeros", case);
    }
    if wanted.refusal != 0 {
        return;
    }
    if singly(case) != found {
        faults.add("single calls of the library give another form", case);
    }
    let same_value = |_| {
        let vars = numbers::words(rng, &case.file);
        form_model::answer(found.form(), &vars) == model::answer(&case.file, &vars)
    };
    if !(0..2).all(same_value) {
        faults.add("no valid form of the expression's value", case);
    }
}

/// What the library's own normalising and passes give, called one after the other.
fn singly(case: &Case) -> Written {
    let mut in_use = library::normalized(&case.file, case.sheet);
    for (pass, length) in list::calls(case).expect("an accepted list") {
        let next = library::passed(pass, in_use.form(), length);
        if next.refusal == 0 {
            in_use = Written { flag: 0, ..next };
        }
    }
    in_use
}
