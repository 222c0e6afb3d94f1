//! Normalising by rules: the static library beside the model, and the published Rust on the tangle
//! that rules 2 leave. By rules 1 it must give what the function without a number gives, and for
//! any other number refusal 18.

use crate::cases::SEED;
use crate::differences::{Differences, Input};
use crate::dump;
use crate::entry;
use crate::family::Family;
use crate::form_model;
use crate::library_forms as library;
use crate::model;
use crate::normal_cases as normal;
use crate::numbers;
use crate::prng::Prng;
use crate::record::{split, Record, VARIABLE};
use crate::refusal::{OF_RULES, RULES};
use crate::rules_cases::{normalising, numbered, under, Case, FAMILIES, OTHERS};
use crate::rules_model::{self, FIRST, SECOND};
use crate::written::{self, Written};

const FUNCTION: &str = "hogzelt_normalize_by_rules";

/// Inputs of more records are not printed.
const SHOWN_RECORDS: usize = 8;
/// Up to so many bits and variables every assignment is tried.
const ALL_BITS: u8 = 3;
const ALL_VARIABLES: usize = 3;

const HEAD: &str = "\
| family | inputs | accepted | of two terms or more | 18 | 1 | 2 | 3 | 4 | 5 | 6 | 8 | 9 \
| refused by rules 1 alone | by rules 2 alone | accepted by both, unlike sheets |
|---|---|---|---|---|---|---|---|---|---|---|---|---|---|---|---|";

const BY_FIRST: &str = "refused by rules 1 alone";
const BY_SECOND: &str = "refused by rules 2 alone";
const UNLIKE: &str = "accepted by both rules, unlike sheets";
const NAMES: [&str; 3] = [BY_FIRST, BY_SECOND, UNLIKE];

/// What the calls of a family came to: those accepted and those of each refusal, those of two terms
/// or more, and by name those that rules 1 and 2 answer otherwise.
#[derive(Clone, Copy, Default)]
struct Counts {
    outcomes: [usize; 1 + OF_RULES.len()],
    two_terms: usize,
    named: [usize; NAMES.len()],
}

impl Counts {
    fn add(&mut self, answer: &Written, name: Option<&str>) {
        let refused = OF_RULES.iter().position(|r| *r == answer.refusal);
        assert!(refused.is_some() || answer.refusal == 0);
        self.outcomes[refused.map_or(0, |at| 1 + at)] += 1;
        self.two_terms += usize::from(answer.terms > 1);
        for (count, one) in self.named.iter_mut().zip(NAMES) {
            *count += usize::from(name == Some(one));
        }
    }

    fn plus(&mut self, other: &Self) {
        for (count, more) in self.outcomes.iter_mut().zip(other.outcomes) {
            *count += more;
        }
        self.two_terms += other.two_terms;
        for (count, more) in self.named.iter_mut().zip(other.named) {
            *count += more;
        }
    }

    fn line(&self, name: &str) -> String {
        let mut numbers = vec![self.outcomes.iter().sum(), self.outcomes[0], self.two_terms];
        numbers.extend(&self.outcomes[1..]);
        numbers.extend(self.named);
        let numbers: Vec<String> = numbers.iter().map(usize::to_string).collect();
        format!("| {name} | {} |", numbers.join(" | "))
    }
}

impl Input for Case {
    fn file(&self) -> &[u8] {
        &self.file
    }

    fn text(&self) -> String {
        let expression = dump::expression_text(&self.file);
        let (rules, length) = (self.rules, self.length);
        format!("{expression}  rules {rules}, result slice {length}\n")
    }
}

/// What a comparison has found.
struct Found {
    faults: Differences<Case>,
    named: Differences<Case>,
    /// calls by rules 1 and by other numbers than 1 and 2, beside those of the table
    by_first: usize,
    by_others: usize,
    /// sheets that were tried under every assignment
    all_assignments: usize,
}

pub fn run() -> Result<(), String> {
    let rng = &mut Prng::new(SEED + 109);
    let mut all = Counts::default();
    let mut found = Found {
        faults: Differences::none(&[]),
        named: Differences::none(&NAMES),
        by_first: 0,
        by_others: 0,
        all_assignments: 0,
    };
    println!("{HEAD}");
    for family in FAMILIES.iter().chain(normalising()) {
        let counts = of_family(rng, family, &mut found);
        println!("{}", counts.line(family.name));
        all.plus(&counts);
    }
    let mut counts = Counts::default();
    for case in numbered() {
        counts.add(&found.check(&case), None);
    }
    println!("{}", counts.line("numbers of rules"));
    all.plus(&counts);
    println!("{}", all.line("all"));
    found.named.show(SHOWN_RECORDS);
    found.faults.show(usize::MAX);
    println!(
        "{FUNCTION}: {} inputs by rules 1 too, {} by other numbers, {} sheets under every \
         assignment; {} differences",
        found.by_first,
        found.by_others,
        found.all_assignments,
        found.faults.total()
    );
    found.faults.verdict("normalising by rules")
}

/// The inputs of a family by rules 2, by rules 1 and by a number that is neither.
fn of_family(rng: &mut Prng, family: &Family<normal::Case>, found: &mut Found) -> Counts {
    let mut counts = Counts::default();
    for made in (family.make)(rng, family.compared) {
        let case = under(SECOND, made);
        let second = found.check(&case);
        let first = found.check_first(&case);
        found.check_other(rng, &case);
        let name = name(&first, &second);
        if let Some(name) = name {
            found.named.add(name, &case);
        }
        found.check_value(rng, &case, &second);
        counts.add(&second, name);
    }
    counts
}

/// How rules 1 and 2 differ.
fn name(first: &Written, second: &Written) -> Option<&'static str> {
    match (first.refusal, second.refusal) {
        (0, 0) => (first != second).then_some(UNLIKE),
        (_, 0) => Some(BY_FIRST),
        (0, _) => Some(BY_SECOND),
        _ => None,
    }
}

impl Found {
    /// The model's answer. Where the library or the Rust differs from it, that is noted.
    fn check(&mut self, case: &Case) -> Written {
        let wanted = rules_model::answer(case.rules, &case.file, case.length);
        if library::by_rules(case.rules, &case.file, case.length) != wanted {
            self.faults.add("the library differs from the model", case);
        }
        if case.rules == SECOND && entry::rust_normalizes(&case.file, case.length) {
            let tree = rules_model::rewritten(&split(&case.file));
            if entry::rust_answer(&tree) != wanted {
                self.faults.add("the Rust differs from the model", case);
            }
        }
        wanted
    }

    /// The model's answer by rules 1, which must also be that of the function without a number.
    fn check_first(&mut self, case: &Case) -> Written {
        let wanted = rules_model::answer(FIRST, &case.file, case.length);
        let by_number = library::by_rules(FIRST, &case.file, case.length);
        if by_number != wanted || by_number != library::normalized(&case.file, case.length) {
            self.faults.add("rules 1 by number differ", case);
        }
        self.by_first += 1;
        wanted
    }

    /// Any other number is refused by 18.
    fn check_other(&mut self, rng: &mut Prng, case: &Case) {
        let word = rng.word();
        let rules = match rng.below(4) {
            0 => word,
            1 => word << 8 | rng.pick(&[1, 2]),
            _ => rng.pick(&OTHERS),
        };
        let found = library::by_rules(rules, &case.file, case.length);
        if found != written::refused(RULES, case.length) {
            let case = Case {
                rules,
                ..case.clone()
            };
            self.faults.add("no refusal 18 with zeros", &case);
        }
        self.by_others += 1;
    }

    /// An accepted sheet has the expression's value, under every assignment where these are few,
    /// else under two random ones.
    fn check_value(&mut self, rng: &mut Prng, case: &Case, answer: &Written) {
        if answer.refusal != 0 {
            return;
        }
        let tree = split(&case.file);
        let variables = variables(&tree);
        let w = tree[0].width;
        let mut words = numbers::words(rng, &case.file);
        let kept = |words: &[u64]| {
            form_model::answer(answer.form(), words) == model::answer(&case.file, words)
        };
        let all = if w <= ALL_BITS && variables.len() <= ALL_VARIABLES {
            self.all_assignments += 1;
            let count = 1u64 << (usize::from(w) * variables.len());
            (0..count).all(|assignment| {
                for (place, &number) in variables.iter().enumerate() {
                    words[number] = assignment >> (usize::from(w) * place);
                }
                kept(&words)
            })
        } else {
            kept(&words) && kept(&numbers::words(rng, &case.file))
        };
        if !all {
            self.faults
                .add("no valid form of the expression's value", case);
        }
    }
}

/// The numbers of the variables, each once.
fn variables(tree: &[Record]) -> Vec<usize> {
    let of_kind = tree.iter().filter(|record| record.kind == VARIABLE);
    let mut numbers: Vec<usize> = of_kind.map(|record| usize::from(record.arg)).collect();
    numbers.sort_unstable();
    numbers.dedup();
    numbers
}
