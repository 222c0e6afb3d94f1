//! The judge of the static library beside the model, by family. At few bits and variables each
//! verdict is also held to all assignments; elsewhere equal pairs are tried under random ones.

use hogzelt::raw;

use crate::cases::SEED;
use crate::differences::{Differences, Input};
use crate::dump;
use crate::family::{family, Family};
use crate::judge_cases::{Pair, FAMILIES};
use crate::judge_model::{self, Both, Verdict};
use crate::library::UNWRITTEN;
use crate::normal_cases;
use crate::prng::Prng;
use crate::refusal::OF_JUDGE;

pub const FUNCTION: &str = "hogzelt_judge";

/// Inputs of normalising, up to so many of each of its families.
const NORMALISING: Family<Pair> = family("inputs of normalising", 500, 0, normalising);
/// Up to so many bits of all variables together every assignment is tried.
const ALL_BITS: usize = 12;
/// So many random assignments of other equal pairs.
const RANDOM_ASSIGNMENTS: usize = 4;

const HEAD: &str = "\
| family | pairs | equal | unlike | 1 | 3 | 4 | 5 | 6 | 8 | 9 | 11 | 12 | 13 \
| tried under every assignment |
|---|---|---|---|---|---|---|---|---|---|---|---|---|---|---|";

/// The library's verdict, with other numbers in the results before.
pub fn judge(left: &[u8], right: &[u8]) -> Verdict {
    let (mut equal, mut place, mut index) = (UNWRITTEN, UNWRITTEN, UNWRITTEN);
    // SAFETY: both slices are valid for their lengths; the three numbers lie in neither and apart.
    let refusal = unsafe {
        raw::hogzelt_judge(
            left.as_ptr(),
            left.len(),
            right.as_ptr(),
            right.len(),
            &mut equal,
            &mut place,
            &mut index,
        )
    };
    Verdict {
        refusal,
        equal,
        place,
        index,
    }
}

/// What the pairs of a family came to: equal, unlike, and each refusal.
#[derive(Clone, Copy, Default)]
struct Counts {
    outcomes: [usize; 2 + OF_JUDGE.len()],
    all_assignments: usize,
}

impl Counts {
    fn add(&mut self, verdict: &Verdict) {
        let refused = OF_JUDGE.iter().position(|r| *r == verdict.refusal);
        assert!(refused.is_some() || verdict.refusal == 0);
        self.outcomes[refused.map_or(1 - verdict.equal as usize, |at| 2 + at)] += 1;
    }

    fn plus(&mut self, other: &Self) {
        for (count, more) in self.outcomes.iter_mut().zip(other.outcomes) {
            *count += more;
        }
        self.all_assignments += other.all_assignments;
    }

    fn line(&self, name: &str) -> String {
        let mut numbers = vec![self.outcomes.iter().sum()];
        numbers.extend(self.outcomes);
        numbers.push(self.all_assignments);
        let numbers: Vec<String> = numbers.iter().map(usize::to_string).collect();
        format!("| {name} | {} |", numbers.join(" | "))
    }
}

impl Input for Pair {
    fn file(&self) -> &[u8] {
        &self.left
    }

    fn text(&self) -> String {
        let [left, right] = [&self.left, &self.right].map(|file| dump::expression_text(file));
        format!(
            "{left}{right}    right as bytes:\n{}",
            dump::lines(&self.right)
        )
    }
}

pub fn run() -> Result<(), String> {
    let rng = &mut Prng::new(SEED + 102);
    let (mut all, mut faults) = (Counts::default(), Differences::none(&[]));
    println!("{HEAD}");
    for family in FAMILIES.iter().chain([&NORMALISING]) {
        let pairs = (family.make)(rng, family.compared);
        let counts = of_pairs(rng, pairs, &mut faults);
        println!("{}", counts.line(family.name));
        all.plus(&counts);
    }
    println!("{}", all.line("all"));
    faults.show(usize::MAX);
    println!("{FUNCTION}: {} differences", faults.total());
    faults.verdict("judging")
}

fn of_pairs(rng: &mut Prng, pairs: Vec<Pair>, faults: &mut Differences<Pair>) -> Counts {
    let mut counts = Counts::default();
    for pair in pairs {
        let wanted = judge_model::answer(&pair.left, &pair.right);
        if judge(&pair.left, &pair.right) != wanted {
            faults.add("the library differs from the model", &pair);
        }
        counts.add(&wanted);
        if wanted.refusal == 0 {
            let [left, right] = [&pair.left, &pair.right]
                .map(|file| judge_model::expression(file).expect("an accepted expression"));
            let both = Both(left, right);
            let few = usize::from(both.width()) * both.variables().len() <= ALL_BITS;
            counts.all_assignments += usize::from(few);
            let holds = match few {
                true => everywhere(&both) == (wanted.equal == 1),
                false => wanted.equal == 0 || at_random(rng, &both),
            };
            if !holds {
                faults.add("the verdict is not that of the assignments", &pair);
            }
        }
    }
    counts
}

/// Whether the two agree under every assignment.
fn everywhere(both: &Both) -> bool {
    let (w, variables) = (usize::from(both.width()), both.variables());
    let count = 1u64 << (w * variables.len());
    (0..count).all(|all| agree_at(both, &variables, |j| all >> (w * j)))
}

fn at_random(rng: &mut Prng, both: &Both) -> bool {
    let variables = both.variables();
    (0..RANDOM_ASSIGNMENTS).all(|_| {
        let words: Vec<u64> = variables.iter().map(|_| rng.word()).collect();
        agree_at(both, &variables, |j| words[j])
    })
}

/// Whether the two agree where these variables have these words.
fn agree_at(both: &Both, variables: &[usize], word: impl Fn(usize) -> u64) -> bool {
    let mut words = vec![0; variables.last().map_or(0, |last| last + 1)];
    for (j, &number) in variables.iter().enumerate() {
        words[number] = word(j);
    }
    both.agree(&words)
}

/// Up to `most` inputs of each family of normalising, each beside itself and beside the next one.
fn normalising(rng: &mut Prng, most: usize) -> Vec<Pair> {
    let mut all = Vec::new();
    for family in &normal_cases::FAMILIES {
        let made = (family.make)(rng, family.compared.min(most));
        let every = made.len().div_ceil(most);
        for two in made.windows(2).step_by(every) {
            all.extend(two.iter().map(|right| Pair {
                left: two[0].file.clone(),
                right: right.file.clone(),
            }));
        }
    }
    all
}
