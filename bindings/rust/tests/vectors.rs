//! Replays the stored answers of crates/vectors (docs/VECTORS.md) through the safe functions.

use hogzelt::{
    can_change_coefficient_to, can_change_mask_to, columns_into, expr_value, judge,
    normalize_by_rules_into, normalize_into, raw, reduce_mask, run_calls_into, run_pass_into,
    sheet_value, Call, Pass, Refusal, Rules, Verdict, Written,
};
use std::path::PathBuf;

const FLAG: u64 = 1 << 63;

struct Entry<'a> {
    sort: u8,
    refusal: u64,
    value: u64,
    words: Vec<u64>,
    bytes: &'a [u8],
}

impl Entry<'_> {
    /// From type 7 on: the input, and the expected result, as long as its used length.
    fn input(&self) -> (&[u8], &[u8]) {
        let used = (self.value & 0xFFFF_FFFF) as usize;
        self.bytes.split_at(self.bytes.len() - used)
    }

    /// What was found of a value.
    fn value_is(&self, found: Result<u64, Refusal>) -> bool {
        match found {
            Ok(value) => self.refusal == 0 && value == self.value,
            Err(refusal) => refusal.number() == self.refusal && self.value == 0,
        }
    }

    /// What was found of a form: the numbers, and every byte of the slice.
    fn form_is(&self, found: Result<Written, Refusal>, out: &[u8]) -> bool {
        let (_, expected) = self.input();
        let numbers = match found {
            Ok(w) => {
                let flag = if w.flattened { FLAG } else { 0 };
                self.refusal == 0 && flag | (w.terms as u64) << 32 | w.used as u64 == self.value
            }
            Err(refusal) => refusal.number() == self.refusal && self.value == 0,
        };
        let (head, tail) = out.split_at(expected.len().min(out.len()));
        numbers && head == expected && tail.iter().all(|&byte| byte == 0)
    }

    fn holds(&self) -> bool {
        let words = &self.words;
        match self.sort {
            1 => self.value_is(expr_value(self.bytes, words)),
            3 => reduce_mask(words[0], words[1], words[3] as u32) == self.value,
            4 => {
                let found = can_change_mask_to(words[0], words[1], words[2], words[3] as u32);
                u64::from(found) == self.value
            }
            5 => {
                let found =
                    can_change_coefficient_to(words[0], words[1], words[2], words[3] as u32);
                u64::from(found) == self.value
            }
            6 => self.value_is(sheet_value(self.bytes, words)),
            7 => self.pass_holds(Pass::Compact),
            8 => {
                let mut out = vec![0xA5; words[0] as usize];
                self.form_is(normalize_into(self.input().0, &mut out), &out)
            }
            9 => self.pass_holds(Pass::Refine),
            10 => self.pass_holds(Pass::Flatten),
            11 => self.columns_hold(),
            12 => self.pass_holds(Pass::Recover),
            13 => self.pass_holds(Pass::Coalesce),
            14 => self.list_holds(),
            15 => self.rules_hold(),
            16 => self.verdict_holds(),
            _ => unreachable!("type {}", self.sort),
        }
    }

    fn pass_holds(&self, pass: Pass) -> bool {
        let mut out = vec![0xA5; self.words[0] as usize];
        self.form_is(run_pass_into(pass, self.input().0, &mut out), &out)
    }

    /// The rules by number, of which only two are in Rust's types.
    fn rules_hold(&self) -> bool {
        let (input, _) = self.input();
        let mut out = vec![0xA5; self.words[1] as usize];
        let named = Rules::ALL
            .into_iter()
            .find(|&rules| rules as u64 == self.words[0]);
        let found = match named {
            Some(rules) => normalize_by_rules_into(rules, input, &mut out),
            None => by_number(self.words[0], input, &mut out),
        };
        self.form_is(found, &out)
    }

    /// The left is as long as the word says. Where the two differ, the assignment tells them apart.
    fn verdict_holds(&self) -> bool {
        let (left, right) = self.bytes.split_at(self.words[0] as usize);
        match judge(left, right) {
            Ok(Verdict::Equal) => self.refusal == 0 && self.value == FLAG,
            Ok(Verdict::Unlike(found)) => {
                let words = found.words();
                assert_ne!(expr_value(left, &words), expr_value(right, &words));
                let value = u64::from(found.place) << 32 | u64::from(found.index);
                self.refusal == 0 && self.value == value
            }
            Err(refusal) => refusal.number() == self.refusal && self.value == 0,
        }
    }

    fn columns_hold(&self) -> bool {
        let (input, expected) = self.input();
        let mut out = vec![0xA5; self.words[0] as usize];
        let found = match columns_into(input, &mut out) {
            Ok(classes) => self.refusal == 0 && classes as u64 == self.value >> 32,
            Err(refusal) => refusal.number() == self.refusal && self.value == 0,
        };
        let bytes: Vec<u8> = out.iter().flat_map(|word| word.to_le_bytes()).collect();
        let (head, tail) = bytes.split_at(expected.len().min(bytes.len()));
        found && head == expected && tail.iter().all(|&byte| byte == 0)
    }

    /// A list whose words are calls; the others cannot be written in Rust's types.
    fn list_holds(&self) -> bool {
        let Some(calls) = self.calls() else {
            return self.refusal != 0;
        };
        let mut sheet = vec![0xA5; self.words[0] as usize];
        let mut spare = vec![0xA5; self.words[1] as usize];
        let found = run_calls_into(self.input().0, &calls, &mut sheet, &mut spare);
        self.form_is(found, &sheet) && spare.iter().all(|&byte| byte == 0)
    }

    fn calls(&self) -> Option<Vec<Call>> {
        let words = &self.words[2..];
        let call = |pair: &[u64]| {
            let pass = Pass::ALL.into_iter().find(|&pass| pass as u64 == pair[0])?;
            let length = usize::try_from(pair[1]).ok()?;
            Some(Call { pass, length })
        };
        match words.len() % 2 {
            0 => words.chunks(2).map(call).collect(),
            _ => None,
        }
    }
}

/// Normalising by rules that are none, which is refused.
fn by_number(rules: u64, input: &[u8], out: &mut [u8]) -> Result<Written, Refusal> {
    let (mut used, mut terms) = (7, 7);
    // SAFETY: both slices are valid for their lengths; what is written lies in neither and apart.
    let refusal = unsafe {
        raw::hogzelt_normalize_by_rules(
            rules,
            input.as_ptr(),
            input.len(),
            out.as_mut_ptr(),
            out.len(),
            &mut used,
            &mut terms,
        )
    };
    assert_eq!((used, terms), (0, 0), "rules {rules} are none");
    Refusal::check(refusal).map(|()| unreachable!("rules {rules} are accepted"))
}

fn word(bytes: &[u8]) -> u64 {
    bytes
        .iter()
        .rev()
        .fold(0, |all, &byte| all << 8 | u64::from(byte))
}

/// The entries up to the end entry, whose value is their count.
fn entries(file: &[u8]) -> Vec<Entry<'_>> {
    let mut found = Vec::new();
    let mut at = 0;
    while file[at] != 0 {
        let head = &file[at..at + 16];
        let (words, bytes) = (word(&head[2..4]) as usize, word(&head[4..8]) as usize);
        let start = at + 16 + 8 * words;
        found.push(Entry {
            sort: head[0],
            refusal: u64::from(head[1]),
            value: word(&head[8..16]),
            words: file[at + 16..start].chunks(8).map(word).collect(),
            bytes: &file[start..start + bytes],
        });
        at = (start + bytes).next_multiple_of(16);
    }
    assert_eq!(word(&file[at + 8..at + 16]), found.len() as u64);
    found
}

#[test]
fn stored_answers() {
    let package = PathBuf::from(env!("CARGO_MANIFEST_DIR"));
    let path = package.join("../../crates/vectors/stdin");
    let file = std::fs::read(&path).expect("the vector file");
    let mut seen = [0; 18];
    for (number, entry) in entries(&file).iter().enumerate() {
        // the structural hash and the judge of two forms are no functions of the library
        if ![2, 17].contains(&entry.sort) {
            assert!(entry.holds(), "entry {number}, type {}", entry.sort);
            seen[usize::from(entry.sort)] += 1;
        }
    }
    let tried: Vec<usize> = (0..18).filter(|&sort| seen[sort] > 0).collect();
    assert_eq!(tried, [1, 3, 4, 5, 6, 7, 8, 9, 10, 11, 12, 13, 14, 15, 16]);
}
