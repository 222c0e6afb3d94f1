//! The differences that a comparison finds, by name.

use std::collections::BTreeMap;

use crate::record::RECORD_BYTES;

/// An input that can be shown.
pub trait Input: Clone {
    /// The bytes of the expression or of the form.
    fn file(&self) -> &[u8];

    /// What a reader needs to make the call again, in lines that are set in.
    fn text(&self) -> String;
}

/// By name, how many inputs differ, and the smallest of them.
pub struct Differences<I>(BTreeMap<String, (usize, Option<I>)>);

impl<I: Input> Differences<I> {
    /// None yet, of each of these names.
    pub fn none(names: &[&str]) -> Self {
        let none = |name: &&str| (name.to_string(), (0, None));
        Self(names.iter().map(none).collect())
    }

    pub fn add(&mut self, name: &str, input: &I) {
        let (count, smallest) = self.0.entry(name.to_string()).or_default();
        *count += 1;
        let length = smallest.as_ref().map_or(usize::MAX, |s| s.file().len());
        if input.file().len() < length {
            *smallest = Some(input.clone());
        }
    }

    pub fn total(&self) -> usize {
        self.0.values().map(|(count, _)| count).sum()
    }

    /// A line for each name, and the smallest input where it has at most `most` records.
    pub fn show(&self, most: usize) {
        for (name, (count, smallest)) in &self.0 {
            println!("{name}: {count} inputs");
            let Some(input) = smallest else {
                continue;
            };
            let records = input.file().len() / RECORD_BYTES;
            println!("  the smallest has {records} records");
            if records <= most {
                println!("{}  {}", input.text(), hex(input.file()));
            }
        }
    }

    /// A failure where there is a difference.
    pub fn verdict(&self, of: &str) -> Result<(), String> {
        match self.total() {
            0 => Ok(()),
            n => Err(format!("{n} differences in {of}")),
        }
    }
}

pub fn hex(bytes: &[u8]) -> String {
    bytes.iter().map(|byte| format!("{byte:02x}")).collect()
}
