//! How many answers were compared, by kind.

use std::collections::BTreeMap;
use std::fmt;

const NO_ANSWER: &str = "\
The Rust has no answer to annotate and delete, and its index is compared only for a removal that
answers 0: for those calls the last column counts that it carried the edit out too.";

#[derive(Default)]
pub struct Tally {
    counts: BTreeMap<String, Count>,
    pub scripts: u64,
    /// How often the whole of a tank was held against the Rust's, beside the answers.
    pub states: u64,
}

#[derive(Default, Clone, Copy)]
pub struct Count {
    pub model: u64,
    pub rust: u64,
}

impl Tally {
    pub fn count(&mut self, kind: String, rust: bool) {
        let count = self.counts.entry(kind).or_default();
        count.model += 1;
        count.rust += rust as u64;
    }

    pub fn add(&mut self, other: &Tally) {
        for (kind, count) in &other.counts {
            let sum = self.counts.entry(kind.clone()).or_default();
            sum.model += count.model;
            sum.rust += count.rust;
        }
        self.scripts += other.scripts;
        self.states += other.states;
    }

    pub fn total(&self) -> Count {
        self.counts.values().fold(Count::default(), |sum, count| Count {
            model: sum.model + count.model,
            rust: sum.rust + count.rust,
        })
    }

    /// Kinds of answer that were never compared, among those named.
    pub fn missing<'a>(&self, kinds: &[&'a str]) -> Vec<&'a str> {
        kinds.iter().copied().filter(|kind| !self.counts.contains_key(*kind)).collect()
    }
}

impl fmt::Display for Tally {
    fn fmt(&self, f: &mut fmt::Formatter<'_>) -> fmt::Result {
        writeln!(f, "{:<32}{:>12}{:>12}", "calls compared", "model", "Rust")?;
        for (kind, count) in &self.counts {
            writeln!(f, "{kind:<32}{:>12}{:>12}", count.model, count.rust)?;
        }
        let total = self.total();
        writeln!(f, "{:<32}{:>12}{:>12}", "in all", total.model, total.rust)?;
        writeln!(f, "{} scripts; {} whole tanks equal to the Rust's", self.scripts, self.states)?;
        write!(f, "{NO_ANSWER}")
    }
}
