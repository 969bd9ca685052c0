//! Counting texts and calls by family and by kind of answer.

use std::collections::{BTreeMap, BTreeSet};

use crate::outcome::{MAX_TEXT, Refusal};
use crate::reading::Reading;

/// The kind of answer that writing the text gets, with buffers that are long enough.
pub fn kind_of(reading: &Reading<'_>) -> &'static str {
    match reading {
        Reading::NotUtf8(_) => "refused 3",
        Reading::OutsideSet(_) => "refused 4",
        Reading::Diagnostics(_) => "diagnostics",
        Reading::Machine(machine) if machine.form_len > MAX_TEXT as u64 => "refused 7",
        Reading::Machine(_) => "machine",
    }
}

/// The name of a refusal in a table.
pub fn refused(refusal: Refusal) -> &'static str {
    match refusal.number {
        1 => "refused 1",
        2 => "refused 2",
        3 => "refused 3",
        4 => "refused 4",
        5 => "refused 5",
        6 => "refused 6",
        _ => "refused 7",
    }
}

/// How many there were of each family and kind of answer, and the families in the order in which they were first counted.
#[derive(Default)]
pub struct Tally {
    counts: BTreeMap<(&'static str, &'static str), u64>,
    families: Vec<&'static str>,
}

impl Tally {
    /// Counts one more of the family of that name.
    pub fn count(&mut self, family: &'static str, kind: &'static str) {
        if !self.has_family(family) {
            self.families.push(family);
        }
        *self.counts.entry((family, kind)).or_default() += 1;
    }

    /// The number of all.
    pub fn total(&self) -> u64 {
        self.counts.values().sum()
    }

    /// Whether there was any of a kind.
    pub fn has(&self, kind: &str) -> bool {
        self.counts.keys().any(|&(_, k)| k == kind)
    }

    /// Whether there was any of a family.
    pub fn has_family(&self, family: &str) -> bool {
        self.families.contains(&family)
    }

    /// A table with a line for each family and a column for each kind; `what` is counted.
    pub fn table(&self, what: &str) -> String {
        let kinds: BTreeSet<&str> = self.counts.keys().map(|&(_, kind)| kind).collect();
        let kinds: Vec<&str> = kinds.into_iter().collect();
        let mut lines = format!("| family | {what} | {} |\n", kinds.join(" | "));
        lines.push_str(&format!("|---|---|{}\n", "---|".repeat(kinds.len())));
        for &family in &self.families {
            lines.push_str(&self.row(family, &kinds, |name| name == family));
        }
        lines + &self.row("all", &kinds, |_| true)
    }

    fn row(&self, title: &str, kinds: &[&str], family: impl Fn(&str) -> bool) -> String {
        let count = |kind: &str| -> u64 {
            let matching = self
                .counts
                .iter()
                .filter(|((f, k), _)| family(f) && *k == kind);
            matching.map(|(_, count)| count).sum()
        };
        let counts: Vec<u64> = kinds.iter().map(|kind| count(kind)).collect();
        let total: u64 = counts.iter().sum();
        if total == 0 {
            return String::new();
        }
        let cells: Vec<String> = counts.iter().map(u64::to_string).collect();
        format!("| {title} | {total} | {} |\n", cells.join(" | "))
    }
}
