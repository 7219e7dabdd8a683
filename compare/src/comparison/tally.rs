//! Counts of comparisons and differences, by kind, and of the outcomes that were reached.

use super::outcomes::Outcome;
use std::collections::BTreeMap;

/// How many differences are shown with their input.
const MOST_SHOWN: usize = 5;

struct Kind {
    name: &'static str,
    comparisons: u64,
    differences: u64,
}

/// The counts so far, in the order in which the kinds came.
#[derive(Default)]
pub struct Tally {
    kinds: Vec<Kind>,
    shown: usize,
    outcomes: BTreeMap<Outcome, u64>,
}

impl Tally {
    /// Counts one comparison, and shows the input of one of the first differences.
    pub fn record(&mut self, name: &'static str, same: bool, describe: impl FnOnce() -> String) {
        let kind = self.kind(name);
        kind.comparisons += 1;
        if same {
            return;
        }
        kind.differences += 1;
        if self.shown < MOST_SHOWN {
            self.shown += 1;
            println!("DIFFERENCE, {name}: {}", describe());
        }
    }

    /// Counts an expected outcome of a call.
    pub fn reach(&mut self, call: &'static str, outcome: String) {
        *self.outcomes.entry((call, outcome)).or_default() += 1;
    }

    fn kind(&mut self, name: &'static str) -> &mut Kind {
        // most comparisons are of the kind before
        let position = self.kinds.iter().rposition(|kind| kind.name == name);
        let position = position.unwrap_or_else(|| {
            self.kinds.push(Kind {
                name,
                comparisons: 0,
                differences: 0,
            });
            self.kinds.len() - 1
        });
        &mut self.kinds[position]
    }

    pub fn comparisons(&self) -> u64 {
        self.kinds.iter().map(|kind| kind.comparisons).sum()
    }

    pub fn differences(&self) -> u64 {
        self.kinds.iter().map(|kind| kind.differences).sum()
    }

    /// Those of the outcomes that no call was expected to have.
    pub fn unreached(&self, outcomes: Vec<Outcome>) -> Vec<Outcome> {
        let reached = |outcome: &Outcome| self.outcomes.contains_key(outcome);
        outcomes.into_iter().filter(|it| !reached(it)).collect()
    }

    /// Prints a line for each outcome that a call was expected to have.
    pub fn print_outcomes(&self) {
        for ((call, outcome), count) in &self.outcomes {
            println!("{count:>8}  {call}, {outcome}");
        }
    }

    /// Prints a line for each kind, then the totals.
    pub fn print(&self) {
        for kind in &self.kinds {
            let differences = match kind.differences {
                0 => String::new(),
                number => format!(", {number} DIFFERENCES"),
            };
            println!("{:>8}  {}{differences}", kind.comparisons, kind.name);
        }
        println!("{:>8}  comparisons in all", self.comparisons());
        println!("{:>8}  differences", self.differences());
    }
}
