//! Counts of outcomes, so that a test can tell that each was reached.

use std::collections::BTreeMap;
use std::fmt;

/// What a call ended with.
#[derive(Clone, Copy, Debug, PartialEq, Eq, PartialOrd, Ord, Hash)]
pub enum Outcome {
    Answered,
    Refused(u32),
    Verdict(u32),
    Finding(u32),
}

impl fmt::Display for Outcome {
    fn fmt(&self, f: &mut fmt::Formatter<'_>) -> fmt::Result {
        match self {
            Outcome::Answered => write!(f, "answered"),
            Outcome::Refused(n) => write!(f, "refused {n}"),
            Outcome::Verdict(n) => write!(f, "verdict {n}"),
            Outcome::Finding(n) => write!(f, "finding {n}"),
        }
    }
}

/// Outcomes of one operation, counted.
pub struct Tally {
    operation: &'static str,
    counts: BTreeMap<Outcome, u64>,
}

impl Tally {
    pub fn new(operation: &'static str) -> Tally {
        Tally { operation, counts: BTreeMap::new() }
    }

    pub fn add(&mut self, outcome: Outcome) {
        *self.counts.entry(outcome).or_default() += 1;
    }

    pub fn count(&self, outcome: Outcome) -> u64 {
        self.counts.get(&outcome).copied().unwrap_or(0)
    }

    /// Prints the counts; fails where an outcome was reached too seldom.
    pub fn require(&self, outcomes: impl IntoIterator<Item = Outcome>, least: u64) {
        println!("{self}");
        let least = cases(least).min(least);
        for outcome in outcomes {
            let count = self.count(outcome);
            assert!(count >= least, "{}: {outcome} reached {count} times, {least} wanted", self.operation);
        }
    }
}

impl fmt::Display for Tally {
    fn fmt(&self, f: &mut fmt::Formatter<'_>) -> fmt::Result {
        write!(f, "counts {}: {} calls", self.operation, self.counts.values().sum::<u64>())?;
        self.counts.iter().try_for_each(|(outcome, count)| write!(f, ", {outcome}: {count}"))
    }
}

/// Refusals by their numbers.
pub fn refusals(numbers: impl IntoIterator<Item = u32>) -> impl Iterator<Item = Outcome> {
    numbers.into_iter().map(Outcome::Refused)
}

/// Verdicts 0 to 7.
pub fn verdicts() -> impl Iterator<Item = Outcome> {
    (0..=7).map(Outcome::Verdict)
}

/// Findings 0 to 2.
pub fn findings() -> impl Iterator<Item = Outcome> {
    (0..=2).map(Outcome::Finding)
}

/// `base` cases, times the environment's PUDEYAN_CASES (1 if not set).
pub fn cases(base: u64) -> u64 {
    let factor = match std::env::var("PUDEYAN_CASES") {
        Ok(text) => text.parse::<f64>().expect("PUDEYAN_CASES is a number"),
        Err(_) => 1.0,
    };
    ((base as f64 * factor) as u64).max(1)
}

/// Where a test's pseudo-random cases start: PUDEYAN_SEED, else the test's own.
pub fn seed(own: u64) -> u64 {
    match std::env::var("PUDEYAN_SEED") {
        Ok(text) => text.parse::<u64>().expect("PUDEYAN_SEED is a number") ^ own,
        Err(_) => own,
    }
}
