//! Pudeyan from outside: an independent implementation of document 01 to
//! compare the library with, and what the tests, the fuzzer and the benchmarks
//! share.

pub mod differ;
pub mod fuzzing;
pub mod gen;
pub mod guard;
pub mod header;
pub mod oracle;
pub mod peer;
pub mod tally;

use pudeyan::{Examined, Refusal, Verdict};

/// The refusal that document 01 gives a number.
pub fn numbered(number: u32) -> Refusal {
    Refusal::from_number(number).unwrap_or_else(|| panic!("there is no refusal {number}"))
}

/// The examiner's answer with the verdict that document 01 gives a number.
pub fn verdict_and_bound(verdict: u32, bound: u64) -> Examined {
    let verdict = Verdict::from_number(verdict).unwrap_or_else(|| panic!("there is no verdict {verdict}"));
    Examined { verdict, bound }
}
