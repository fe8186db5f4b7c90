//! A bounded run of the fuzzer; the program `fuzz` makes long ones.

use pudeyan_tests::fuzzing;
use pudeyan_tests::tally::{cases, findings, refusals, seed, verdicts, Outcome};

#[test]
fn bounded_run() {
    let report = fuzzing::run(seed(1), cases(60_000)).unwrap_or_else(|m| panic!("{m}"));
    println!("counts fuzz: {} pairs kept", report.kept);
    report.read.require(refusals(1..=7).chain([Outcome::Answered]), 10);
    report.write.require(refusals([4, 5, 6, 8]).chain([Outcome::Answered]), 10);
    report.examine.require(refusals((1..=7).chain(14..=18).chain([23])).chain(verdicts()), 10);
    report.replay.require(refusals((1..=7).chain(20..=22)).chain(findings()), 10);
    report.most.require(refusals((1..=7).chain([9, 10])).chain([Outcome::Answered]), 1);
    report.plan.require(refusals((1..=7).chain(11..=13)).chain([Outcome::Answered]), 1);
}
