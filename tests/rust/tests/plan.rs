//! Planning: T against the oracle's, the plan by the oracle's examiner.

use pudeyan_tests::differ::{Differ, Known};
use pudeyan_tests::gen::{damage, networks, plans, Rng};
use pudeyan_tests::oracle::expanded;
use pudeyan_tests::tally::{cases, refusals, seed, Outcome, Tally};

/// A buffer's length: mostly enough, sometimes odd, one short or none.
fn room(rng: &mut Rng) -> usize {
    match rng.below(10) {
        0 => 38_911,
        1 => rng.below(38_912),
        2 => 38_913 + rng.below(5_000),
        _ => 38_912,
    }
}

fn amount(rng: &mut Rng, known: &Known) -> u64 {
    match rng.below(12) {
        0 => 0,
        1 => 100_000_001,
        2 => rng.draw(),
        3 => u64::from(rng.within(1, 50)) << 32 | u64::from(rng.within(1, 100_000_000)),
        _ => u64::from(plans::amount(rng, &known.profile)),
    }
}

#[test]
fn small_networks() {
    let mut rng = Rng::new(seed(41));
    let mut differ = Differ::new(rng.draw());
    let mut tally = Tally::new("plan, small");
    let mut compared = 0;
    for _ in 0..cases(2_500) {
        let known = Known::new(networks::small(&mut rng));
        for amount in [1, 2, 3, u64::from(rng.within(4, 40))] {
            // The oracle's two methods first, then the library.
            if let Some(least) = expanded::least(&known.network, amount, 24) {
                assert_eq!(known.profile.least(amount), Some(least), "{:?}", known.network);
                assert_eq!(expanded::least_unheld(&known.network, amount, 24), Some(least), "{:?}", known.network);
                compared += 1;
            }
            tally.add(differ.plan(&known, amount, 38_912).unwrap_or_else(|m| panic!("{m}")));
        }
        for _ in 0..4 {
            let (amount, room) = (amount(&mut rng, &known), room(&mut rng));
            tally.add(differ.plan(&known, amount, room).unwrap_or_else(|m| panic!("{m}")));
        }
    }
    println!("counts plan: {compared} compared with a time-expanded flow, with holding and without");
    assert!(compared > 0);
    tally.require(refusals([11, 12, 13]).chain([Outcome::Answered]), 100);
}

#[test]
fn any_networks() {
    let mut rng = Rng::new(seed(42));
    let mut differ = Differ::new(rng.draw());
    let mut tally = Tally::new("plan, any size");
    for case in 0..cases(500) {
        let known = Known::new(networks::in_turn(&mut rng, case));
        for amount in [1, 1_000, 1_000_000, 100_000_000] {
            tally.add(differ.plan(&known, amount, 38_912).unwrap_or_else(|m| panic!("{m}")));
        }
        for _ in 0..4 {
            let (amount, room) = (amount(&mut rng, &known), room(&mut rng));
            tally.add(differ.plan(&known, amount, room).unwrap_or_else(|m| panic!("{m}")));
        }
    }
    tally.require(refusals([11, 12, 13]).chain([Outcome::Answered]), 20);
}

#[test]
fn many_augmentations() {
    let mut rng = Rng::new(seed(43));
    let mut differ = Differ::new(rng.draw());
    let known = Known::new(networks::network(&mut rng, networks::Family::ZigZag, networks::Size::FULL));
    for amount in [1, 1_000, 1_000_000, 1_000_001, 99_999_999, 100_000_000] {
        differ.plan(&known, amount, 38_912).unwrap_or_else(|m| panic!("{m}"));
    }
}

#[test]
fn no_networks() {
    let mut rng = Rng::new(seed(44));
    let mut differ = Differ::new(rng.draw());
    let mut tally = Tally::new("plan, damaged");
    for _ in 0..cases(3_000) {
        let network = networks::small(&mut rng);
        for record in damage::no_networks(&mut rng, &network) {
            let (amount, room) = (u64::from(rng.within(0, 2)), room(&mut rng));
            tally.add(differ.plan_refused(&record, amount, room).unwrap_or_else(|m| panic!("{m}")));
        }
    }
    tally.require(refusals(1..=7), 20);
}
