//! Most by a horizon: its value against the oracle's, its cut by its bound.

use pudeyan_tests::differ::{Differ, Known};
use pudeyan_tests::gen::{damage, networks, Rng};
use pudeyan_tests::oracle::{self, expanded};
use pudeyan_tests::tally::{cases, refusals, seed, Outcome, Tally};

/// A length for the list: mostly enough, sometimes one short or none at all.
fn count(rng: &mut Rng, places: u32) -> usize {
    let places = places as usize;
    match rng.below(8) {
        0 => places - 1,
        1 => rng.below(places),
        2 => places + rng.below(900),
        3 => 64,
        _ => places,
    }
}

fn horizon(rng: &mut Rng) -> u64 {
    match rng.below(14) {
        0 => 0,
        1 => 1,
        2 => 100_063_000,
        3 => 100_063_001,
        4 => rng.draw(),
        5 => u64::from(rng.within(0, 50)) << 32 | u64::from(rng.within(0, 200_000_000)),
        6 | 7 => u64::from(rng.within(0, 1_063_000)),
        10 | 11 => u64::from(rng.within(0, 100_063_000)),
        8 | 9 => u64::from(rng.within(0, 20_000)),
        _ => u64::from(rng.within(0, 200)),
    }
}

#[test]
fn small_networks() {
    let mut rng = Rng::new(seed(31));
    let mut differ = Differ::new(rng.draw());
    let mut tally = Tally::new("most, small");
    let (mut compared, mut unreachable) = (0, 0);
    for _ in 0..cases(2_000) {
        let known = Known::new(networks::small(&mut rng));
        unreachable += u64::from(!oracle::planner::chain_exists(&known.network));
        for horizon in 0..14 {
            // The oracle's two methods first, then the library.
            let most = known.profile.most(horizon);
            assert_eq!(most, expanded::most(&known.network, horizon), "{:?}", known.network);
            assert_eq!(most, expanded::most_unheld(&known.network, horizon), "{:?}", known.network);
            let count = count(&mut rng, known.network.places);
            tally.add(differ.most(&known, horizon, count).unwrap_or_else(|m| panic!("{m}")));
            compared += 1;
        }
        let (horizon, count) = (horizon(&mut rng), count(&mut rng, known.network.places));
        tally.add(differ.most(&known, horizon, count).unwrap_or_else(|m| panic!("{m}")));
    }
    println!("counts most: {compared} compared with a time-expanded flow, with holding and without, {unreachable} networks without a chain");
    assert!(compared > 0 && unreachable > 0);
    tally.require(refusals([9, 10]).chain([Outcome::Answered]), 50);
}

#[test]
fn any_networks() {
    let mut rng = Rng::new(seed(32));
    let mut differ = Differ::new(rng.draw());
    let mut tally = Tally::new("most, any size");
    for case in 0..cases(500) {
        let known = Known::new(networks::in_turn(&mut rng, case));
        for _ in 0..8 {
            let (horizon, count) = (horizon(&mut rng), count(&mut rng, known.network.places));
            tally.add(differ.most(&known, horizon, count).unwrap_or_else(|m| panic!("{m}")));
        }
        // Around the lengths at which the static flow grows.
        let steps = &known.profile.steps;
        if !steps.is_empty() {
            let length = steps[rng.below(steps.len())].length;
            for horizon in [length.saturating_sub(1), length, length + 1] {
                tally.add(differ.most(&known, horizon, 64).unwrap_or_else(|m| panic!("{m}")));
            }
        }
    }
    tally.require(refusals([9, 10]).chain([Outcome::Answered]), 50);
}

#[test]
fn many_augmentations() {
    let mut rng = Rng::new(seed(33));
    let mut differ = Differ::new(rng.draw());
    let known = Known::new(networks::network(&mut rng, networks::Family::ZigZag, networks::Size::FULL));
    println!("counts most: zig-zag with {} augmentations", known.profile.steps.len());
    assert!(known.profile.steps.len() >= 8_000);
    for horizon in [100, 5_000, 17_000, 1_063_000, 100_063_000] {
        differ.most(&known, horizon, 64).unwrap_or_else(|m| panic!("{m}"));
    }
}

/// Many places in one hall, and the same network with hops of one slot.
#[test]
fn many_augmentations_in_a_hall() {
    let mut rng = Rng::new(seed(35));
    let mut differ = Differ::new(rng.draw());
    for transit in [0, 1] {
        let size = networks::Size { transit, ..networks::Size::FULL };
        let known = Known::new(networks::network(&mut rng, networks::Family::ToAndFro, size));
        assert_eq!(known.profile.steps.iter().map(|step| step.rate).sum::<u64>(), 1_296);
        if transit == 1 {
            assert_eq!(known.profile.steps.len(), 1_296);
        }
        for horizon in [1, 20, 1_063_000] {
            differ.most(&known, horizon, 64).unwrap_or_else(|m| panic!("{m}"));
        }
        for amount in [1, 1_297, 1_000_000] {
            differ.plan(&known, amount, 38_912).unwrap_or_else(|m| panic!("{m}"));
        }
    }
}

#[test]
fn no_networks() {
    let mut rng = Rng::new(seed(34));
    let mut differ = Differ::new(rng.draw());
    let mut tally = Tally::new("most, damaged");
    for _ in 0..cases(6_000) {
        let network = networks::small(&mut rng);
        for record in damage::no_networks(&mut rng, &network) {
            let (horizon, count) = (horizon(&mut rng), rng.below(66));
            tally.add(differ.most_refused(&record, horizon, count).unwrap_or_else(|m| panic!("{m}")));
        }
    }
    tally.require(refusals(1..=7), 50);
}
