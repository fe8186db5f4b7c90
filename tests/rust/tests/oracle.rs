//! The oracle against itself: its methods agree, its verdict 0 is what the
//! definition of a flow over time says, its planner is right.

use pudeyan_tests::gen::{networks, plans, Rng};
use pudeyan_tests::oracle::examine::{bound, is_chain, is_cut, length, verdict};
use pudeyan_tests::oracle::{checker, expanded, network, numbers, plan, planner, residual};
use pudeyan_tests::tally::{cases, seed};

#[test]
fn numbers_and_their_shortest_forms() {
    let most = 268_435_455;
    let all = (0..70_000).chain((0..2_097_152).step_by(97)).chain((0..=most).step_by(4_999));
    let all = all.chain([999_999, 1_000_000, 1_063_000, 2_097_151, 2_097_152, 100_000_000, 100_063_000, most]);
    for number in all {
        let octets = numbers::write_all(&[number]);
        assert_eq!(numbers::read(&octets), Ok((number, octets.len())));
    }
    assert_eq!(numbers::write_all(&[127, 128, 2_097_151]), [0x7F, 0x80, 0x01, 0xFF, 0xFF, 0x7F]);
    assert_eq!(numbers::write_all(&[2_097_152, most]), [0x80, 0x80, 0x80, 0x01, 0xFF, 0xFF, 0xFF, 0x7F]);
    for (octets, fault) in [
        (&[0x80, 0x80, 0x80][..], numbers::Fault::Ends),
        (&[0x80, 0x80, 0x80, 0x00], numbers::Fault::NotShortest),
        (&[0x80, 0x80, 0x80, 0x80], numbers::Fault::Continues),
    ] {
        assert_eq!(numbers::read(octets), Err(fault));
    }
}

#[test]
fn records_round_trip() {
    let mut rng = Rng::new(seed(51));
    for _ in 0..cases(500) {
        let net = networks::any(&mut rng);
        assert_eq!(network::read(&net.record()), Ok(net.clone()));
        assert_eq!(network::write(&net.numbers()), Ok(net.record()));
        let walk = plans::walks(&mut rng, &net);
        assert_eq!(plan::read(&net, &walk.record(&net)), Ok(walk));
    }
}

#[test]
fn most_by_two_methods_and_a_cut() {
    let mut rng = Rng::new(seed(52));
    let mut blocks = 0;
    for _ in 0..cases(1_000) {
        let net = networks::small(&mut rng);
        let profile = residual::Profile::new(&net);
        for horizon in 0..12 {
            let most = expanded::most(&net, horizon);
            assert_eq!(profile.most(horizon), most, "{net:?}");
            let cut = residual::cut(&net, horizon);
            assert!(is_cut(&net, horizon as u32, &cut), "{net:?} {cut:?}");
            assert_eq!(bound(&net, &cut), most, "{net:?} {cut:?}");
            blocks += most;
        }
    }
    println!("counts oracle: {blocks} blocks by two methods");
    assert!(blocks > 0);
}

/// Verdict 0 exactly where the rows are chains, as long as they say, their
/// entries a flow that delivers the amount, and the cut a cut with a bound
/// below it. Chains hold nothing at a middle place.
#[test]
fn verdict_0_is_the_definition() {
    let mut rng = Rng::new(seed(53));
    let (mut right, mut wrong, mut held) = (0, 0, 0);
    for _ in 0..cases(4_000) {
        let net = networks::small(&mut rng);
        let Some(mut given) = planner::plan(&net, rng.within(1, 60)) else {
            continue;
        };
        let way = rng.below(plans::WAYS);
        plans::spoil(&mut rng, &net, &mut given, way);
        let Ok(given) = plan::read(&net, &given.record(&net)) else {
            continue;
        };
        let chains = given.rows.iter().all(|r| is_chain(&net, r));
        let measured = given.rows.iter().all(|r| u64::from(r.length) == length(&net, r));
        let delivers = checker::simulate(&net, &given) == Ok(i64::from(given.amount));
        let cut = is_cut(&net, given.horizon - 1, &given.cut) && bound(&net, &given.cut) < u64::from(given.amount);
        assert_eq!(verdict(&net, &given) == 0, chains && measured && delivers && cut, "{net:?} {given:?}");
        let unheld = checker::holds_nothing(&net, &given);
        assert!(unheld || !chains || !delivers, "{net:?} {given:?}");
        held += u32::from(!unheld);
        if chains && measured && delivers && cut {
            right += 1;
        } else {
            wrong += 1;
        }
    }
    println!("counts oracle: verdict 0 by definition {right}, not 0 {wrong}, with blocks held {held}");
    assert!(right > 0 && wrong > 0 && held > 0);
}

#[test]
fn planner_is_right() {
    let mut rng = Rng::new(seed(54));
    let (mut planned, mut compared, mut unreachable) = (0, 0, 0);
    for case in 0..cases(600) {
        let net = if case % 10 == 0 { networks::any(&mut rng) } else { networks::small(&mut rng) };
        match plans::right(&mut rng, &net) {
            Some(plan) => {
                planned += 1;
                assert_eq!(verdict(&net, &plan), 0, "{net:?} {plan:?}");
                if let Some(least) = expanded::least(&net, u64::from(plan.amount), if net.places < 9 { 16 } else { 0 })
                {
                    compared += 1;
                    assert_eq!(u64::from(plan.horizon), least);
                }
            }
            None => {
                unreachable += 1;
                assert!(!planner::chain_exists(&net));
            }
        }
    }
    println!(
        "counts oracle: {planned} planned, {compared} compared with a time-expanded flow, {unreachable} without a chain"
    );
    assert!(planned > 0 && compared > 0 && unreachable > 0);
}

/// What the generator must produce for the other tests to mean something.
#[test]
fn networks_of_all_kinds() {
    let mut rng = Rng::new(seed(55));
    let mut found = [0; 11];
    for _ in 0..cases(2_000) {
        let net = networks::any(&mut rng);
        assert_eq!(network::read(&net.record()), Ok(net.clone()));
        let any = |test: &dyn Fn(&network::Link) -> bool| u32::from(net.links.iter().any(test));
        let pairs = |test: &dyn Fn(&network::Link, &network::Link) -> bool| {
            let later = |(i, a): (usize, &network::Link)| net.links[i + 1..].iter().any(|b| test(a, b));
            u32::from(net.links.iter().enumerate().any(later))
        };
        let still = |l: &network::Link| l.transit == 0 && l.capacity > 0;
        let kinds = [
            any(&|l| l.capacity == 0),
            any(&|l| l.end == net.origin),
            any(&|l| l.start == net.destination),
            pairs(&|a, b| a.start == b.start && a.end == b.end),
            pairs(&|a, b| a.start == b.end && a.end == b.start),
            u32::from(!planner::chain_exists(&net)),
            u32::from(net.links.len() == 256 && net.places == 64),
            u32::from(net.origin > net.destination),
            any(&|l| l.transit == 0),
            u32::from(net.links.iter().all(|l| l.transit == 0)),
            pairs(&|a, b| a.start == b.end && a.end == b.start && still(a) && still(b)),
        ];
        found.iter_mut().zip(kinds).for_each(|(sum, kind)| *sum += kind);
    }
    println!(
        "counts networks: capacity 0, into the origin, out of the archive, parallel, opposite, no chain, \
         full size, origin last, transit 0, only transit 0, loops of transit 0: {found:?}"
    );
    assert!(found.iter().all(|n| *n > 0));
}
