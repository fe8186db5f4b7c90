//! Replaying link logs, against the oracle's events.

use pudeyan_tests::differ::Differ;
use pudeyan_tests::gen::{damage, logs, networks, plans, Rng};
use pudeyan_tests::oracle::network::{Link, Network};
use pudeyan_tests::oracle::planner;
use pudeyan_tests::oracle::replay::{self, Entry, Taken};
use pudeyan_tests::tally::{cases, findings, refusals, seed, Outcome, Tally};

struct Replayer {
    differ: Differ,
    tally: Tally,
}

impl Replayer {
    fn new(rng: &mut Rng, operation: &'static str) -> Replayer {
        Replayer { differ: Differ::new(rng.draw()), tally: Tally::new(operation) }
    }

    fn check(&mut self, record: &[u8], log: &[u8]) -> Outcome {
        let outcome = self.differ.replay(record, log).unwrap_or_else(|m| panic!("{m}"));
        self.tally.add(outcome);
        outcome
    }
}

fn entry(stamp: u32, link: u32, blocks: u32) -> Entry {
    Entry { stamp, link, blocks }
}

/// Two hops of transit 1 and capacity 1, one after the other.
fn relay() -> Vec<u8> {
    let link = |start, end| Link { start, end, capacity: 1, transit: 1 };
    Network { places: 3, origin: 0, destination: 2, links: vec![link(0, 1), link(1, 2)] }.record()
}

/// Document 02's words, case by case: the answer is what the library says and
/// what stands here.
#[test]
fn document() {
    let answer = |record: &[u8], entries: &[Entry]| {
        let log = replay::record(entries);
        let said = pudeyan::lent::replay(record, &log).map(|found| (found.finding.number(), found.delivered));
        assert_eq!(said.map_err(|refusal| refusal.number()), replay::replay(record, &log));
        replay::replay(record, &log)
    };
    let relay = relay();
    assert_eq!(answer(&relay, &[]), Ok((0, 0)));
    // Sent on in the slot of arrival; the last slot is that of an entry without blocks.
    assert_eq!(answer(&relay, &[entry(5, 0, 1), entry(6, 1, 1)]), Ok((0, 0)));
    assert_eq!(answer(&relay, &[entry(5, 0, 1), entry(6, 1, 1), entry(7, 0, 0)]), Ok((0, 1)));
    // A slot too early.
    assert_eq!(answer(&relay, &[entry(5, 0, 1), entry(5, 1, 1), entry(9, 0, 0)]), Ok((2, 0)));
    // Two entries for one link and slot; both faults.
    assert_eq!(answer(&relay, &[entry(5, 0, 1), entry(5, 0, 1)]), Ok((1, 0)));
    assert_eq!(answer(&relay, &[entry(5, 1, 2)]), Ok((1, 0)));
    // FF FF FF FF to 00 00 00 00 is one slot.
    assert_eq!(answer(&relay, &[entry(u32::MAX, 0, 1), entry(0, 1, 1), entry(1, 0, 0)]), Ok((0, 1)));
    // Distances and slots at their limits.
    assert_eq!(answer(&relay, &[entry(9, 0, 0), entry(9 + 0x8000_0000, 0, 0)]), Err(21));
    assert_eq!(answer(&relay, &[entry(9, 0, 0), entry(9 + 0x7fff_ffff, 0, 0)]), Err(22));
    assert_eq!(answer(&relay, &[entry(9, 0, 0), entry(8, 0, 0)]), Err(21));
    assert_eq!(answer(&relay, &[entry(9, 0, 0), entry(100_063_009, 0, 0)]), Ok((0, 0)));
    assert_eq!(answer(&relay, &[entry(9, 0, 0), entry(100_063_010, 0, 0)]), Err(22));
    // An entry's own refusals come before its distance's, and both before the next entry's.
    assert_eq!(answer(&relay, &[entry(9, 0, 0), entry(8, 2, 0)]), Err(20));
    assert_eq!(answer(&relay, &[entry(9, 0, 0), entry(8, 0, 0), entry(8, 2, 0)]), Err(21));
    assert_eq!(answer(&relay, &[entry(9, 0, 10_000)]), Ok((1, 0)));
    assert_eq!(answer(&relay, &[entry(9, 0, 10_001)]), Err(20));
    // The 4,097th, whatever it holds.
    let most = vec![entry(9, 0, 0); 4_096];
    assert_eq!(answer(&relay, &most), Ok((0, 0)));
    let mut log = replay::record(&most);
    log.push(0);
    assert_eq!(replay::replay(&relay, &log), Err(20));
    assert_eq!(pudeyan::lent::replay(&relay, &log).map_err(|refusal| refusal.number()), Err(20));
    // A loop of hops that take no slot may feed itself.
    let link = |start, end| Link { start, end, capacity: 5, transit: 0 };
    let hall = Network { places: 4, origin: 0, destination: 3, links: vec![link(1, 2), link(2, 1)] }.record();
    assert_eq!(answer(&hall, &[entry(0, 0, 5), entry(0, 1, 5)]), Ok((0, 0)));
    assert_eq!(answer(&hall, &[entry(0, 0, 5), entry(0, 1, 4)]), Ok((2, 0)));
}

#[test]
fn kept_and_spoilt_logs() {
    let mut rng = Rng::new(seed(71));
    let mut replayer = Replayer::new(&mut rng, "replay, kept and spoilt");
    for case in 0..cases(6_000) {
        let network = if case % 12 == 0 { networks::any(&mut rng) } else { networks::small(&mut rng) };
        let record = network.record();
        let count = rng.below(if case % 20 == 0 { 600 } else { 40 });
        let taken = logs::kept(&mut rng, &network, count);
        let log = logs::stamped(&mut rng, &taken);
        let kept = replayer.check(&record, &replay::record(&log));
        assert_eq!(kept, Outcome::Finding(0), "{network:?} {taken:?}");
        for way in 0..logs::WAYS {
            let mut spoilt = log.clone();
            logs::spoil(&mut rng, &network, &mut spoilt, way);
            if rng.one_in(3) {
                let way = rng.below(logs::WAYS);
                logs::spoil(&mut rng, &network, &mut spoilt, way);
            }
            replayer.check(&record, &replay::record(&spoilt));
        }
    }
    replayer.tally.require(findings().chain(refusals([20, 21, 22])), 300);
}

/// The oracle's events against the definition, slot after slot.
#[test]
fn the_oracle_agrees_with_the_definition() {
    let mut rng = Rng::new(seed(72));
    let mut tally = Tally::new("replay, oracle against definition");
    for _ in 0..cases(20_000) {
        let network = networks::small(&mut rng);
        let count = rng.below(12);
        let mut taken = logs::kept(&mut rng, &network, count);
        taken.iter_mut().for_each(|entry| entry.slot %= 60);
        taken.sort_by_key(|entry| entry.slot);
        if let (false, Some(entry)) = (rng.one_in(3), taken.first_mut()) {
            entry.blocks += rng.within(0, 2);
        }
        let found = replay::found(&network, &taken);
        assert_eq!(found, replay::found_slot_by_slot(&network, &taken), "{network:?} {taken:?}");
        tally.add(Outcome::Finding(found.0));
    }
    tally.require(findings(), 100);
}

/// The log of a plan that passes: 0, and the amount once its horizon is logged.
#[test]
fn plans_laid_out() {
    let mut rng = Rng::new(seed(73));
    let mut replayer = Replayer::new(&mut rng, "replay, plans laid out");
    for _ in 0..cases(2_000) {
        let network = networks::small(&mut rng);
        let amount = rng.within(1, 60);
        let Some(plan) = planner::plan(&network, amount) else {
            continue;
        };
        for slots in [1, plan.horizon / 2 + 1, plan.horizon, plan.horizon + rng.within(0, 9)] {
            let Some(taken) = logs::laid_out(&mut rng, &network, &plan, u64::from(slots)) else {
                continue;
            };
            let log = replay::record(&logs::stamped(&mut rng, &taken));
            assert_eq!(replayer.check(&network.record(), &log), Outcome::Finding(0), "{network:?} {plan:?}");
            let delivered = pudeyan::lent::replay(&network.record(), &log).expect("a log").delivered;
            assert!(delivered <= u64::from(amount));
            assert!(slots < plan.horizon || delivered == u64::from(amount), "{network:?} {plan:?} {slots}");
        }
    }
    replayer.tally.require([Outcome::Finding(0)], 500);
}

#[test]
fn damaged_records() {
    let mut rng = Rng::new(seed(74));
    let mut replayer = Replayer::new(&mut rng, "replay, damaged");
    for case in 0..cases(3_000) {
        let network = if case % 12 == 0 { networks::any(&mut rng) } else { networks::small(&mut rng) };
        let record = network.record();
        let count = 1 + rng.below(20);
        let taken = logs::kept(&mut rng, &network, count);
        let log = replay::record(&logs::stamped(&mut rng, &taken));
        replayer.check(&record, &log[..rng.below(log.len())]);
        for _ in 0..8 {
            replayer.check(&record, &damage::octets(&mut rng, &log));
        }
        for _ in 0..3 {
            replayer.check(&damage::octets(&mut rng, &record), &log);
            replayer.check(&damage::numbers(&mut rng, &network.list()), &log);
        }
        // Both damaged: the network's refusal comes first.
        replayer.check(&damage::octets(&mut rng, &record), &damage::octets(&mut rng, &log));
        let count = rng.below(30);
        replayer.check(&record, &rng.octets(count));
    }
    // Every front of a log, and every octet of it changed in every bit.
    let network = networks::small(&mut rng);
    let taken = logs::kept(&mut rng, &network, 12);
    let (record, log) = (network.record(), replay::record(&logs::stamped(&mut rng, &taken)));
    for end in 0..log.len() {
        replayer.check(&record, &log[..end]);
    }
    for at in 0..log.len() {
        for bit in 0..8 {
            let mut log = log.clone();
            log[at] ^= 1 << bit;
            replayer.check(&record, &log);
        }
    }
    replayer.tally.require(refusals((1..=7).chain(20..=22)), 100);
}

/// Logs of 4,096 entries and some more.
#[test]
fn full_size() {
    let mut rng = Rng::new(seed(75));
    let mut replayer = Replayer::new(&mut rng, "replay, full size");
    let plan_for = |rng: &mut Rng, network: &Network| plans::right(rng, network);
    for case in 0..cases(60) {
        let network = networks::any(&mut rng);
        let record = network.record();
        let count = [4_096, 4_096, 4_095, 4_097][case as usize % 4];
        let mut taken: Vec<Taken> = logs::kept(&mut rng, &network, count);
        if case % 3 == 1 {
            let at = rng.below(taken.len());
            taken[at].blocks += 1;
        }
        replayer.check(&record, &replay::record(&logs::stamped(&mut rng, &taken)));
        if let Some(plan) = plan_for(&mut rng, &network) {
            let slots = u64::from(plan.horizon);
            if let Some(taken) = logs::laid_out(&mut rng, &network, &plan, slots) {
                replayer.check(&record, &replay::record(&logs::stamped(&mut rng, &taken)));
            }
        }
    }
    replayer.tally.require([Outcome::Finding(0), Outcome::Refused(20)], 5);
}
