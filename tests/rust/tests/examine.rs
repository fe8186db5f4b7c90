//! Examining plans, against the oracle's sweep.

use pudeyan_tests::differ::Differ;
use pudeyan_tests::gen::{damage, networks, plans, Rng};
use pudeyan_tests::oracle::network::{Link, Network};
use pudeyan_tests::oracle::plan::{carrying, Plan, Row};
use pudeyan_tests::tally::{cases, refusals, seed, verdicts, Outcome, Tally};

struct Examiner {
    differ: Differ,
    tally: Tally,
}

impl Examiner {
    fn new(rng: &mut Rng, operation: &'static str) -> Examiner {
        Examiner { differ: Differ::new(rng.draw()), tally: Tally::new(operation) }
    }

    fn check(&mut self, record: &[u8], plan: &[u8]) -> Outcome {
        let outcome = self.differ.examine(record, plan).unwrap_or_else(|m| panic!("{m}"));
        self.tally.add(outcome);
        outcome
    }
}

#[test]
fn right_and_spoilt_plans() {
    let mut rng = Rng::new(seed(21));
    let mut examiner = Examiner::new(&mut rng, "examine, right and spoilt");
    for case in 0..cases(3_000) {
        let network = if case % 12 == 0 { networks::any(&mut rng) } else { networks::small(&mut rng) };
        let record = network.record();
        let Some(plan) = plans::right(&mut rng, &network) else {
            continue;
        };
        assert_eq!(examiner.check(&record, &plan.record(&network)), Outcome::Verdict(0), "{network:?} {plan:?}");
        for way in 0..plans::WAYS {
            let mut spoilt = plan.clone();
            plans::spoil(&mut rng, &network, &mut spoilt, way);
            if rng.one_in(4) {
                let way = rng.below(plans::WAYS);
                plans::spoil(&mut rng, &network, &mut spoilt, way);
            }
            examiner.check(&record, &spoilt.record(&network));
            // Mostly 7 now, whatever else is wrong, but 1 stays.
            plans::spoil(&mut rng, &network, &mut spoilt, plans::WRONG_LENGTH);
            examiner.check(&record, &spoilt.record(&network));
        }
    }
    examiner.tally.require(verdicts(), 500);
}

#[test]
fn walks() {
    let mut rng = Rng::new(seed(22));
    let mut examiner = Examiner::new(&mut rng, "examine, walks");
    for case in 0..cases(20_000) {
        let network = if case % 40 == 0 { networks::any(&mut rng) } else { networks::small(&mut rng) };
        let plan = plans::walks(&mut rng, &network);
        examiner.check(&network.record(), &plan.record(&network));
    }
    examiner.tally.require((1..=7).map(Outcome::Verdict), 20);
}

/// Many uses of few links, loads around the capacity: few rows, and so many that a link's uses are sorted.
#[test]
fn tight_loads() {
    let mut rng = Rng::new(seed(23));
    let mut examiner = Examiner::new(&mut rng, "examine, tight loads");
    for _ in 0..cases(60_000) {
        let most = *rng.pick(&[6, 24]);
        let capacity = rng.within(1, 7 * most / 6);
        let link = |start: u32, transit: u32| Link { start, end: 1 - start, capacity, transit };
        let links = vec![link(0, rng.within(1, 3)), link(1, rng.within(1, 3)), link(0, rng.within(1, 2))];
        let network = Network { places: 2, origin: 0, destination: 1, links };
        let rows: Vec<Row> = (0..1 + rng.below(most as usize))
            .map(|_| {
                let turns = rng.below(3);
                let out = |rng: &mut Rng| 2 * rng.within(0, 1);
                let mut links = vec![out(&mut rng)];
                for _ in 0..turns {
                    links.extend([1, out(&mut rng)]);
                }
                Row::new(links, rng.within(1, 3), rng.within(0, 8), rng.within(1, 5))
            })
            .collect();
        let amount = rows.iter().map(|r| r.rate * r.departures).sum();
        let horizon = rng.within(8, 30);
        let plan = Plan { amount, horizon, cut: vec![0, horizon - 1], rows }.measured(&network);
        examiner.check(&network.record(), &plan.record(&network));
    }
    examiner.tally.require([2, 3, 6].map(Outcome::Verdict), 500);
}

#[test]
fn damaged_records() {
    let mut rng = Rng::new(seed(24));
    let mut examiner = Examiner::new(&mut rng, "examine, damaged");
    for case in 0..cases(3_000) {
        let network = if case % 12 == 0 { networks::any(&mut rng) } else { networks::small(&mut rng) };
        let record = network.record();
        let plan = match plans::right(&mut rng, &network) {
            Some(plan) => plan,
            None => plans::walks(&mut rng, &network),
        };
        let octets = plan.record(&network);
        examiner.check(&record, &octets[..rng.below(octets.len())]);
        for _ in 0..5 {
            examiner.check(&record, &damage::octets(&mut rng, &octets));
        }
        for _ in 0..10 {
            let rest = damage::numbers(&mut rng, &plan.list());
            examiner.check(&record, &carrying(&record, &rest));
        }
        for _ in 0..3 {
            examiner.check(&damage::octets(&mut rng, &record), &octets);
            examiner.check(&damage::numbers(&mut rng, &network.list()), &octets);
        }
        for way in 0..plans::COPIES {
            examiner.check(&record, &plans::miscopied(&mut rng, &network, &plan, way));
        }
        // Both damaged: the network's refusal comes first.
        examiner.check(&damage::octets(&mut rng, &record), &damage::octets(&mut rng, &octets));
        let count = rng.below(30);
        examiner.check(&record, &rng.octets(count));
    }
    // Every front of a plan, and every octet of it changed in every bit.
    let network = networks::network(
        &mut rng,
        networks::Family::Line,
        networks::Size { places: 5, links: 8, capacity: 9, transit: 4 },
    );
    let (record, plan) = (network.record(), plans::right(&mut rng, &network).expect("a line").record(&network));
    for end in 0..plan.len() {
        examiner.check(&record, &plan[..end]);
    }
    for at in 0..plan.len() {
        for bit in 0..8 {
            let mut plan = plan.clone();
            plan[at] ^= 1 << bit;
            examiner.check(&record, &plan);
        }
    }
    examiner.tally.require(refusals((1..=7).chain(14..=18).chain([23])), 100);
}

/// Plans as large as the record allows.
#[test]
fn full_size() {
    let mut rng = Rng::new(seed(25));
    let mut examiner = Examiner::new(&mut rng, "examine, full size");
    let link = |e: u32| Link { start: e % 63, end: e % 63 + 1, capacity: 10_000, transit: 1 + e % 7 };
    let wide = Network { places: 64, origin: 0, destination: 63, links: (0..256).map(link).collect() };
    let ends = |start: u32| Link { start, end: 1 - start, capacity: 10_000, transit: 3 };
    let pair = Network { places: 2, origin: 0, destination: 1, links: vec![ends(0), ends(1)] };
    for case in 0..cases(120) {
        let (network, rate) = [(&wide, 9), (&pair, 9), (&wide, 500)][case as usize % 3];
        let spread = *rng.pick(&[100, 500, 4_000]);
        let start = if rng.one_in(2) { 100_050_000 } else { 0 };
        let rows = (0..257)
            .map(|_| {
                let hop = |h: u32, rng: &mut Rng| if network.places == 2 { h % 2 } else { h + 63 * rng.within(0, 3) };
                let links = (0..63).map(|h| hop(h, &mut rng)).collect();
                let first = start + rng.within(0, spread);
                Row::new(links, rng.within(1, rate), first, rng.within(1, 300))
            })
            .collect::<Vec<_>>();
        let blocks: u32 = rows.iter().map(|r| r.rate * r.departures).sum();
        let horizon = start + rng.within(1_000, 6_000);
        let mut cut: Vec<u32> = (0..network.places).map(|_| rng.within(0, horizon - 1)).collect();
        cut[network.origin as usize] = 0;
        cut[network.destination as usize] = horizon - rng.within(0, 1);
        let plan = Plan { amount: blocks.clamp(1, 100_000_000), horizon, cut, rows }.measured(network);
        examiner.check(&network.record(), &plan.record(network));
    }
    examiner.tally.require([2, 3, 6].map(Outcome::Verdict), 1);
}
