//! Sums and products that a narrower number does not hold. Each case has a
//! figure that is 0 or 1 when its bits from `bits` on are cut off, and the right
//! answer is another than that of such a library. `bits` goes up to what the
//! figure can reach at all; 32 is always among them, or the comment says why
//! the figure stays below it.

use pudeyan_tests::differ::{Differ, Known};
use pudeyan_tests::oracle::examine::bound;
use pudeyan_tests::oracle::network::{Link, Network};
use pudeyan_tests::oracle::plan::{Plan, Row};
use pudeyan_tests::tally::Outcome;

/// Links from 0 to 1, each with its capacity and transit.
fn parallel(links: impl IntoIterator<Item = (u32, u32)>) -> Network {
    let link = |(capacity, transit)| Link { start: 0, end: 1, capacity, transit };
    Network { places: 2, origin: 0, destination: 1, links: links.into_iter().map(link).collect() }
}

fn row(link: u32, rate: u32, first: u32, departures: u32) -> Row {
    Row::new(vec![link], rate, first, departures)
}

/// A network and a plan for it: verdict and bound, compared with the oracle's, and these.
fn examined(network: &Network, plan: &Plan, verdict: u32) {
    let mut differ = Differ::new(71);
    let outcome = differ
        .examine(&network.record(), &plan.clone().measured(network).record(network))
        .unwrap_or_else(|m| panic!("{m}"));
    assert_eq!(outcome, Outcome::Verdict(verdict), "{plan:?}");
}

/// What is left of a figure in so many bits.
fn cut_off(figure: u64, bits: u32) -> u64 {
    figure % (1 << bits)
}

/// 2^bits as 2^13 x 2^shares x 2^slots, with few shares and with many: then the product of one share is wide, or only their sum.
fn factors(bits: u32) -> impl Iterator<Item = (u32, u32)> {
    let few = (bits - 13).saturating_sub(26);
    let many = (bits - 13).min(8);
    [few, many].into_iter().map(move |shares| (1 << shares, 1 << (bits - 13 - shares)))
}

/// Verdict 4: the blocks sum to 2^bits + 1, and the amount is 1. 257 rows have up to 2^47.8 blocks.
#[test]
fn blocks_of_the_rows() {
    let network = parallel([(10_000, 1); 256]);
    for bits in 13..=47 {
        for (links, departures) in factors(bits) {
            let mut rows: Vec<Row> = (0..links).map(|e| row(e, 8_192, 0, departures)).collect();
            rows.push(row(0, 1, 0, 1));
            let blocks = rows.iter().map(|r| u64::from(r.rate) * u64::from(r.departures)).sum();
            assert_eq!((blocks, cut_off(blocks, bits)), ((1 << bits) + 1, 1));
            let horizon = departures + 1;
            examined(&network, &Plan { amount: 1, horizon, cut: vec![0, horizon - 1], rows }, 4);
        }
    }
}

/// The case by which a library that sums in 32 bits was found to pass: two rows over one link.
#[test]
fn blocks_of_two_rows() {
    let rows = vec![row(0, 8_192, 0, 524_288), row(0, 1, 0, 1)];
    let plan = Plan { amount: 1, horizon: 524_289, cut: vec![0, 524_288], rows };
    examined(&parallel([(10_000, 1)]), &plan, 4);
}

/// Verdict 6: the bound is 2^bits, and the amount 1. 256 links have up to 2^47.8. The bound is answered too.
#[test]
fn bound_of_a_cut() {
    for bits in 13..=47 {
        for (links, slack) in factors(bits) {
            let network = parallel((0..links).map(|_| (8_192, 1)));
            let cut = vec![0, slack + 1];
            assert_eq!((bound(&network, &cut), cut_off(bound(&network, &cut), bits)), (1 << bits, 0));
            examined(&network, &Plan { amount: 1, horizon: slack + 2, cut, rows: vec![row(0, 1, 0, 1)] }, 6);
        }
    }
}

/// Verdict 3: first slot + departures + length is 2^bits, and T is below it. The sum is at most 200,189,000: below 2^28.
#[test]
fn end_of_a_row() {
    for bits in 1..=27 {
        let (half, horizon) = (1 << (bits - 1), ((1u32 << bits) - 1).min(100_063_000));
        let end = u64::from(half - 1) + u64::from(half) + 1;
        assert_eq!((end, cut_off(end, bits)), (1 << bits, 0));
        let rows = vec![row(0, 1, half - 1, half)];
        let plan = Plan { amount: half.min(100_000_000), horizon, cut: vec![0, horizon - 1], rows };
        examined(&parallel([(1, 1)]), &plan, 3);
    }
}

/// Verdict 2: 2^bits blocks enter a link of capacity 10,000 at once. In one slot at most 257 x 10,000 blocks come to what entered
/// before, so the first load above a capacity is below 2^22, however high later ones are.
#[test]
fn load_of_a_link() {
    for bits in 14..=21 {
        let rows: Vec<Row> = (0..1 << (bits - 13)).map(|_| row(0, 8_192, 0, 1)).collect();
        let load = rows.iter().map(|r| u64::from(r.rate)).sum();
        assert_eq!((load, cut_off(load, bits)), (1 << bits, 0));
        examined(&parallel([(10_000, 1)]), &Plan { amount: 1, horizon: 2, cut: vec![0, 1], rows }, 2);
    }
}

/// As many blocks as a capacity allows, from rows and uses all over each other: not overloaded, though the sum over all slots is.
#[test]
fn load_just_at_a_capacity() {
    let rows = (0..250).map(|_| row(0, 40, 0, 100_000_000)).collect();
    let plan = Plan { amount: 1, horizon: 100_000_001, cut: vec![0, 100_000_000], rows };
    examined(&parallel([(10_000, 1)]), &plan, 4);
    examined(&parallel([(9_999, 1)]), &plan, 2);
}

/// The most by the horizon, compared with the oracle's and this.
fn most_is(network: &Network, horizon: u64, most: u64) {
    let known = Known::new(network.clone());
    assert_eq!(known.profile.most(horizon), most);
    let outcome = Differ::new(72).most(&known, horizon, 2).unwrap_or_else(|m| panic!("{m}"));
    assert_eq!(outcome, Outcome::Answered);
}

/// The most is 2^bits: value x horizon less the cost. 256 links have up to 2^47.8.
#[test]
fn most_blocks() {
    for bits in 13..=47 {
        for (links, slots) in factors(bits) {
            let network = parallel((0..links).map(|_| (8_192, 1_000)));
            most_is(&network, 1_000 + u64::from(slots), 1 << bits);
        }
    }
    most_is(&parallel([(10_000, 1); 256]), 100_063_000, 256 * 10_000 * 100_062_999);
}

/// Blocks under way, the cost of a static flow, are at most 256 x 10,000 x 1,000: below 2^32, but with a sign above 31 bits.
#[test]
fn cost_of_a_flow() {
    let cost: u64 = 256 * 10_000 * 1_000;
    assert!(cost > 1 << 31 && cost < 1 << 32);
    let network = parallel([(10_000, 1_000); 256]);
    for horizon in [1_000, 1_001, 2_000, 63_000] {
        most_is(&network, horizon, 2_560_000 * (horizon - 1_000));
    }
}

/// The least horizon, compared with the oracle's and this; the plan by the oracle's examiner.
fn least_is(network: &Network, amount: u64, least: u64) {
    let known = Known::new(network.clone());
    assert_eq!(known.profile.least(amount), Some(least));
    let outcome = Differ::new(73).plan(&known, amount, pudeyan::limits::PLAN_BUFFER).unwrap_or_else(|m| panic!("{m}"));
    assert_eq!(outcome, Outcome::Answered);
}

/// The planner asks whether a maximum flow brings the amount by the longest horizon: value x 100,063,000 against the amount and the cost.
/// Here the product, cut off, is below what it needs to be. 256 links bring at most 2,560,000 blocks a slot, so the product stays
/// below 2^48.
#[test]
fn blocks_by_the_longest_horizon() {
    for bits in 27..=47 {
        let enough = |times: u64| (times << bits).div_ceil(100_063_000);
        let tells = |value: &u64| cut_off(value * 100_063_000, bits) < 100_000_000 + value;
        let value = (1..).map(enough).find(tells).expect("some multiple of 2^bits is just passed");
        assert!(value * 100_063_000 >= 1 << bits && value < 2_560_000);
        let (full, rest) = ((value / 10_000) as usize, (value % 10_000) as u32);
        let network = parallel(std::iter::repeat_n((10_000, 1), full).chain([(rest, 1)]));
        least_is(&network, 100_000_000, 1 + 100_000_000u64.div_ceil(value));
    }
}

/// Amount and cost together, and value x level, above 2^31: three hops, each over 85 links.
#[test]
fn cost_of_a_quickest_flow() {
    let link = |e: u32| Link { start: e % 3, end: e % 3 + 1, capacity: 10_000, transit: 1_000 };
    let network = Network { places: 4, origin: 0, destination: 3, links: (0..255).map(link).collect() };
    for (amount, least) in [(1, 3_001), (849_999, 3_001), (850_000, 3_001), (850_001, 3_002), (1_000_000, 3_002)] {
        least_is(&network, amount, least);
    }
    for (amount, least) in [(99_450_000, 3_117), (99_450_001, 3_118), (100_000_000, 3_118)] {
        least_is(&network, amount, least);
    }
}

/// Amounts and horizons that are right when cut to fewer bits.
#[test]
fn amounts_and_horizons() {
    let known = Known::new(parallel([(3, 2)]));
    let mut differ = Differ::new(74);
    for bits in [20, 21, 22, 24, 26, 27, 28, 31, 32, 33, 40, 48, 53, 62, 63] {
        for number in [1, 4, 5, 999_999, 100_000_000] {
            let wide = (1 << bits) | number;
            let [horizon, amount] = [(9, 100_063_000), (11, 100_000_000)].map(|(refusal, limit)| match wide > limit {
                true => Outcome::Refused(refusal),
                false => Outcome::Answered,
            });
            assert_eq!(differ.most(&known, wide, 2), Ok(horizon), "horizon {wide}");
            assert_eq!(differ.plan(&known, wide, pudeyan::limits::PLAN_BUFFER), Ok(amount), "amount {wide}");
            assert_eq!(differ.most(&known, number, 2), Ok(Outcome::Answered));
            assert_eq!(differ.plan(&known, number, pudeyan::limits::PLAN_BUFFER), Ok(Outcome::Answered));
        }
        assert_eq!(differ.most(&known, u64::MAX << bits, 2), Ok(Outcome::Refused(9)));
        assert_eq!(differ.plan(&known, u64::MAX << bits | 1, pudeyan::limits::PLAN_BUFFER), Ok(Outcome::Refused(11)));
    }
}

/// Lengths that are right or too short when cut to 32 bits.
mod lengths {
    use super::*;
    use pudeyan::lent::{examine, most, plan, read_network, write_network};
    use pudeyan_tests::numbered;
    use std::ptr;

    const PROT_READ_WRITE: i32 = 3;
    const MAP_PRIVATE_ANONYMOUS_NORESERVE: i32 = 0x4022;
    const VAST: usize = 1 << 32;

    extern "C" {
        fn mmap(address: *mut u8, length: usize, protection: i32, flags: i32, file: i32, offset: i64) -> *mut u8;
        fn munmap(address: *mut u8, length: usize) -> i32;
    }

    /// Open memory of so many octets, all 0; only what is touched of it takes room.
    struct Vast(*mut u8, usize);

    impl Vast {
        fn new(octets: usize) -> Vast {
            // SAFETY: a fresh private mapping.
            let map = unsafe { mmap(ptr::null_mut(), octets, PROT_READ_WRITE, MAP_PRIVATE_ANONYMOUS_NORESERVE, -1, 0) };
            assert!(map as isize != -1, "mmap of {octets} octets");
            Vast(map, octets)
        }

        /// The octets, of which the first are these.
        fn with(&mut self, front: &[u8]) -> &mut [u8] {
            // SAFETY: the mapping belongs to this value alone.
            let all = unsafe { std::slice::from_raw_parts_mut(self.0, self.1) };
            all[..front.len()].copy_from_slice(front);
            all
        }

        fn numbers(&mut self) -> &mut [u32] {
            // SAFETY: as above, and pages are aligned.
            unsafe { std::slice::from_raw_parts_mut(self.0.cast(), self.1 / 4) }
        }
    }

    impl Drop for Vast {
        fn drop(&mut self) {
            // SAFETY: the mapping made in `new`, of that length.
            unsafe { munmap(self.0, self.1) };
        }
    }

    fn network() -> Vec<u8> {
        parallel([(3, 2)]).record()
    }

    fn rows() -> Vec<u8> {
        let rows = vec![row(0, 3, 0, 2), row(0, 1, 2, 1)];
        let network = parallel([(3, 2)]);
        Plan { amount: 7, horizon: 5, cut: vec![0, 4], rows }.measured(&network).record(&network)
    }

    #[test]
    fn of_records() {
        assert_eq!(examine(&network(), &rows()).unwrap().verdict.number(), 0);
        let mut vast = Vast::new(VAST + network().len());
        let record = vast.with(&network());
        assert_eq!(read_network(record), Err(numbered(7)));
        assert_eq!(examine(record, &rows()), Err(numbered(7)));
        assert_eq!(most(record, 5, &mut [0; 2]), Err(numbered(7)));
        assert_eq!(plan(record, 7, &mut [0; pudeyan::limits::PLAN_BUFFER]), Err(numbered(7)));
        let mut vast = Vast::new(VAST + rows().len());
        assert_eq!(examine(&network(), vast.with(&rows())), Err(numbered(18)));
    }

    #[test]
    fn of_buffers() {
        let mut vast = Vast::new(VAST);
        let numbers = read_network(&network()).unwrap();
        assert_eq!(write_network(&numbers, vast.with(&[])), Ok(8));
        assert_eq!(vast.with(&[])[..8], network());
        let mut vast = Vast::new(VAST);
        let planned = plan(&network(), 7, vast.with(&[])).unwrap();
        assert_eq!(planned.horizon, 5);
        assert_eq!(examine(&network(), &vast.with(&[])[..planned.length]).unwrap().verdict.number(), 0);
        let mut vast = Vast::new(4 * VAST);
        assert_eq!(most(&network(), 5, vast.numbers()), Ok(9));
        assert_eq!(vast.numbers()[..3], [0, 5, 0]);
    }
}
