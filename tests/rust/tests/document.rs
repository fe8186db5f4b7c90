//! The examples of documents 01 and 02 with their figures, through the C interface.

use pudeyan::lent::{examine, read_network, write_network};
use pudeyan::{Examined, Refusal};
use pudeyan_tests::oracle::examine::bound;
use pudeyan_tests::oracle::network::{Link, Network};
use pudeyan_tests::oracle::plan::{carrying, Plan, Row};
use pudeyan_tests::oracle::{self, expanded};
use pudeyan_tests::{numbered, verdict_and_bound};

/// Network A, 24 octets.
const A: [u8; 24] = [
    0x04, 0x00, 0x03, 0x05, 0x00, 0x01, 0x02, 0x01, 0x01, 0x03, 0x01, 0x01, 0x01, 0x02, 0x01, 0x01, 0x02, 0x03, 0x01,
    0x02, 0x00, 0x02, 0x01, 0x03,
];

/// A's plan for 4 blocks: A's length and octets, then 22 octets.
const A_PLAN: [u8; 47] = [
    0x18, 0x04, 0x00, 0x03, 0x05, 0x00, 0x01, 0x02, 0x01, 0x01, 0x03, 0x01, 0x01, 0x01, 0x02, 0x01, 0x01, 0x02, 0x03,
    0x01, 0x02, 0x00, 0x02, 0x01, 0x03, 0x04, 0x05, 0x00, 0x01, 0x02, 0x04, 0x02, 0x02, 0x00, 0x01, 0x02, 0x01, 0x00,
    0x03, 0x03, 0x00, 0x02, 0x03, 0x04, 0x01, 0x00, 0x01,
];

/// A network from origin 0 to the last place; links as start, end, capacity, transit.
fn network(places: u32, links: &[[u32; 4]]) -> Network {
    let link = |l: &[u32; 4]| Link { start: l[0], end: l[1], capacity: l[2], transit: l[3] };
    Network { places, origin: 0, destination: places - 1, links: links.iter().map(link).collect() }
}

/// Its length is measured when it is examined.
fn row(links: &[u32], rate: u32, first: u32, departures: u32) -> Row {
    Row::new(links.to_vec(), rate, first, departures)
}

fn examined(network: &Network, plan: &Plan) -> Result<Examined, Refusal> {
    examine(&network.record(), &plan.clone().measured(network).record(network))
}

#[test]
fn network_a_reads_and_writes() {
    let numbers = read_network(&A).unwrap();
    assert_eq!(&numbers[..8], &[4, 0, 3, 5, 0, 1, 2, 1]);
    assert!(numbers[24..].iter().all(|n| *n == 0));
    let mut buffer = [0xEE; 30];
    assert_eq!(write_network(&numbers, &mut buffer), Ok(24));
    assert_eq!(buffer[..24], A);
    assert_eq!(buffer[24..], [0xEE; 6]);
    assert_eq!(write_network(&numbers, &mut [0; 23]), Err(numbered(8)));
}

#[test]
fn plan_of_a_is_right() {
    assert_eq!(examine(&A, &A_PLAN), Ok(verdict_and_bound(0, 2)));
}

#[test]
fn cut_of_a_has_bound_2() {
    let a = oracle::network::read(&A).unwrap();
    assert_eq!(bound(&a, &[0, 1, 2, 4]), 2);
}

#[test]
fn figures_of_the_oracle() {
    let a = oracle::network::read(&A).unwrap();
    let most: Vec<u64> = (2..=6).map(|h| expanded::most(&a, h)).collect();
    assert_eq!(most, [0, 1, 2, 4, 6]);
    let least: Vec<u64> = (1..=5).map(|amount| expanded::least(&a, amount, 20).unwrap()).collect();
    assert_eq!(least, [3, 4, 5, 5, 6]);
    let parallel = network(2, &[[0, 1, 1, 1], [0, 1, 1, 2]]);
    let most: Vec<u64> = (1..=4).map(|h| expanded::most(&parallel, h)).collect();
    assert_eq!(most, [0, 1, 3, 5]);
}

#[test]
fn capacity_3_transit_2_amount_7() {
    let one = network(2, &[[0, 1, 3, 2]]);
    let rows = vec![row(&[0], 3, 0, 2), row(&[0], 1, 2, 1)];
    let plan = Plan { amount: 7, horizon: 5, cut: vec![0, 4], rows };
    assert_eq!(examined(&one, &plan), Ok(verdict_and_bound(0, 6)));
}

#[test]
fn numbers_in_the_first_place() {
    for (octets, refusal) in [
        (&[0x80, 0x00][..], 2),
        (&[0x80], 1),
        (&[0x80, 0x80], 1),
        (&[0x80, 0x80, 0x80], 1),
        (&[0x80, 0x80, 0x80, 0x80], 3),
        (&[0x80, 0x80, 0x80, 0x80, 0x00], 3),
        (&[0x80, 0x80, 0x00], 2),
        (&[0x80, 0x80, 0x80, 0x00], 2),
        (&[], 1),
        (&[0x7F], 4),
        (&[0x80, 0x01], 4),
        (&[0xFF, 0xFF, 0x7F], 4),
        (&[0x80, 0x80, 0x80, 0x01], 4),
        (&[0xFF, 0xFF, 0xFF, 0x7F], 4),
        (&[0x01], 4),
        (&[0x02], 1),
    ] {
        assert_eq!(read_network(octets), Err(numbered(refusal)), "{octets:02x?}");
    }
}

#[test]
fn entering_in_the_last_slot_overloads() {
    let one = network(2, &[[0, 1, 1, 1]]);
    for (second, verdict) in [(2, 2), (3, 0)] {
        let rows = vec![row(&[0], 1, 0, 3), row(&[0], 1, second, 2)];
        let plan = Plan { amount: 5, horizon: 6, cut: vec![0, 5], rows };
        assert_eq!(examined(&one, &plan).unwrap().verdict.number(), verdict);
    }
}

#[test]
fn overload_past_the_horizon_is_2_and_not_3() {
    let one = network(2, &[[0, 1, 1, 1]]);
    let late = row(&[0], 1, 9, 1);
    let mut plan = Plan { amount: 2, horizon: 3, cut: vec![0, 2], rows: vec![late.clone(), late] };
    assert_eq!(examined(&one, &plan).unwrap().verdict.number(), 2);
    plan.rows[1].first = 10;
    assert_eq!(examined(&one, &plan).unwrap().verdict.number(), 3);
}

#[test]
fn a_chain_over_capacity_0_is_overloaded() {
    let none = network(2, &[[0, 1, 0, 1]]);
    let plan = Plan { amount: 1, horizon: 2, cut: vec![0, 1], rows: vec![row(&[0], 1, 0, 1)] };
    assert_eq!(examined(&none, &plan), Ok(verdict_and_bound(2, 0)));
}

#[test]
fn places_may_be_visited_twice() {
    // Out to the archive, back to the origin, out again: each use loads.
    let pair = network(2, &[[0, 1, 1, 1], [1, 0, 1, 1]]);
    let around = |departures, amount, horizon| Plan {
        amount,
        horizon,
        cut: vec![0, horizon - 1],
        rows: vec![row(&[0, 1, 0], 1, 0, departures)],
    };
    // A right row, but not the least horizon: the bound is too high.
    assert_eq!(examined(&pair, &around(2, 2, 5)), Ok(verdict_and_bound(6, 3)));
    // A third departure meets the first block, on its second way out.
    assert_eq!(examined(&pair, &around(3, 3, 6)).unwrap().verdict.number(), 2);
}

#[test]
fn cut_numbers() {
    let line = network(3, &[[0, 1, 1, 1], [1, 2, 1, 1]]);
    let plan = |cut: [u32; 3]| Plan { amount: 1, horizon: 3, cut: cut.to_vec(), rows: vec![row(&[0, 1], 1, 0, 1)] };
    assert_eq!(examined(&line, &plan([0, 1, 2])), Ok(verdict_and_bound(0, 0)));
    assert_eq!(examined(&line, &plan([0, 2, 2])), Ok(verdict_and_bound(6, 1)));
    assert_eq!(examined(&line, &plan([0, 3, 2])), Ok(verdict_and_bound(5, 2)));
    assert_eq!(examined(&line, &plan([1, 1, 2])), Ok(verdict_and_bound(5, 0)));
    assert_eq!(examined(&line, &plan([0, 1, 1])), Ok(verdict_and_bound(5, 0)));
    assert_eq!(examined(&line, &plan([0, 100_063_000, 2])), Ok(verdict_and_bound(5, 100_062_999)));
    assert_eq!(examined(&line, &plan([0, 100_063_001, 2])), Err(numbered(17)));
}

#[test]
fn limits_of_a_plan() {
    // As many links as there can be, so that only the record's limits count.
    let one = network(2, &[[0, 1, 10_000, 1]; 256]);
    let record = one.record();
    let of = |list: &[u32]| examine(&record, &carrying(&record, &oracle::numbers::write_all(list)));
    // amount, T, cut, cut, rows, links, link, length, rate, first, departures
    let right = [1, 2, 0, 1, 1, 1, 0, 1, 1, 0, 1];
    assert_eq!(of(&right), Ok(verdict_and_bound(0, 0)));
    for (at, low, high) in [
        (0, 1, 100_000_000),
        (1, 1, 100_063_000),
        (2, 0, 100_063_000),
        (3, 0, 100_063_000),
        (4, 1, 257),
        (5, 1, 63),
        (6, 0, 255),
        (7, 0, 63_000),
        (8, 1, 10_000),
        (9, 0, 100_063_000),
        (10, 1, 100_063_000),
    ] {
        let with = |number: u32| {
            let mut list = right;
            list[at] = number;
            of(&list)
        };
        // Within its limits a number is not refused with 17; with more rows
        // or links than follow, the record ends.
        assert_ne!(with(low), Err(numbered(17)), "number {at} at {low}");
        assert_ne!(with(high), Err(numbered(17)), "number {at} at {high}");
        assert_eq!(with(high + 1), Err(numbered(17)), "number {at} above {high}");
        if low > 0 {
            assert_eq!(with(low - 1), Err(numbered(17)), "number {at} below {low}");
        }
    }
    assert_eq!(of(&right[..10]), Err(numbered(14)));
    assert_eq!(of(&[&right[..], &[0]].concat()), Err(numbered(18)));
}

#[test]
fn longest_records() {
    let link = |e: u32| Link { start: e % 63, end: e % 63 + 1, capacity: 10_000, transit: 1_000 };
    let network = Network { places: 64, origin: 0, destination: 63, links: (0..256).map(link).collect() };
    assert_eq!(network.record().len(), 1_541);
    let links: Vec<u32> = (0..63).map(|hop| hop + 63 * 3).collect();
    let rows = vec![row(&links, 10_000, 100_063_000, 100_063_000); 257];
    let plan = Plan { amount: 100_000_000, horizon: 100_063_000, cut: vec![100_063_000; 64], rows };
    let plan = plan.measured(&network);
    assert_eq!(plan.record(&network).len(), 37_789);
    assert_eq!(examined(&network, &plan).unwrap().verdict.number(), 2);
    // The largest bound: every link crosses the whole horizon.
    let ends = |_| Link { start: 0, end: 1, capacity: 10_000, transit: 1 };
    let wide = Network { places: 2, origin: 0, destination: 1, links: (0..256).map(ends).collect() };
    let plan = Plan { amount: 1, horizon: 100_063_000, cut: vec![0, 100_063_000], rows: vec![row(&[0], 1, 0, 1)] };
    assert_eq!(examined(&wide, &plan), Ok(verdict_and_bound(5, 256 * 10_000 * 100_062_999)));
}

mod most {
    use super::*;
    use pudeyan::lent::most;

    fn by(network: &Network, horizon: u64) -> Result<u64, Refusal> {
        most(&network.record(), horizon, &mut [0; 64])
    }

    #[test]
    fn figures() {
        let a = oracle::network::read(&A).unwrap();
        assert_eq!((2..=6).map(|h| by(&a, h).unwrap()).collect::<Vec<_>>(), [0, 1, 2, 4, 6]);
        let parallel = network(2, &[[0, 1, 1, 1], [0, 1, 1, 2]]);
        assert_eq!((1..=4).map(|h| by(&parallel, h).unwrap()).collect::<Vec<_>>(), [0, 1, 3, 5]);
        assert_eq!(by(&network(2, &[[0, 1, 0, 1]]), 100_063_000), Ok(0));
        assert_eq!(by(&a, 0), Ok(0));
        assert_eq!(by(&network(3, &[[0, 1, 1, 1]]), 500), Ok(0));
    }

    #[test]
    fn refusals_in_order() {
        assert_eq!(most(&A, 100_063_000, &mut [0; 4]), Ok(2 * 100_063_000 - 6));
        assert_eq!(most(&A, 100_063_001, &mut [0; 3]), Err(numbered(9)));
        assert_eq!(most(&A, 100_063_000, &mut [0; 3]), Err(numbered(10)));
        assert_eq!(most(&A, u64::MAX, &mut []), Err(numbered(9)));
        assert_eq!(most(&A, 1 << 32, &mut [0; 4]), Err(numbered(9)));
        assert_eq!(most(&A[..23], u64::MAX, &mut []), Err(numbered(1)));
    }
}

mod plan {
    use super::*;
    use pudeyan::lent::plan;

    fn least(network: &Network, amount: u64) -> Result<u64, Refusal> {
        let mut buffer = vec![0; 38_912];
        plan(&network.record(), amount, &mut buffer).map(|planned| planned.horizon)
    }

    #[test]
    fn figures() {
        let a = oracle::network::read(&A).unwrap();
        assert_eq!((1..=5).map(|amount| least(&a, amount).unwrap()).collect::<Vec<_>>(), [3, 4, 5, 5, 6]);
        assert_eq!(least(&network(2, &[[0, 1, 3, 2]]), 7), Ok(5));
        assert_eq!(least(&network(2, &[[0, 1, 1, 1]]), 1_000_000), Ok(1_000_001));
        let line: Vec<[u32; 4]> = (0..63).map(|e| [e, e + 1, 1, 1_000]).collect();
        assert_eq!(least(&network(64, &line), 1_000_000), Ok(1_063_000));
        assert_eq!(least(&network(2, &[[0, 1, 0, 1]]), 1), Err(numbered(12)));
    }

    #[test]
    fn refusals_in_order() {
        let none = network(2, &[[0, 1, 0, 1]]).record();
        let mut short = vec![0; 38_911];
        let mut enough = vec![0; 38_912];
        assert_eq!(plan(&none, 0, &mut short), Err(numbered(11)));
        assert_eq!(plan(&none, 1 << 32 | 5, &mut short), Err(numbered(11)));
        assert_eq!(plan(&none, 1, &mut short), Err(numbered(13)));
        assert_eq!(plan(&none, 1, &mut enough), Err(numbered(12)));
        assert_eq!(plan(&none[..7], 0, &mut short), Err(numbered(1)));
        assert_eq!(plan(&A, 1, &mut []), Err(numbered(13)));
        assert_eq!(plan(&A, 1, &mut enough).unwrap().horizon, 3);
    }
}

/// Document 02: campaigns of a hundred million blocks.
mod campaigns {
    use super::*;
    use pudeyan::lent::{most, plan};
    use pudeyan_tests::oracle::residual::Profile;

    const MOST: u64 = 100_000_000;

    fn single() -> Network {
        network(2, &[[0, 1, 1, 1]])
    }

    /// The least horizon: the library's, whose plan passes, and the oracle's.
    fn least_is(network: &Network, amount: u64, least: u64) {
        let (record, mut buffer) = (network.record(), vec![0; 38_912]);
        let planned = plan(&record, amount, &mut buffer).unwrap();
        assert_eq!((planned.horizon, Profile::new(network).least(amount)), (least, Some(least)), "amount {amount}");
        let octets = &buffer[..planned.length];
        assert_eq!(examine(&record, octets).unwrap().verdict.number(), 0);
        assert_eq!(oracle::examine::examine(&record, octets).unwrap().0, 0);
    }

    #[test]
    fn largest_amounts() {
        let line: Vec<[u32; 4]> = (0..63).map(|e| [e, e + 1, 1, 1_000]).collect();
        let line = network(64, &line);
        for amount in [1_000_001, MOST - 1, MOST] {
            least_is(&single(), amount, amount + 1);
            least_is(&line, amount, amount + 63_000);
        }
        let mut buffer = vec![0; 38_912];
        for network in [single(), line] {
            assert_eq!(plan(&network.record(), MOST + 1, &mut buffer), Err(numbered(11)));
        }
        // Rounded up where a slot's last share is not full.
        let wide = network(2, &[[0, 1, 3, 2], [0, 1, 4, 5]]);
        // Value 7, 26 blocks under way: 7 T - 26 is at least the amount.
        for amount in MOST - 6..=MOST {
            least_is(&wide, amount, (amount + 26).div_ceil(7));
        }
    }

    /// The most by the last horizons, and the least horizon of just as much and of one block more.
    #[test]
    fn last_slots_of_a_horizon() {
        let a = oracle::network::read(&A).unwrap();
        for horizon in 100_062_990..=100_063_000 {
            let blocks = 2 * horizon - 6;
            assert_eq!(most(&A, horizon, &mut [0; 4]), Ok(blocks));
            assert_eq!(Profile::new(&a).most(horizon), blocks);
        }
        for horizon in MOST / 2 - 2..MOST / 2 + 3 {
            least_is(&a, 2 * horizon - 6, horizon);
            least_is(&a, 2 * horizon - 5, horizon + 1);
        }
    }

    /// A row that ends in the last slot, or one later; a second row in the first row's last slot, or one later.
    #[test]
    fn last_slots_of_a_row() {
        let of = |amount, horizon, rows| Plan { amount, horizon, cut: vec![0, horizon - 1], rows };
        let verdict = |plan: &Plan| examined(&single(), plan).unwrap().verdict.number();
        let most = MOST as u32;
        assert_eq!(verdict(&of(most, most + 1, vec![row(&[0], 1, 0, most)])), 0);
        assert_eq!(verdict(&of(most, most + 1, vec![row(&[0], 1, 1, most)])), 3);
        assert_eq!(verdict(&of(most, most, vec![row(&[0], 1, 0, most)])), 3);
        assert_eq!(verdict(&of(most - 1, most + 1, vec![row(&[0], 1, 0, most)])), 4);
        assert_eq!(verdict(&of(most, most + 2, vec![row(&[0], 1, 1, most)])), 6);
        for (first, wanted) in [(most - 2, 2), (most - 1, 0), (most, 3)] {
            let rows = vec![row(&[0], 1, 0, most - 1), row(&[0], 1, first, 1)];
            assert_eq!(verdict(&of(most, most + 1, rows)), wanted, "first {first}");
        }
        // At the end of the longest horizon, and after it.
        let last = 100_063_000;
        assert_eq!(verdict(&of(1, last, vec![row(&[0], 1, last - 2, 1)])), 6);
        assert_eq!(verdict(&of(1, last, vec![row(&[0], 1, last - 1, 1)])), 3);
        assert_eq!(verdict(&of(1, last, vec![row(&[0], 1, last, last)])), 3);
    }

    #[test]
    fn numbers_of_four_groups() {
        let record = single().record();
        let amount = |octets: &[u8]| examine(&record, &carrying(&record, octets));
        for (octets, refusal) in [
            (&[0x80, 0x80, 0x80][..], 14),
            (&[0x80, 0x80, 0x80, 0x00], 15),
            (&[0x80, 0x80, 0x80, 0x80], 16),
            (&[0xFF, 0xFF, 0xFF, 0x7F], 17),
            (&[0x81, 0xC2, 0xD7, 0x2F], 17),
            (&[0x80, 0xC2, 0xD7, 0x2F], 14),
            (&[0x80, 0x80, 0x80, 0x01], 14),
        ] {
            assert_eq!(amount(octets), Err(numbered(refusal)), "{octets:02x?}");
        }
        // 100,000,000, T 100,000,001, cut 0 and 100,000,000, one row.
        let plan = [
            0x80, 0xC2, 0xD7, 0x2F, 0x81, 0xC2, 0xD7, 0x2F, 0x00, 0x80, 0xC2, 0xD7, 0x2F, 0x01, 0x01, 0x00, 0x01, 0x01,
            0x00, 0x80, 0xC2, 0xD7, 0x2F,
        ];
        assert_eq!(amount(&plan), Ok(verdict_and_bound(0, MOST - 1)));
    }
}

/// Document 02: each row carries its length.
mod lengths {
    use super::*;
    use pudeyan::lent::plan;

    /// From the origin over two hops, transits 2 and 3; a second way over one link, transit 4.
    fn ways() -> Network {
        network(3, &[[0, 1, 2, 2], [1, 2, 2, 3], [0, 2, 1, 4]])
    }

    /// Two rows of the lengths 5 and 4, right but for what is changed.
    fn changed(change: impl Fn(&mut Plan)) -> Plan {
        let rows = vec![row(&[0, 1], 1, 0, 2), row(&[2], 1, 0, 3)];
        let mut plan = Plan { amount: 5, horizon: 7, cut: vec![0, 3, 6], rows }.measured(&ways());
        change(&mut plan);
        plan
    }

    fn verdict(plan: &Plan) -> u32 {
        let (record, octets) = (ways().record(), plan.record(&ways()));
        let verdict = examine(&record, &octets).unwrap().verdict.number();
        assert_eq!(oracle::examine::examine(&record, &octets).unwrap().0, verdict, "{plan:?}");
        verdict
    }

    #[test]
    fn the_sum_of_the_transits_passes() {
        let plan = changed(|_| ());
        assert_eq!(plan.rows.iter().map(|r| r.length).collect::<Vec<_>>(), [5, 4]);
        assert_eq!(verdict(&plan), 0);
        // One off, of one link, the slot after the last arrival, none, the most.
        for wrong in [4, 6, 2, 3, 7, 0, 63_000] {
            assert_eq!(verdict(&changed(|plan| plan.rows[0].length = wrong)), 7, "length {wrong}");
        }
        for wrong in [5, 3, 0] {
            assert_eq!(verdict(&changed(|plan| plan.rows[1].length = wrong)), 7, "length {wrong}");
        }
        assert_eq!(verdict(&changed(|plan| plan.rows[1].first = 1)), 3);
    }

    /// A wrong length beside every other fault: 1 before 7, 7 before the others.
    #[test]
    fn between_1_and_2() {
        let faults: [(u32, fn(&mut Plan)); 6] = [
            (1, |plan| plan.rows[1].links = vec![1]),
            (2, |plan| plan.rows[1].rate = 2),
            (3, |plan| plan.rows[1].first = 1),
            (4, |plan| plan.amount = 6),
            (5, |plan| plan.cut[1] = 7),
            (6, |plan| plan.cut[1] = 1),
        ];
        for (fault, spoil) in faults {
            let spoilt = changed(spoil).measured(&ways());
            assert_eq!(verdict(&spoilt), fault, "fault {fault}");
            for at in 0..2 {
                let mut both = spoilt.clone();
                both.rows[at].length += 1;
                assert_eq!(verdict(&both), if fault == 1 { 1 } else { 7 }, "fault {fault} and row {at}");
            }
        }
    }

    #[test]
    fn the_planner_writes_them() {
        let mut buffer = vec![0; 38_912];
        for amount in 1..40 {
            let planned = plan(&ways().record(), amount, &mut buffer).unwrap();
            let made = oracle::plan::read(&ways(), &buffer[..planned.length]).unwrap();
            assert_eq!(made.clone().measured(&ways()), made);
        }
    }
}

/// Document 02: a plan carries its network.
mod copies {
    use super::*;
    use pudeyan::lent::plan;

    /// A's plan from the amount on.
    fn body() -> &'static [u8] {
        &A_PLAN[25..]
    }

    fn refusal(octets: &[u8]) -> u32 {
        let refused = examine(&A, octets).map_or_else(|refusal| refusal.number(), |_| 0);
        assert_eq!(oracle::examine::examine(&A, octets).err().unwrap_or(0), refused, "{octets:02x?}");
        refused
    }

    /// 14 to 17 for the length, then 14 for a copy cut short, then 23, then the amount.
    #[test]
    fn in_order() {
        let spelled = |length: &[u8]| refusal(&[length, &A, body()].concat());
        assert_eq!(spelled(&[0x18]), 0);
        assert_eq!(spelled(&[0x98, 0x00]), 15);
        assert_eq!(spelled(&[0x98, 0x80, 0x80, 0x80]), 16);
        assert_eq!(spelled(&[0x86, 0x0C]), 17);
        assert_eq!(spelled(&[0x85, 0x0C]), 14);
        assert_eq!([refusal(&[]), refusal(&[0x80]), refusal(&[0x80, 0x80, 0x80])], [14; 3]);
        // Every front of the copy, and of the plan behind it.
        for end in 0..A_PLAN.len() {
            assert_eq!(refusal(&A_PLAN[..end]), 14, "{end} octets");
        }
        // A copy that is cut short and another one; another one with nothing behind it, or a wrong amount.
        let other = [&[0x05][..], &A[1..]].concat();
        assert_eq!(refusal(&carrying(&other, &[])[..24]), 14);
        assert_eq!(refusal(&carrying(&other, &[])), 23);
        assert_eq!(refusal(&carrying(&other, &[0x00])), 23);
        assert_eq!(refusal(&carrying(&A, &[0x00])), 17);
        // What follows the copy is looked at after it only.
        assert_eq!(refusal(&[&A_PLAN[..], &[0]].concat()), 18);
        assert_eq!(refusal(&[&carrying(&other, body())[..], &[0]].concat()), 23);
    }

    #[test]
    fn another_network() {
        for at in 0..A.len() {
            for bit in 0..8 {
                let mut copy = A;
                copy[at] ^= 1 << bit;
                assert_eq!(refusal(&carrying(&copy, body())), 23, "octet {at}, bit {bit}");
            }
            assert_eq!(refusal(&carrying(&A[..at], body())), 23, "{at} octets");
        }
        assert_eq!(refusal(&carrying(&[&A[..], &[0]].concat(), body())), 23);
        // Origin and archive exchanged: as long as A.
        let other = [&[0x04, 0x03, 0x00], &A[3..]].concat();
        assert!(read_network(&other).is_ok());
        assert_eq!(refusal(&carrying(&other, body())), 23);
        // A again, with a number that is not in its shortest form.
        assert_eq!(refusal(&carrying(&[&[0x84, 0x00], &A[1..]].concat(), body())), 23);
        assert_eq!(refusal(&carrying(&[], body())), 23);
    }

    /// The network's own refusals come first, even if the plan carries just that.
    #[test]
    fn after_the_network() {
        let longer = [&A[..], &[0]].concat();
        assert_eq!(examine(&longer, &carrying(&longer, body())), Err(numbered(7)));
        assert_eq!(examine(&A[..23], &carrying(&A[..23], body())), Err(numbered(1)));
        assert_eq!(examine(&A[..23], &[]), Err(numbered(1)));
    }

    #[test]
    fn the_planner_writes_them() {
        let mut buffer = vec![0; 38_912];
        let longest: Vec<[u32; 4]> = (0..256).map(|e| [e % 63, e % 63 + 1, 10_000, 1_000]).collect();
        for network in [oracle::network::read(&A).unwrap(), network(2, &[[0, 1, 3, 2]]), network(64, &longest)] {
            let record = network.record();
            let planned = plan(&record, 4, &mut buffer).unwrap();
            let front = carrying(&record, &[]);
            assert_eq!(buffer[..front.len()], front);
            assert_eq!(oracle::plan::read(&network, &buffer[..planned.length]).unwrap().amount, 4);
        }
    }
}

/// Document 02: hops inside one hall have transit 0. Figures by hand.
mod halls {
    use super::*;
    use pudeyan::lent::{most, plan};
    use pudeyan_tests::oracle::checker::is_simple;
    use pudeyan_tests::oracle::residual::Profile;

    /// The most by the horizons from 0 on, and the least horizons for the amounts from 1 on: the library's, and
    /// the oracle's by both of its methods.
    fn figures(network: &Network, mosts: &[u64], leasts: &[u64]) {
        let (record, profile) = (network.record(), Profile::new(network));
        for (horizon, figure) in (0..).zip(mosts) {
            assert_eq!(most(&record, horizon, &mut [0; 64]), Ok(*figure), "most by {horizon}");
            assert_eq!([expanded::most(network, horizon), profile.most(horizon)], [*figure; 2], "most by {horizon}");
        }
        for (amount, figure) in (1..).zip(leasts) {
            let mut buffer = vec![0; 38_912];
            let planned = plan(&record, amount, &mut buffer).unwrap();
            assert_eq!(planned.horizon, *figure, "amount {amount}");
            let oracle = [expanded::least(network, amount, 20), profile.least(amount)];
            assert_eq!(oracle, [Some(*figure); 2], "amount {amount}");
            let octets = &buffer[..planned.length];
            assert_eq!(examine(&record, octets).unwrap().verdict.number(), 0);
            let rows = oracle::plan::read(network, octets).unwrap().rows;
            assert!(rows.iter().all(|row| is_simple(network, row)), "{rows:?}");
        }
    }

    /// From 0 to 1 at once, on to the archive in a slot; between 1 and 2 a loop.
    fn loop_beside() -> Network {
        network(4, &[[0, 1, 1, 0], [1, 3, 1, 1], [1, 2, 2, 0], [2, 1, 2, 0]])
    }

    #[test]
    fn transit_0_is_accepted() {
        let one = network(2, &[[0, 1, 1, 0]]);
        let numbers = read_network(&one.record()).unwrap();
        assert_eq!(numbers[..9], [2, 0, 1, 1, 0, 1, 1, 0, 0]);
        let mut buffer = [0xEE; 8];
        assert_eq!(write_network(&numbers, &mut buffer), Ok(8));
        assert_eq!(buffer[..], one.record());
        assert_eq!(read_network(&network(2, &[[0, 1, 1, 1_001]]).record()), Err(numbered(4)));
    }

    #[test]
    fn a_chain_within_a_slot() {
        figures(&network(4, &[[0, 1, 2, 0], [1, 2, 1, 0], [2, 3, 2, 0]]), &[0, 1, 2, 3], &[1, 2, 3]);
        let line: Vec<[u32; 4]> = (0..63).map(|e| [e, e + 1, 1, 0]).collect();
        figures(&network(64, &line), &[0, 1, 2], &[1, 2]);
    }

    #[test]
    fn loops_add_nothing() {
        figures(&loop_beside(), &[0, 0, 1, 2, 3], &[2, 3, 4]);
        // Through the origin and through the archive.
        let ends = [[0, 3, 2, 0], [3, 1, 7, 0], [1, 3, 7, 0], [0, 2, 7, 0], [2, 0, 7, 0]];
        figures(&network(4, &ends), &[0, 2, 4], &[1, 1, 2]);
        // A ring that nothing enters, and an archive that nothing reaches.
        let ring = [[0, 2, 1, 0], [1, 3, 9, 0], [3, 1, 9, 0]];
        let apart = Network { destination: 2, ..network(4, &ring) };
        figures(&apart, &[0, 1, 2], &[1, 2]);
        assert_eq!(most(&network(4, &ring).record(), 9, &mut [0; 4]), Ok(0));
        assert_eq!(plan(&network(4, &ring).record(), 1, &mut [0; 38_912]), Err(numbered(12)));
    }

    #[test]
    fn parallel_hops() {
        figures(&network(2, &[[0, 1, 1, 0], [0, 1, 1, 1]]), &[0, 1, 3, 5], &[1, 2, 2, 3, 3]);
    }

    /// Each time round loads the loop's links in one and the same slot.
    #[test]
    fn an_examined_row_may_go_round() {
        for (rounds, verdict) in [(0, 0), (1, 0), (2, 0), (3, 2)] {
            let links = [&[0][..], &[2, 3].repeat(rounds), &[1]].concat();
            let plan = Plan { amount: 1, horizon: 2, cut: vec![0, 0, 0, 1], rows: vec![row(&links, 1, 0, 1)] };
            assert_eq!(examined(&loop_beside(), &plan), Ok(verdict_and_bound(verdict, 0)), "{rounds} rounds");
        }
    }
}
