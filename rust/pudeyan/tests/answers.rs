//! The package's answers: what it adds to the library's own, which
//! `tests/rust` compares with an independent implementation.

use pudeyan::{
    examine, lent, limits, most, plan, replay, Entry, Finding, Link, Log, Network, Plan, Refusal, Row, Verdict,
};

/// Network A and its plan, which carries A.
const A: [u8; 24] = [4, 0, 3, 5, 0, 1, 2, 1, 1, 3, 1, 1, 1, 2, 1, 1, 2, 3, 1, 2, 0, 2, 1, 3];
const A_PLAN: [u8; 47] = [
    24, 4, 0, 3, 5, 0, 1, 2, 1, 1, 3, 1, 1, 1, 2, 1, 1, 2, 3, 1, 2, 0, 2, 1, 3, 4, 5, 0, 1, 2, 4, 2, 2, 0, 1, 2, 1, 0,
    3, 3, 0, 2, 3, 4, 1, 0, 1,
];

fn link(start: u32, end: u32, capacity: u32, transit: u32) -> Link {
    Link { start, end, capacity, transit }
}

/// A number with commas between its thousands.
fn with_commas(number: u64) -> String {
    let digits = number.to_string();
    let groups: Vec<&str> = digits.as_bytes().rchunks(3).rev().map(|g| std::str::from_utf8(g).unwrap()).collect();
    groups.join(",")
}

#[test]
fn numbers_and_enums_go_together() {
    for (number, refusal) in (1..=18).chain(20..=23).zip(Refusal::ALL) {
        assert_eq!(refusal.number(), number);
        assert_eq!(Refusal::from_number(number), Some(refusal));
        assert_eq!(refusal.to_string(), format!("refused {number}: {}", refusal.words()));
    }
    assert_eq!(Refusal::ALL.len(), 22);
    assert_eq!([0, 19, 24].map(Refusal::from_number), [None; 3]);
    for (at, verdict) in Verdict::ALL.into_iter().enumerate() {
        assert_eq!(verdict.number() as usize, at);
        assert_eq!(Verdict::from_number(verdict.number()), Some(verdict));
        assert_eq!(verdict.is_right(), at == 0);
        assert_eq!(verdict.to_string(), format!("verdict {at}: {}", verdict.words()));
    }
    assert_eq!(Verdict::from_number(8), None);
    for (at, finding) in Finding::ALL.into_iter().enumerate() {
        assert_eq!(finding.number() as usize, at);
        assert_eq!(Finding::from_number(finding.number()), Some(finding));
        assert_eq!(finding.is_kept(), at == 0);
        assert_eq!(finding.to_string(), format!("finding {at}: {}", finding.words()));
    }
    assert_eq!(Finding::from_number(3), None);
}

#[test]
fn words_name_the_limits() {
    let says = |refusal: Refusal, limit: u64| {
        assert!(refusal.words().contains(&with_commas(limit)), "{refusal} does not say {limit}");
    };
    says(Refusal::HorizonLimits, u64::from(*limits::HORIZON_TRIED.end()));
    says(Refusal::AmountLimits, u64::from(*limits::AMOUNT.start()));
    says(Refusal::AmountLimits, u64::from(*limits::AMOUNT.end()));
    says(Refusal::PlanBufferShort, limits::PLAN_BUFFER as u64);
    says(Refusal::LogEntry, u64::from(*limits::LOG_ENTRIES.end()) + 1);
    says(Refusal::LogSlot, u64::from(*limits::LOG_SLOT.end()));
}

#[test]
fn a_network_has_its_numbers() {
    let network = Network::decode(&A).unwrap();
    assert_eq!((network.places(), network.origin(), network.destination()), (4, 0, 3));
    let links = [link(0, 1, 2, 1), link(1, 3, 1, 1), link(1, 2, 1, 1), link(2, 3, 1, 2), link(0, 2, 1, 3)];
    assert_eq!(network.links(), links);
    assert_eq!(Network::new(4, 0, 3, &links), Ok(network.clone()));
    assert_eq!(network.record(), A);
    assert_eq!(Network::decode(&A[..23]), Err(Refusal::NetworkEnds));
}

#[test]
fn the_longest_network_fits() {
    let most = |limit: std::ops::RangeInclusive<u32>| *limit.end();
    let one = link(62, 63, most(limits::CAPACITY), most(limits::TRANSIT));
    let full = vec![one; most(limits::LINKS) as usize];
    let network = Network::new(64, 62, 63, &full).unwrap();
    assert_eq!(network.record().len(), limits::NETWORK_OCTETS);
    assert_eq!(Network::decode(network.record()), Ok(network));
    for count in [0, 257, 300, 70_000] {
        assert_eq!(Network::new(64, 62, 63, &vec![one; count]), Err(Refusal::NetworkLimits), "{count} links");
    }
    // What comes before the number of links in the record decides before it.
    assert_eq!(Network::new(64, 1, 1, &vec![one; 300]), Err(Refusal::SameEnds));
}

#[test]
fn a_plan_has_its_numbers() {
    let made = Plan::decode(A, &A_PLAN).unwrap();
    assert_eq!(made.record(), A_PLAN);
    assert_eq!((made.amount(), made.horizon(), made.cut()), (4, 5, &[0, 1, 2, 4][..]));
    let rows = vec![
        Row { links: vec![0, 1], length: 2, rate: 1, first: 0, departures: 3 },
        Row { links: vec![0, 2, 3], length: 4, rate: 1, first: 0, departures: 1 },
    ];
    assert_eq!(made.rows(), rows);
    let a = Network::decode(&A).unwrap();
    assert!(rows.iter().all(|row| a.length(&row.links) == Some(row.length)));
    assert_eq!(a.length(&[0, 5]), None);
    assert_eq!(made.rows().iter().map(Row::blocks).sum::<u64>(), 4);
    assert_eq!(Plan::new(A, 4, 5, vec![0, 1, 2, 4], rows), made);
    assert_eq!(made.network(), A);
    assert_eq!(Plan::decode(&A[..3], &A_PLAN), Err(Refusal::NetworkEnds));
    assert_eq!(Plan::decode(A, &A_PLAN[..46]), Err(Refusal::PlanEnds));
    assert_eq!(Plan::decode(A, &A_PLAN[..24]), Err(Refusal::PlanEnds));
    let mut other = A;
    other[23] = 2;
    assert_eq!(Plan::decode(other, &A_PLAN), Err(Refusal::AnotherNetwork));
}

/// Which rows and cut are planned is left to the planner.
#[test]
fn a_plan_that_is_made_is_right() {
    let made = plan(A, 4).unwrap();
    assert_eq!((made.amount(), made.horizon()), (4, 5));
    assert_eq!(examine(A, &made).unwrap().verdict, Verdict::Right);
    assert_eq!(made.network(), A);
    assert_eq!(Plan::decode(A, made.record()), Ok(made.clone()));
    assert_eq!(Plan::new(A, 4, 5, made.cut().to_vec(), made.rows().to_vec()), made);
    assert_eq!(plan(A, 0), Err(Refusal::AmountLimits));
}

/// Numbers of one to four octets in every field.
#[test]
fn long_numbers_come_back() {
    let network = Network::new(3, 2, 0, &vec![link(2, 0, 10_000, 1_000); 256]).unwrap();
    for big in [127, 128, 16_383, 16_384, 1_000_000, 2_097_151, 2_097_152, 100_000_000] {
        let (length, rate) = (big.min(63_000), big.min(10_000));
        let row = Row { links: vec![127, 128, 255], length, rate, first: big, departures: big };
        let made = Plan::new(&network, big, big, vec![big; 3], vec![row.clone(), row]);
        assert_eq!(Plan::decode(&network, made.record()), Ok(made));
    }
    let outside = Plan::new(&network, 1, 1, vec![u32::MAX; 3], vec![]);
    assert_eq!(examine(&network, &outside), Err(Refusal::PlanContinues));
}

#[test]
fn most_has_a_cut_for_each_place() {
    let answer = most(A, 4).unwrap();
    assert_eq!((answer.blocks, answer.cut.len(), answer.cut[0], answer.cut[3]), (2, 4, 0, 4));
    assert_eq!(most(A, 100_063_001), Err(Refusal::HorizonLimits));
    assert_eq!(most([2], 1), Err(Refusal::NetworkEnds));
}

#[test]
fn what_is_lent_is_kept_or_written_from_its_front() {
    let mut cut = [9; 6];
    assert_eq!(lent::most(&A, 4, &mut cut), Ok(2));
    assert_eq!(cut[4..], [9, 9]);
    let mut short = [9; 3];
    assert_eq!((lent::most(&A, 4, &mut short), short), (Err(Refusal::CutShort), [9; 3]));

    let mut buffer = vec![0xEE; limits::PLAN_BUFFER];
    let planned = lent::plan(&A, 4, &mut buffer).unwrap();
    assert_eq!(planned.horizon, 5);
    assert_eq!(lent::examine(&A, &buffer[..planned.length]).unwrap().verdict, Verdict::Right);
    assert!(buffer[planned.length..].iter().all(|&octet| octet == 0xEE));
    assert_eq!(lent::plan(&A, 4, &mut buffer[1..]), Err(Refusal::PlanBufferShort));

    assert_eq!(lent::read_network(&A[..5]), Err(Refusal::NetworkEnds));
    let numbers = lent::read_network(&A).unwrap();
    assert_eq!((&numbers[..8], numbers[24]), (&[4, 0, 3, 5, 0, 1, 2, 1][..], 0));
    assert_eq!(lent::write_network(&numbers, &mut [0; 23]), Err(Refusal::BufferShort));
    assert_eq!(lent::write_network(&numbers, &mut [0; 24]), Ok(24));
}

#[test]
fn a_log_is_replayed() {
    let entry = |stamp, link, blocks| Entry { stamp, link, blocks };
    let replayed = |entries: &[Entry]| replay(A, Log::new(entries)).map(|found| (found.finding, found.delivered));
    assert_eq!(replayed(&[]), Ok((Finding::Kept, 0)));
    assert_eq!(replayed(&[entry(7, 0, 2), entry(8, 1, 1), entry(9, 0, 0)]), Ok((Finding::Kept, 1)));
    assert_eq!(replayed(&[entry(7, 0, 2), entry(7, 0, 1)]), Ok((Finding::Overfull, 0)));
    assert_eq!(replayed(&[entry(7, 0, 2), entry(7, 1, 1)]), Ok((Finding::Oversent, 0)));
    assert_eq!(replayed(&[entry(7, 5, 0)]), Err(Refusal::LogEntry));
    assert_eq!(replayed(&[entry(7, 0, 0), entry(6, 0, 0)]), Err(Refusal::LogDistance));
    assert_eq!(replayed(&[entry(7, 0, 0), entry(100_063_008, 0, 0)]), Err(Refusal::LogSlot));
    assert_eq!(replay(&A[..23], Log::new(&[])), Err(Refusal::NetworkEnds));
    let longest = vec![entry(0, 4, 10_000); 4_096];
    assert_eq!(Log::new(&longest).record().len(), 4_096 * 7);
    assert!(replay(A, Log::new(&longest)).is_ok());
}
