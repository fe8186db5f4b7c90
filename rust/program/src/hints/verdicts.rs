//! The row, link, slot or place for which a plan has its verdict.

use super::Hint;
use pudeyan::{Link, Network, Plan, Row, Verdict};

pub fn find(network: &Network, plan: &Plan, verdict: Verdict) -> Option<Hint> {
    match verdict {
        Verdict::NotAChain => first_row(plan, |at, row| broken(network, at, row)),
        Verdict::WrongLength => first_row(plan, |at, row| wrong_length(network, at, row)),
        Verdict::Overloaded => overload(network, plan),
        Verdict::Late => first_row(plan, |at, row| late(plan.horizon(), at, row)),
        Verdict::WrongSum => wrong_sum(plan),
        Verdict::WrongCut => wrong_cut(network, plan),
        _ => None,
    }
}

fn first_row(plan: &Plan, fault: impl Fn(usize, &Row) -> Option<Hint>) -> Option<Hint> {
    plan.rows().iter().enumerate().find_map(|(at, row)| fault(at, row))
}

/// A row's links, as the network has them.
fn links_of<'a>(network: &'a Network, row: &'a Row) -> impl Iterator<Item = (u32, Link)> + 'a {
    row.links.iter().map(|&e| (e, network.links()[e as usize]))
}

/// Where a row's chain breaks off, or ends elsewhere.
fn broken(network: &Network, at: usize, row: &Row) -> Option<Hint> {
    let mut place = network.origin();
    for (e, link) in links_of(network, row) {
        if link.start != place {
            let words = format!("row {at}: link {e} starts at place {}, not at {place}", link.start);
            return Some(Hint::new(vec![("row", at as u64), ("link", e.into())], words));
        }
        place = link.end;
    }
    let archive = network.destination();
    (place != archive).then(|| {
        Hint::new(vec![("row", at as u64)], format!("row {at} ends at place {place}, not at the archive {archive}"))
    })
}

/// A row whose transits do not sum to its length.
fn wrong_length(network: &Network, at: usize, row: &Row) -> Option<Hint> {
    let (sum, written) = (network.length(&row.links)?, row.length);
    (sum != written).then(|| {
        let words = format!("row {at}: its transits sum to {sum}, not to {written}");
        Hint::new(vec![("row", at as u64)], words)
    })
}

/// A link's load changes by so much in a slot.
struct Change {
    link: u32,
    slot: u64,
    by: i64,
}

/// The earliest slot in which some link takes in too much, and the first such
/// link.
fn overload(network: &Network, plan: &Plan) -> Option<Hint> {
    let mut changes: Vec<Change> = plan.rows().iter().flat_map(|row| changes(network, row)).collect();
    changes.sort_by_key(|change| (change.slot, change.link));
    let mut loads = vec![0i64; network.links().len()];
    let mut at = 0;
    while at < changes.len() {
        let Change { link, slot, .. } = changes[at];
        while at < changes.len() && (changes[at].link, changes[at].slot) == (link, slot) {
            loads[link as usize] += changes[at].by;
            at += 1;
        }
        let (load, capacity) = (loads[link as usize], network.links()[link as usize].capacity);
        if load > i64::from(capacity) {
            let words = format!("link {link} takes in {load} in slot {slot}; its capacity is {capacity}");
            return Some(Hint::new(vec![("link", link.into()), ("slot", slot)], words));
        }
    }
    None
}

/// When each of a row's links begins to take its blocks in, and when it ends.
fn changes<'a>(network: &'a Network, row: &'a Row) -> impl Iterator<Item = Change> + 'a {
    let mut slot = u64::from(row.first);
    links_of(network, row).flat_map(move |(link, found)| {
        let begins = Change { link, slot, by: row.rate.into() };
        let ends = Change { link, slot: slot + u64::from(row.departures), by: -i64::from(row.rate) };
        slot += u64::from(found.transit);
        [begins, ends]
    })
}

fn late(horizon: u32, at: usize, row: &Row) -> Option<Hint> {
    let Row { first, departures, length, .. } = row;
    let sum = u64::from(*first) + u64::from(*departures) + u64::from(*length);
    (sum > horizon.into()).then(|| {
        let words = format!("row {at}: {first} + {departures} + {length} is {sum}, above T = {horizon}");
        Hint::new(vec![("row", at as u64)], words)
    })
}

fn wrong_sum(plan: &Plan) -> Option<Hint> {
    let sum: u64 = plan.rows().iter().map(Row::blocks).sum();
    let words = format!("the rows bring {sum}, the amount is {}", plan.amount());
    (sum != plan.amount().into()).then(|| Hint::new(vec![("sum", sum)], words))
}

fn wrong_cut(network: &Network, plan: &Plan) -> Option<Hint> {
    let last = plan.horizon() - 1;
    let wrong = |place: u32, number: u32| {
        if place == network.origin() && number != 0 {
            Some("not 0 as at the origin".into())
        } else if place == network.destination() && number != last {
            Some(format!("not {last} as at the archive"))
        } else {
            (number > last).then(|| format!("above {last}"))
        }
    };
    plan.cut().iter().zip(0..).find_map(|(&number, place)| {
        let words = format!("the cut's number at place {place} is {number}, {}", wrong(place, number)?);
        Some(Hint::new(vec![("place", place.into())], words))
    })
}

#[cfg(test)]
mod tests {
    use super::*;
    use pudeyan::examine;

    /// A line of three places with two links between each pair, and an
    /// opposite one, which makes a loop with the first; both have the transit.
    fn around(transit: u32) -> Network {
        let link = |start, end, capacity, transit| Link { start, end, capacity, transit };
        let first = link(0, 1, 3, transit);
        let links = [first, link(0, 1, 2, 2), link(1, 2, 4, 1), link(1, 2, 1, 3), link(1, 0, 2, transit)];
        Network::new(3, 0, 2, &links).unwrap()
    }

    fn network() -> Network {
        around(1)
    }

    /// The next of a row of pseudo-random numbers, below `end`.
    fn draw(state: &mut u64, end: u32) -> u32 {
        *state = state.wrapping_mul(6_364_136_223_846_793_005).wrapping_add(1_442_695_040_888_963_407);
        ((*state >> 33) % u64::from(end)) as u32
    }

    /// Chains only, some of them through the origin again.
    fn random_row(network: &Network, state: &mut u64) -> Row {
        let mut links = vec![draw(state, 2)];
        if draw(state, 3) == 0 {
            links.extend([4, draw(state, 2)]);
        }
        links.push(2 + draw(state, 2));
        let length = network.length(&links).unwrap();
        Row { links, length, rate: 1 + draw(state, 3), first: draw(state, 4), departures: 1 + draw(state, 3) }
    }

    /// The first slot and link with too much, slot by slot and use by use.
    fn slowly(network: &Network, plan: &Plan) -> Option<(u64, u64)> {
        (0..40u32).find_map(|slot| {
            (0..network.links().len()).find_map(|e| {
                let mut load = 0;
                for row in plan.rows() {
                    let mut at = row.first;
                    for (link, found) in links_of(network, row) {
                        if link as usize == e && (at..at + row.departures).contains(&slot) {
                            load += row.rate;
                        }
                        at += found.transit;
                    }
                }
                (load > network.links()[e].capacity).then_some((e as u64, slot.into()))
            })
        })
    }

    #[test]
    fn an_overload_is_the_first() {
        let (mut state, mut found) = (1, [0, 0]);
        for case in 0..3_000 {
            let network = around(case % 2);
            let rows: Vec<Row> = (0..1 + draw(&mut state, 4)).map(|_| random_row(&network, &mut state)).collect();
            let plan = Plan::new(&network, 1, 9, vec![0, 0, 8], rows);
            let wanted = slowly(&network, &plan);
            let hint = overload(&network, &plan).map(|hint| (hint.places[0].1, hint.places[1].1));
            assert_eq!(hint, wanted, "{plan:?}");
            let verdict = examine(&network, &plan).unwrap().verdict;
            assert_eq!(verdict == Verdict::Overloaded, wanted.is_some(), "{plan:?}");
            found[usize::from(wanted.is_some())] += 1;
        }
        assert!(found.iter().all(|&count| count > 100), "{found:?}");
    }

    /// The first row ends in the last slot that counts, the second one later.
    #[test]
    fn a_late_row_is_the_one_that_is_late() {
        let network = network();
        let row = |first| Row { links: vec![0, 2], length: 2, rate: 1, first, departures: 2 };
        let plan = Plan::new(&network, 4, 6, vec![0, 0, 5], vec![row(2), row(3)]);
        let verdict = examine(&network, &plan).unwrap().verdict;
        let hint = find(&network, &plan, verdict).map(|hint| hint.to_string());
        assert_eq!((verdict, hint.as_deref()), (Verdict::Late, Some("row 1: 3 + 2 + 2 is 7, above T = 6")));
    }

    /// The first row is as long as it says, the second one is not.
    #[test]
    fn a_wrong_length_is_told_with_the_sum() {
        let network = network();
        let row = |length| Row { links: vec![0, 2], length, rate: 1, first: 0, departures: 1 };
        let plan = Plan::new(&network, 2, 3, vec![0, 0, 2], vec![row(2), row(1)]);
        let verdict = examine(&network, &plan).unwrap().verdict;
        let hint = find(&network, &plan, verdict).map(|hint| hint.to_string());
        assert_eq!((verdict, hint.as_deref()), (Verdict::WrongLength, Some("row 1: its transits sum to 2, not to 1")));
    }

    #[test]
    fn every_other_verdict_but_6_has_its_hint() {
        let network = network();
        let hint = |amount, horizon, cut: [u32; 3], links: &[u32]| {
            let length = network.length(links).unwrap();
            let row = Row { links: links.to_vec(), length, rate: 1, first: 2, departures: 2 };
            let plan = Plan::new(&network, amount, horizon, cut.to_vec(), vec![row]);
            let verdict = examine(&network, &plan).unwrap().verdict;
            find(&network, &plan, verdict).map(|hint| hint.to_string())
        };
        assert_eq!(hint(2, 6, [0, 0, 5], &[0, 2]), None);
        let broken = hint(2, 6, [0, 0, 5], &[0, 4, 2]).unwrap();
        assert_eq!(broken, "row 0: link 2 starts at place 1, not at 0");
        assert_eq!(hint(2, 6, [0, 0, 5], &[0, 4]).unwrap(), "row 0 ends at place 0, not at the archive 2");
        assert_eq!(hint(2, 5, [0, 0, 4], &[0, 2]).unwrap(), "row 0: 2 + 2 + 2 is 6, above T = 5");
        assert_eq!(hint(3, 6, [0, 0, 5], &[0, 2]).unwrap(), "the rows bring 2, the amount is 3");
        assert_eq!(hint(2, 6, [1, 0, 5], &[0, 2]).unwrap(), "the cut's number at place 0 is 1, not 0 as at the origin");
        assert_eq!(hint(2, 6, [0, 6, 5], &[0, 2]).unwrap(), "the cut's number at place 1 is 6, above 5");
        assert_eq!(
            hint(2, 6, [0, 0, 6], &[0, 2]).unwrap(),
            "the cut's number at place 2 is 6, not 5 as at the archive"
        );
    }
}
