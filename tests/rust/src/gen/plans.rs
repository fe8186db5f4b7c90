//! Plans for a network: right ones, nearly right ones, and random walks.

use super::{damage, Rng};
use crate::oracle::examine::{bound, length};
use crate::oracle::limits;
use crate::oracle::network::Network;
use crate::oracle::numbers::write_all;
use crate::oracle::plan::{carrying, Plan, Row};
use crate::oracle::planner;
use crate::oracle::residual::{self, Profile};

const ROWS: usize = 257;
const ROW_LINKS: usize = 63;

/// An amount within its limits.
fn limited(amount: u64) -> u32 {
    amount.clamp(limits::AMOUNT.0.into(), limits::AMOUNT.1.into()) as u32
}

/// The most by a short horizon, or by one near the least for the largest amount: with one block more it takes a slot more.
fn edge(rng: &mut Rng, profile: &Profile) -> u64 {
    let Some(step) = profile.steps.first() else {
        return 1;
    };
    let back = rng.below(50) as u64;
    match profile.least(limits::AMOUNT.1.into()) {
        Some(last) if rng.one_in(2) => profile.most(last.saturating_sub(1 + back)),
        _ => profile.most(step.length + 1 + back),
    }
}

/// An amount for the network: small, large, or at the edge of a horizon.
pub fn amount(rng: &mut Rng, profile: &Profile) -> u32 {
    let edge = edge(rng, profile);
    limited(match rng.below(8) {
        0 => u64::from(rng.within(1, 30)),
        1 => u64::from(rng.within(1, 1_000)),
        2 => u64::from(rng.within(1, 1_000_000)),
        3 => u64::from(rng.within(limits::AMOUNT.0, limits::AMOUNT.1)),
        4 => limits::AMOUNT.1.into(),
        5 => edge,
        6 => edge.max(2) - 1,
        _ => edge + 1,
    })
}

/// A plan with verdict 0; none if the archive can't be reached.
pub fn right(rng: &mut Rng, network: &Network) -> Option<Plan> {
    let amount = amount(rng, &Profile::new(network));
    let mut plan = planner::plan(network, amount)?;
    for _ in 0..rng.below(12) {
        split(rng, &mut plan);
    }
    rng.shuffle(&mut plan.rows);
    Some(plan)
}

/// One row as two that do the same.
fn split(rng: &mut Rng, plan: &mut Plan) {
    if plan.rows.len() >= ROWS {
        return;
    }
    let i = rng.below(plan.rows.len());
    let mut other = plan.rows[i].clone();
    let row = &mut plan.rows[i];
    if row.departures > 1 && rng.one_in(2) {
        row.departures = rng.within(1, row.departures - 1);
        other.first += row.departures;
        other.departures -= row.departures;
    } else if row.rate > 1 {
        row.rate = rng.within(1, row.rate - 1);
        other.rate -= row.rate;
    } else {
        return;
    }
    plan.rows.push(other);
}

/// How many ways there are to spoil a plan.
pub const WAYS: usize = 28;

/// The way that computes a best cut, and so takes longer than the others.
pub const LATER_CLAIM: usize = 15;

/// A way to write a row's length wrongly.
pub const WRONG_LENGTH: usize = 23;

/// A plan changed in one way; mostly, but not always, to a wrong one.
pub fn spoil(rng: &mut Rng, network: &Network, plan: &mut Plan, way: usize) {
    let links = network.links.len();
    let places = network.places as usize;
    let (origin, archive) = (network.origin as usize, network.destination as usize);
    let i = rng.below(plan.rows.len());
    let row = &mut plan.rows[i];
    if row.links.is_empty() {
        return;
    }
    let hop = rng.below(row.links.len());
    let nudge = |rng: &mut Rng, n: u32| if rng.one_in(2) { n + 1 } else { n.saturating_sub(1) };
    match way {
        0 => row.links[hop] = rng.below(links) as u32,
        1 => {
            row.links.remove(hop);
        }
        2 => row.links.insert(hop, rng.below(links) as u32),
        3 => row.links.truncate(hop.max(1)),
        4 => row.rate = nudge(rng, row.rate),
        5 => row.rate = network.links[row.links[hop] as usize].capacity + rng.within(0, 1),
        6 => row.first = nudge(rng, row.first),
        7 => row.first += rng.within(1, 20),
        8 => row.departures = nudge(rng, row.departures),
        9 => plan.amount = nudge(rng, plan.amount),
        10 => plan.horizon = nudge(rng, plan.horizon),
        11 => plan.cut[origin] = rng.within(1, 2),
        12 => plan.cut[archive] = nudge(rng, plan.cut[archive]),
        13 => plan.cut[rng.below(places)] = plan.horizon.saturating_sub(rng.within(0, 1)),
        14 => plan.cut[rng.below(places)] = rng.within(0, plan.horizon),
        LATER_CLAIM => later_claim(network, plan),
        16 => {
            let copy = row.clone();
            plan.rows.push(copy);
        }
        17 => after_the_end(rng, plan, i),
        18 if plan.rows.len() > 1 => {
            plan.rows.remove(i);
        }
        19 => {
            // The cut that only the archive's side crosses.
            plan.cut.iter_mut().for_each(|n| *n = 0);
            plan.cut[archive] = plan.horizon.saturating_sub(1);
        }
        20 => plan.rows.iter_mut().for_each(|r| r.first += 1),
        21 => touch(rng, plan, i),
        22 => {
            let b = bound(network, &plan.cut);
            plan.amount = limited(b + u64::from(rng.within(0, 1)));
        }
        WRONG_LENGTH..=25 => mismeasure(rng, network, plan, i),
        26 => plan.rows[i].length = 0,
        _ => split(rng, plan),
    }
    // Another chain is mostly as long as it says: so that what is wrong with it shows under the later verdicts too.
    if way < 4 && !rng.one_in(4) {
        plan.rows[i].measure(network);
    }
    plan.rows.truncate(ROWS);
}

/// How many ways there are to spoil the copy of the network.
pub const COPIES: usize = 12;

/// A plan's record whose copy of the network is spoilt in one way: mostly, but not always, it is turned down with 23.
pub fn miscopied(rng: &mut Rng, network: &Network, plan: &Plan, way: usize) -> Vec<u8> {
    let (record, rest) = (network.record(), write_all(&plan.list()));
    let mut copy = record.clone();
    let last = copy.len() - 1;
    match way {
        0 => copy[rng.below(last)] ^= 1 << rng.below(8),
        1 => copy[last] ^= 1 << rng.below(8),
        2 => copy.truncate(last),
        3 => copy.push(rng.draw() as u8),
        4 => copy.clear(),
        // Another network, mostly of the same length.
        5 => {
            let other = Network { origin: network.destination, destination: network.origin, ..network.clone() };
            copy = other.record();
        }
        // The network itself, but a number of it misspelled or another.
        6 | 7 => copy = damage::numbers(rng, &network.list()),
        8 => return [&damage::padded(rng, record.len() as u32)[..], &record, &rest].concat(),
        9 => return [&write_all(&[limits::COPY.1 + rng.within(0, 1)])[..], &record, &rest].concat(),
        // One octet more or fewer than the length says.
        10 => {
            let length = record.len() as u32 + 2 * rng.within(0, 1) - 1;
            return [&write_all(&[length])[..], &record, &rest].concat();
        }
        _ => return carrying(&record, &[])[..rng.below(record.len() + 2)].to_vec(),
    }
    carrying(&copy, if rng.one_in(4) { &[] } else { &rest })
}

/// A row that writes another length than its own: one slot off, that of one of its links or of another row, or the slot by which its first
/// block arrives.
fn mismeasure(rng: &mut Rng, network: &Network, plan: &mut Plan, i: usize) {
    let other = plan.rows[rng.below(plan.rows.len())].length;
    let row = &mut plan.rows[i];
    let hop = *rng.pick(&row.links);
    let wrong = match rng.below(5) {
        0 => row.length + 1,
        1 => row.length.saturating_sub(1),
        2 => network.links[hop as usize].transit,
        3 => other,
        _ => row.first + row.length,
    };
    row.length = wrong.min(limits::LENGTH.1);
}

/// Claims one slot more, with the best cut for it: the bound is at least the
/// amount, and sometimes just that.
fn later_claim(network: &Network, plan: &mut Plan) {
    plan.cut = residual::cut(network, u64::from(plan.horizon));
    plan.horizon += 1;
}

/// A row, or a row and its copy, that runs only past the horizon.
fn after_the_end(rng: &mut Rng, plan: &mut Plan, i: usize) {
    let mut late = plan.rows[i].clone();
    late.first = plan.horizon + rng.within(0, 5);
    late.departures = rng.within(1, 4);
    for _ in 0..1 + rng.below(2) {
        plan.rows.push(late.clone());
    }
}

/// A copy of a row that begins in the row's last slot, or right after it.
fn touch(rng: &mut Rng, plan: &mut Plan, i: usize) {
    let mut next = plan.rows[i].clone();
    next.first += next.departures.saturating_sub(rng.within(0, 1));
    plan.rows.push(next);
}

/// A plan of random walks from the origin, places visited as they come.
pub fn walks(rng: &mut Rng, network: &Network) -> Plan {
    let count = if rng.one_in(30) { ROWS } else { 1 + rng.below(5) };
    let longest = *rng.pick(&[3, 6, ROW_LINKS]);
    // From slot 0 on, or so late that the horizon's limit is near.
    let start = if rng.one_in(4) { limits::HORIZON.1 - rng.within(8, 63_000) } else { 0 };
    let mut rows: Vec<Row> = Vec::new();
    for _ in 0..count {
        let links = walk(rng, network, longest);
        let tightest = links.iter().map(|e| network.links[*e as usize].capacity).min().unwrap().max(1);
        let rate = rng.within(1, tightest);
        let (first, departures) = if start > 0 && rng.one_in(3) {
            // Up to the slots in which the others begin.
            let first = rng.within(0, 6);
            (first, start + rng.within(0, 6) - first)
        } else {
            (start + rng.within(0, 6), rng.within(1, 4))
        };
        rows.push(Row::new(links, rate, first, departures));
    }
    let blocks: u64 = rows.iter().map(|r| u64::from(r.rate) * u64::from(r.departures)).sum();
    let end = rows.iter().map(|r| u64::from(r.first + r.departures) + length(network, r)).max().unwrap() as u32;
    let horizon = (end + rng.within(0, 2)).saturating_sub(u32::from(rng.one_in(3))).clamp(1, limits::HORIZON.1);
    let mut cut: Vec<u32> = (0..network.places).map(|_| rng.within(0, horizon - 1)).collect();
    cut[network.origin as usize] = 0;
    cut[network.destination as usize] = horizon - 1;
    if rng.one_in(2) {
        cut = residual::cut(network, u64::from(horizon) - 1);
    }
    if rng.one_in(6) {
        cut[rng.below(network.places as usize)] = rng.within(0, (horizon + 1).min(limits::CUT.1));
    }
    let amount = if rng.one_in(6) { blocks + 1 } else { blocks };
    let mut plan = Plan { amount: limited(amount), horizon, cut, rows }.measured(network);
    if rng.one_in(6) {
        let i = rng.below(plan.rows.len());
        mismeasure(rng, network, &mut plan, i);
    }
    plan
}

/// Links from the origin on, each starting where the one before ends; stops
/// at the archive, or goes on from there.
fn walk(rng: &mut Rng, network: &Network, longest: usize) -> Vec<u32> {
    let mut links = Vec::new();
    let mut place = network.origin;
    while links.len() < longest {
        let onward: Vec<u32> =
            (0..network.links.len()).filter(|e| network.links[*e].start == place).map(|e| e as u32).collect();
        if onward.is_empty() {
            break;
        }
        let e = *rng.pick(&onward);
        links.push(e);
        place = network.links[e as usize].end;
        if place == network.destination && !rng.one_in(5) {
            break;
        }
    }
    if links.is_empty() {
        links.push(rng.below(network.links.len()) as u32);
    }
    links
}
