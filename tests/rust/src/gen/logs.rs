//! Link logs for a network: kept ones, spoilt ones, plans laid out, any.

use super::Rng;
use crate::oracle::limits;
use crate::oracle::network::Network;
use crate::oracle::plan::Plan;
use crate::oracle::replay::{Entry, Taken};
use std::collections::BTreeMap;

/// Where a log's counter starts: often shortly before it rolls over.
fn start(rng: &mut Rng) -> u32 {
    match rng.below(3) {
        0 => 0,
        1 => 0u32.wrapping_sub(rng.within(1, 40)),
        _ => rng.draw() as u32,
    }
}

/// The entries, with the counter at `start` in slot 0. The first entry counts
/// as slot 0, so a log whose first slot is another one is moved there.
pub fn stamped(rng: &mut Rng, taken: &[Taken]) -> Vec<Entry> {
    let start = start(rng);
    let entry = |t: &Taken| Entry { stamp: start.wrapping_add(t.slot as u32), link: t.link, blocks: t.blocks };
    taken.iter().map(entry).collect()
}

/// A log that keeps capacities and sends no more than is there.
pub fn kept(rng: &mut Rng, network: &Network, count: usize) -> Vec<Taken> {
    let mut taken: Vec<Taken> = Vec::new();
    let mut held = vec![0u64; network.places as usize];
    let mut arriving: BTreeMap<u64, Vec<(u32, u32)>> = BTreeMap::new();
    let mut slot = 0;
    let mut room: Vec<u32> = network.links.iter().map(|link| link.capacity).collect();
    for turn in 0..count {
        if turn > 0 && !rng.one_in(3) {
            slot += gap(rng);
            room = network.links.iter().map(|link| link.capacity).collect();
        }
        if slot > limits::LOG_SLOT {
            break;
        }
        while arriving.first_key_value().is_some_and(|(at, _)| *at <= slot) {
            let (_, blocks) = arriving.pop_first().expect("looked at");
            blocks.into_iter().for_each(|(place, n)| held[place as usize] += u64::from(n));
        }
        // Links out of places that hold something are the interesting ones.
        let mut e = rng.below(network.links.len());
        for _ in 0..4 {
            let start = network.links[e].start;
            if start != network.origin && held[start as usize] > 0 {
                break;
            }
            e = rng.below(network.links.len());
        }
        let link = network.links[e];
        let there = if link.start == network.origin { u64::MAX } else { held[link.start as usize] };
        let most = u64::from(room[e]).min(there) as u32;
        let blocks = match rng.below(4) {
            0 => most,
            1 => most.min(1),
            _ => rng.within(0, most),
        };
        room[e] -= blocks;
        if link.start != network.origin {
            held[link.start as usize] -= u64::from(blocks);
        }
        if link.transit == 0 {
            held[link.end as usize] += u64::from(blocks);
        } else {
            arriving.entry(slot + u64::from(link.transit)).or_default().push((link.end, blocks));
        }
        taken.push(Taken { link: e as u32, slot, blocks });
    }
    taken
}

/// Mostly a few slots, seldom a long silence.
fn gap(rng: &mut Rng) -> u64 {
    match rng.below(40) {
        0 => u64::from(rng.within(1_000, 1_000_000)),
        1..=4 => u64::from(rng.within(1, 1_200)),
        _ => u64::from(rng.within(1, 3)),
    }
}

/// A plan's rows as a log, up to and without slot `slots`; none if it gets too
/// long. Every slot's entries stand in any order, some of them in two parts.
pub fn laid_out(rng: &mut Rng, network: &Network, plan: &Plan, slots: u64) -> Option<Vec<Taken>> {
    let mut sums: BTreeMap<(u64, u64, u32), u32> = BTreeMap::new();
    // Something stands in slot 0 and in the last slot.
    for slot in [0, slots - 1] {
        sums.insert((slot, rng.draw(), rng.below(network.links.len()) as u32), 0);
    }
    for row in &plan.rows {
        let mut first = u64::from(row.first);
        for e in &row.links {
            for slot in (first..first + u64::from(row.departures)).filter(|slot| *slot < slots) {
                if sums.len() >= limits::LOG_ENTRIES {
                    return None;
                }
                let mut left = row.rate;
                if left > 1 && rng.one_in(4) {
                    let part = rng.within(1, left - 1);
                    sums.insert((slot, rng.draw(), *e), part);
                    left -= part;
                }
                sums.insert((slot, rng.draw(), *e), left);
            }
            first += u64::from(network.links[*e as usize].transit);
        }
    }
    let taken: Vec<Taken> = sums.into_iter().map(|((slot, _, link), blocks)| Taken { link, slot, blocks }).collect();
    (taken.len() <= limits::LOG_ENTRIES).then_some(taken)
}

pub const WAYS: usize = 9;

/// One change of a log's entries, not always to the worse.
pub fn spoil(rng: &mut Rng, network: &Network, log: &mut Vec<Entry>, way: usize) {
    if log.is_empty() {
        log.push(Entry { stamp: 0, link: 0, blocks: rng.within(0, 3) });
    }
    let at = rng.below(log.len());
    match way {
        0 => log[at].blocks = (log[at].blocks + rng.within(1, 5)).min(10_001),
        1 => {
            log.remove(at);
        }
        // A slot or some earlier, with all before it.
        2 => {
            let by = rng.within(1, 3);
            log[..at].iter_mut().for_each(|entry| entry.stamp = entry.stamp.wrapping_add(by));
        }
        3 => log[at].link = rng.below(network.links.len() + 1) as u32,
        4 => log.insert(at, log[at]),
        5 => {
            let other = rng.below(log.len());
            log.swap(at, other);
        }
        6 => {
            let by = *rng.pick(&[0x7fff_ffff, 0x8000_0000, 0x8000_0001, 100_063_000, 100_063_001, u32::MAX]);
            log[at..].iter_mut().for_each(|entry| entry.stamp = entry.stamp.wrapping_add(by));
        }
        7 => log[at].blocks = *rng.pick(&[0, 1, 9_999, 10_000, 10_001, 16_384]),
        _ => log[at].stamp = rng.draw() as u32,
    }
}
