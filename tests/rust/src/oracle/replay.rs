//! Replay of a link log, written from document 02: sums in maps, and for each
//! place its arrivals and departures in the order of their slots.

use super::limits;
use super::network::{self, Network};
use super::numbers::{write, Reader};
use std::collections::BTreeMap;

/// An entry as it is written.
#[derive(Clone, Copy, Debug, PartialEq, Eq)]
pub struct Entry {
    pub stamp: u32,
    pub link: u32,
    pub blocks: u32,
}

/// An entry with its slot.
#[derive(Clone, Copy, Debug)]
pub struct Taken {
    pub link: u32,
    pub slot: u64,
    pub blocks: u32,
}

pub fn record(entries: &[Entry]) -> Vec<u8> {
    let mut octets = Vec::new();
    for entry in entries {
        octets.extend(entry.stamp.to_le_bytes());
        write(entry.link, &mut octets);
        write(entry.blocks, &mut octets);
    }
    octets
}

/// "Turned away: .. entry by entry: 20 .. 21 .. 22".
pub fn read(network: &Network, log: &[u8]) -> Result<Vec<Taken>, u32> {
    let mut reader = Reader { rest: log, ends: 20, not_shortest: 20, continues: 20, limits: 20 };
    let mut taken: Vec<Taken> = Vec::new();
    let mut last_stamp = 0;
    while !reader.rest.is_empty() {
        if taken.len() == limits::LOG_ENTRIES {
            return Err(20);
        }
        let (front, rest) = reader.rest.split_at_checked(4).ok_or(20u32)?;
        let stamp = front.iter().rev().fold(0u64, |n, octet| 256 * n + u64::from(*octet));
        reader.rest = rest;
        let link = reader.take((0, network.links.len() as u32 - 1))?;
        let blocks = reader.take(limits::LOG_BLOCKS)?;
        let slot = match taken.last() {
            None => 0,
            Some(before) => {
                let distance = if stamp >= last_stamp { stamp - last_stamp } else { (1 << 32) - last_stamp + stamp };
                if distance >= 1 << 31 {
                    return Err(21);
                }
                before.slot + distance
            }
        };
        if slot > limits::LOG_SLOT {
            return Err(22);
        }
        last_stamp = stamp;
        taken.push(Taken { link, slot, blocks });
    }
    Ok(taken)
}

/// The finding and the figure, or a refusal.
pub fn replay(record: &[u8], log: &[u8]) -> Result<(u32, u64), u32> {
    let network = network::read(record)?;
    let taken = read(&network, log)?;
    Ok(found(&network, &taken))
}

pub fn found(network: &Network, taken: &[Taken]) -> (u32, u64) {
    if over_capacity(network, taken) {
        return (1, 0);
    }
    if (0..network.places).any(|place| place != network.origin && sends_too_much(network, taken, place)) {
        return (2, 0);
    }
    let last = taken.last().map_or(0, |entry| entry.slot);
    let (arrived, left) = counts(network, taken, network.destination, last);
    (0, arrived - left)
}

fn over_capacity(network: &Network, taken: &[Taken]) -> bool {
    let mut sums: BTreeMap<(u32, u64), u64> = BTreeMap::new();
    for entry in taken {
        *sums.entry((entry.link, entry.slot)).or_default() += u64::from(entry.blocks);
    }
    sums.into_iter().any(|((link, _), sum)| sum > u64::from(network.links[link as usize].capacity))
}

/// Blocks that arrived at the place and that left it, up to and with the slot.
fn counts(network: &Network, taken: &[Taken], place: u32, slot: u64) -> (u64, u64) {
    let (mut arrived, mut left) = (0, 0);
    for entry in taken {
        let link = network.links[entry.link as usize];
        if link.end == place && entry.slot + u64::from(link.transit) <= slot {
            arrived += u64::from(entry.blocks);
        }
        if link.start == place && entry.slot <= slot {
            left += u64::from(entry.blocks);
        }
    }
    (arrived, left)
}

/// By events: in each slot in which something arrives or leaves, both are
/// counted before the two are compared.
fn sends_too_much(network: &Network, taken: &[Taken], place: u32) -> bool {
    let mut events: BTreeMap<u64, i64> = BTreeMap::new();
    for entry in taken {
        let link = network.links[entry.link as usize];
        if link.end == place {
            *events.entry(entry.slot + u64::from(link.transit)).or_default() += i64::from(entry.blocks);
        }
        if link.start == place {
            *events.entry(entry.slot).or_default() -= i64::from(entry.blocks);
        }
    }
    let mut held = 0;
    events.into_values().any(|by| {
        held += by;
        held < 0
    })
}

/// The same by the definition, slot after slot: for small logs.
pub fn found_slot_by_slot(network: &Network, taken: &[Taken]) -> (u32, u64) {
    let last = taken.last().map_or(0, |entry| entry.slot);
    for slot in 0..=last {
        for (e, link) in network.links.iter().enumerate() {
            let here = taken.iter().filter(|entry| entry.link as usize == e && entry.slot == slot);
            if here.map(|entry| entry.blocks).sum::<u32>() > link.capacity {
                return (1, 0);
            }
        }
    }
    for slot in 0..=last {
        for place in (0..network.places).filter(|place| *place != network.origin) {
            let (arrived, left) = counts(network, taken, place, slot);
            if left > arrived {
                return (2, 0);
            }
        }
    }
    let (arrived, left) = counts(network, taken, network.destination, last);
    (0, arrived - left)
}
