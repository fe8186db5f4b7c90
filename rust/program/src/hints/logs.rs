//! Reads a link log entry by entry, says at which octet a fault stands, and
//! finds the link or place, and the slot, for which a log has its finding.

use super::records::{Fault, Numbers, Octets};
use super::Hint;
use pudeyan::{limits, Finding, Network, Refusal};
use std::collections::BTreeMap;
use std::ops::RangeInclusive;

/// Distances from here on are refused.
const FAR: u32 = 1 << 31;

/// What a link took in a slot, by one entry.
pub struct Taken {
    link: usize,
    slot: u32,
    blocks: u64,
}

/// The entries of a log, or its first fault.
pub fn read(record: &[u8], network: &Network) -> Result<Vec<Taken>, Fault> {
    let mut entries: Vec<Taken> = Vec::new();
    let (mut at, mut slot, mut before) = (0, 0, None);
    while at < record.len() {
        let n = entries.len();
        let fault = |refusal, at, words| Fault { refusal, at, words };
        if n == *limits::LOG_ENTRIES.end() as usize {
            return Err(fault(Refusal::LogEntry, at, format!("entry {n} is one too many")));
        }
        let Some(stamp) = record[at..].first_chunk().map(|octets| u32::from_le_bytes(*octets)) else {
            return Err(fault(Refusal::LogEntry, at, format!("the stamp of entry {n} is cut short")));
        };
        let entry = at;
        at += 4;
        let link = number(record, &mut at, &format!("the link of entry {n}"), 0..=network.links().len() as u32 - 1)?;
        let blocks = number(record, &mut at, &format!("the block count of entry {n}"), limits::LOG_BLOCKS)?;
        let distance = before.map_or(0, |before| stamp.wrapping_sub(before));
        if distance >= FAR {
            return Err(fault(Refusal::LogDistance, entry, format!("entry {n} is {distance} from the one before it")));
        }
        slot += distance;
        if slot > *limits::LOG_SLOT.end() {
            return Err(fault(Refusal::LogSlot, entry, format!("entry {n} is in slot {slot}")));
        }
        before = Some(stamp);
        entries.push(Taken { link: link as usize, slot, blocks: blocks.into() });
    }
    Ok(entries)
}

/// The number at a position, within its limits, and the position after it.
fn number(record: &[u8], at: &mut usize, name: &str, limits: RangeInclusive<u32>) -> Result<u32, Fault> {
    let mut octets = Octets::new(&record[*at..]);
    let fault = |words| Fault { refusal: Refusal::LogEntry, at: *at, words };
    let number = octets.number().map_err(|_| fault(format!("{name} is cut short or misspelled")))?;
    if !limits.contains(&number) {
        return Err(fault(format!("{name} is {number}, not from {} to {}", limits.start(), limits.end())));
    }
    *at += octets.position();
    Ok(number)
}

/// The earliest slot of the fault, and the first link or place of it there.
pub fn find(network: &Network, entries: &[Taken], finding: Finding) -> Option<Hint> {
    match finding {
        Finding::Overfull => overfull(network, entries),
        Finding::Oversent => oversent(network, entries),
        _ => None,
    }
}

fn overfull(network: &Network, entries: &[Taken]) -> Option<Hint> {
    let mut taken: BTreeMap<(u32, usize), u64> = BTreeMap::new();
    entries.iter().for_each(|entry| *taken.entry((entry.slot, entry.link)).or_default() += entry.blocks);
    let over = taken.into_iter().find(|&((_, e), blocks)| blocks > network.links()[e].capacity.into());
    over.map(|((slot, e), blocks)| {
        let words = format!("link {e} took {blocks} blocks in slot {slot}");
        Hint::new(vec![("link", e as u64), ("slot", slot.into())], words)
    })
}

fn oversent(network: &Network, entries: &[Taken]) -> Option<Hint> {
    // What each place has more, or less, from a slot on.
    let mut changes: BTreeMap<u32, BTreeMap<u32, i64>> = BTreeMap::new();
    for entry in entries {
        let link = network.links()[entry.link];
        let mut change = |slot: u32, place, by| *changes.entry(slot).or_default().entry(place).or_default() += by;
        change(entry.slot, link.start, -(entry.blocks as i64));
        change(entry.slot + link.transit, link.end, entry.blocks as i64);
    }
    let mut held = vec![0i64; network.places()];
    for (slot, places) in changes {
        for (place, by) in places {
            held[place as usize] += by;
            if held[place as usize] < 0 && place != network.origin() {
                let words = format!("up to slot {slot} place {place} sent {} blocks too many", -held[place as usize]);
                return Some(Hint::new(vec![("place", place.into()), ("slot", slot.into())], words));
            }
        }
    }
    None
}
