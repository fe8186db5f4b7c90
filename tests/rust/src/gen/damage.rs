//! Damaged records: octets or numbers changed, not always to the worse.

use super::Rng;
use crate::oracle::limits::GROUPS;
use crate::oracle::network::{self, Network};
use crate::oracle::numbers;

/// Numbers at and around limits, and around the sizes of groups.
pub const EDGES: [u32; 49] = [
    0,
    1,
    2,
    3,
    62,
    63,
    64,
    65,
    127,
    128,
    129,
    255,
    256,
    257,
    258,
    999,
    1_000,
    1_001,
    9_999,
    10_000,
    10_001,
    16_383,
    16_384,
    65_535,
    65_536,
    999_999,
    1_000_000,
    1_000_001,
    1_062_999,
    1_063_000,
    1_063_001,
    2_097_150,
    2_097_151,
    2_097_152,
    2_097_153,
    4_194_304,
    99_999_999,
    100_000_000,
    100_000_001,
    100_062_999,
    100_063_000,
    100_063_001,
    268_435_455,
    268_435_456,
    268_435_457,
    0x7fff_ffff,
    0x8000_0000,
    0xffff_fffe,
    0xffff_ffff,
];

/// One change of the octets themselves.
pub fn octets(rng: &mut Rng, record: &[u8]) -> Vec<u8> {
    let mut octets = record.to_vec();
    let at = rng.below(octets.len().max(1));
    match rng.below(8) {
        0 => octets.truncate(at),
        1 => {
            let more = 1 + rng.below(4);
            octets.extend(rng.octets(more));
        }
        2 if !octets.is_empty() => octets[at] ^= 1 << rng.below(8),
        3 if !octets.is_empty() => octets[at] = rng.draw() as u8,
        4 if !octets.is_empty() => {
            octets.remove(at);
        }
        5 => octets.insert(at.min(octets.len()), rng.draw() as u8),
        6 if !octets.is_empty() => octets[at] |= 0x80,
        _ if !octets.is_empty() => {
            let last = octets.len() - 1;
            octets[last] ^= 1 << rng.below(8);
        }
        _ => octets.push(rng.draw() as u8),
    }
    octets
}

/// A record of the numbers, one of them changed or written in a wrong form.
pub fn numbers(rng: &mut Rng, list: &[u32]) -> Vec<u8> {
    let mut list = list.to_vec();
    let at = place(rng, list.len());
    match rng.below(8) {
        0 | 1 => list[at] = *rng.pick(&EDGES),
        2 => list[at] = list[at].wrapping_add(1),
        3 => list[at] = list[at].wrapping_sub(1),
        4 => {
            let other = place(rng, list.len());
            list[at] = list[other];
        }
        form => {
            let mut record = numbers::write_all(&list[..at]);
            match form {
                5 => record.extend(padded(rng, list[at])),
                6 => {
                    // As many octets as a number has at most, all of which ask for another; sometimes one fewer.
                    let asking = GROUPS - rng.below(3) / 2;
                    record.push(0x80 | list[at] as u8);
                    record.extend((1..asking).map(|_| 0x80 | rng.draw() as u8));
                    if rng.one_in(3) {
                        return record;
                    }
                }
                _ => {
                    numbers::write(list[at], &mut record);
                    record.pop();
                    return record;
                }
            }
            record.extend(numbers::write_all(&list[at + 1..]));
            return record;
        }
    }
    numbers::write_all(&list)
}

/// More groups than the shortest form has, if a number may have more.
pub fn padded(rng: &mut Rng, number: u32) -> Vec<u8> {
    let mut octets = numbers::write_all(&[number]);
    let groups = octets.len();
    let wanted = if groups >= GROUPS { groups } else { groups + 1 + rng.below(GROUPS - groups) };
    while octets.len() < wanted {
        *octets.last_mut().unwrap() |= 0x80;
        octets.push(0);
    }
    octets
}

/// An index: near the front, near the back, or anywhere.
fn place(rng: &mut Rng, count: usize) -> usize {
    match rng.below(3) {
        0 => rng.below(count.min(8)),
        1 => count - 1 - rng.below(count.min(8)),
        _ => rng.below(count),
    }
}

/// The record damaged both ways, as far as that leaves no network.
pub fn no_networks(rng: &mut Rng, network: &Network) -> Vec<Vec<u8>> {
    let mut records = vec![numbers(rng, &network.list()), octets(rng, &network.record())];
    records.retain(|record| network::read(record).is_err());
    records
}
