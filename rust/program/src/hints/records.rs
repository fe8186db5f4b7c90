//! Reads records number by number and says at which one a fault stands.

use pudeyan::{limits, Network, Refusal};
use std::ops::RangeInclusive;

/// A number has at most as many octets.
const GROUPS_MOST: usize = 4;

/// The first fault of a record, and the position of its number.
#[derive(Debug, PartialEq)]
pub struct Fault {
    pub refusal: Refusal,
    pub at: usize,
    pub words: String,
}

/// Why no number can be read.
#[derive(Clone, Copy)]
pub enum Unread {
    Continues,
    Ends,
    NotShortest,
}

/// Numbers one after another, each with its position.
pub trait Numbers {
    /// The position of the next number.
    fn position(&self) -> usize;
    fn number(&mut self) -> Result<u32, Unread>;
    fn all_taken(&self) -> bool;
}

/// The numbers of a record, by the octet at which each starts.
pub struct Octets<'a> {
    octets: &'a [u8],
    at: usize,
}

impl<'a> Octets<'a> {
    pub fn new(octets: &'a [u8]) -> Octets<'a> {
        Octets { octets, at: 0 }
    }

    /// The next octets, as many as `count`, if there are so many.
    fn take(&mut self, count: usize) -> Option<&'a [u8]> {
        let taken = self.octets[self.at..].get(..count)?;
        self.at += count;
        Some(taken)
    }
}

impl Numbers for Octets<'_> {
    fn position(&self) -> usize {
        self.at
    }

    fn number(&mut self) -> Result<u32, Unread> {
        let rest = &self.octets[self.at..];
        let mut number = 0;
        for (group, &octet) in rest.iter().take(GROUPS_MOST).enumerate() {
            number |= u32::from(octet & 0x7F) << (7 * group);
            if octet & 0x80 == 0 {
                if octet == 0 && group > 0 {
                    return Err(Unread::NotShortest);
                }
                self.at += group + 1;
                return Ok(number);
            }
        }
        Err(if rest.len() < GROUPS_MOST { Unread::Ends } else { Unread::Continues })
    }

    fn all_taken(&self) -> bool {
        self.at == self.octets.len()
    }
}

/// Numbers that are at hand, by their place in the row.
impl Numbers for std::iter::Enumerate<std::vec::IntoIter<u32>> {
    fn position(&self) -> usize {
        self.clone().next().map_or(0, |(at, _)| at)
    }

    fn number(&mut self) -> Result<u32, Unread> {
        self.next().map(|(_, number)| number).ok_or(Unread::Ends)
    }

    fn all_taken(&self) -> bool {
        self.len() == 0
    }
}

/// The refusals of one kind of record.
struct Refusals {
    continues: Refusal,
    ends: Refusal,
    not_shortest: Refusal,
    limits: Refusal,
    remains: Refusal,
}

const NETWORK: Refusals = Refusals {
    continues: Refusal::NetworkContinues,
    ends: Refusal::NetworkEnds,
    not_shortest: Refusal::NetworkNotShortest,
    limits: Refusal::NetworkLimits,
    remains: Refusal::NetworkRemains,
};

const PLAN: Refusals = Refusals {
    continues: Refusal::PlanContinues,
    ends: Refusal::PlanEnds,
    not_shortest: Refusal::PlanNotShortest,
    limits: Refusal::PlanLimits,
    remains: Refusal::PlanRemains,
};

/// A record under way: its numbers, and how it is refused.
struct Walk<N> {
    numbers: N,
    refusals: Refusals,
}

impl<N: Numbers> Walk<N> {
    /// The next number, within its limits.
    fn next(&mut self, name: &str, limits: RangeInclusive<u32>) -> Result<u32, Fault> {
        let at = self.numbers.position();
        let number = self.numbers.number().map_err(|unread| {
            let (refusal, words) = match unread {
                Unread::Continues => (self.refusals.continues, "has too many octets"),
                Unread::Ends => (self.refusals.ends, "is cut short"),
                Unread::NotShortest => (self.refusals.not_shortest, "is not in shortest form"),
            };
            Fault { refusal, at, words: format!("{name} {words}") }
        })?;
        if limits.contains(&number) {
            return Ok(number);
        }
        let words = format!("{name} is {number}, not from {} to {}", limits.start(), limits.end());
        Err(Fault { refusal: self.refusals.limits, at, words })
    }

    /// The next number, which is not another one.
    fn other_than(&mut self, name: &str, last: u32, other: u32, refusal: Refusal) -> Result<(), Fault> {
        let at = self.numbers.position();
        let number = self.next(name, 0..=last)?;
        if number == other {
            return Err(Fault { refusal, at, words: format!("{name} is {number} too") });
        }
        Ok(())
    }

    fn end(&self) -> Result<(), Fault> {
        if self.numbers.all_taken() {
            return Ok(());
        }
        let words = "octets remain from here on".into();
        Err(Fault { refusal: self.refusals.remains, at: self.numbers.position(), words })
    }
}

/// Goes through a network's numbers up to the first fault.
pub fn network(numbers: impl Numbers) -> Result<(), Fault> {
    let mut walk = Walk { numbers, refusals: NETWORK };
    let last = walk.next("the number of places", limits::PLACES)? - 1;
    let origin = walk.next("the origin", 0..=last)?;
    walk.other_than("the destination", last, origin, Refusal::SameEnds)?;
    for e in 0..walk.next("the number of links", limits::LINKS)? {
        let start = walk.next(&format!("the start of link {e}"), 0..=last)?;
        walk.other_than(&format!("the end of link {e}"), last, start, Refusal::LinkLoop)?;
        walk.next(&format!("the capacity of link {e}"), limits::CAPACITY)?;
        walk.next(&format!("the transit of link {e}"), limits::TRANSIT)?;
    }
    walk.end()
}

/// The copy of the network's record: its length, and the record's own octets.
fn copy(walk: &mut Walk<Octets>, record: &[u8]) -> Result<(), Fault> {
    let length = walk.next("the length of the network's copy", 0..=limits::NETWORK_OCTETS as u32)? as usize;
    let at = walk.numbers.position();
    let Some(copy) = walk.numbers.take(length) else {
        return Err(Fault { refusal: Refusal::PlanEnds, at, words: "the network's copy is cut short".into() });
    };
    if copy == record {
        return Ok(());
    }
    let same = copy.iter().zip(record).take_while(|(octet, own)| octet == own).count();
    let words = match (copy.get(same), record.get(same)) {
        (Some(octet), Some(own)) => format!("the network's copy has {octet}, the network {own}"),
        _ => format!("the network's copy has {length} octets, the network {}", record.len()),
    };
    Err(Fault { refusal: Refusal::AnotherNetwork, at: at + same, words })
}

/// Goes through a plan's copy and numbers up to the first fault.
pub fn plan(octets: Octets, network: &Network) -> Result<(), Fault> {
    let mut walk = Walk { numbers: octets, refusals: PLAN };
    copy(&mut walk, network.record())?;
    let last_link = network.links().len() as u32 - 1;
    walk.next("the amount", limits::AMOUNT)?;
    walk.next("T", limits::HORIZON)?;
    for v in 0..network.places() {
        walk.next(&format!("the cut's number at place {v}"), limits::CUT)?;
    }
    for r in 0..walk.next("the number of rows", limits::ROWS)? {
        for i in 0..walk.next(&format!("the number of links of row {r}"), limits::ROW_LINKS)? {
            walk.next(&format!("link {i} of row {r}"), 0..=last_link)?;
        }
        walk.next(&format!("the length of row {r}"), limits::LENGTH)?;
        walk.next(&format!("the rate of row {r}"), limits::RATE)?;
        walk.next(&format!("the first slot of row {r}"), limits::FIRST)?;
        walk.next(&format!("the departures of row {r}"), limits::DEPARTURES)?;
    }
    walk.end()
}

#[cfg(test)]
mod tests {
    use super::*;
    use pudeyan::{examine, plan as planned, Link, Plan, Row};

    /// A network with numbers of one and two octets, and a plan with numbers of up to four.
    fn sample() -> (Network, Plan) {
        let link = |start, end, capacity, transit| Link { start, end, capacity, transit };
        let links = [link(0, 2, 300, 200), link(2, 1, 10_000, 1), link(0, 1, 0, 1_000), link(1, 0, 7, 127)];
        let network = Network::new(3, 0, 1, &links).unwrap();
        let plan = planned(&network, 100_000_000).unwrap();
        (network, plan)
    }

    /// Every front of a record, every octet with every value, in the place of
    /// each as many as a number has, all of which ask for another, and more
    /// octets behind it.
    fn damaged(record: &[u8]) -> Vec<Vec<u8>> {
        let fronts = (0..=record.len()).map(|end| record[..end].to_vec());
        let longer = [0x00, 0x80, 0x81].map(|octet| [record, &[octet; 4]].concat());
        let changed = (0..record.len()).flat_map(|at| {
            (0..=255).map(move |octet| {
                let mut changed = record.to_vec();
                changed[at] = octet;
                changed
            })
        });
        let asking = (0..record.len()).map(|at| [&record[..at], &[0x80; GROUPS_MOST], &record[at + 1..]].concat());
        fronts.chain(longer).chain(changed).chain(asking).collect()
    }

    #[test]
    fn networks_are_refused_as_by_the_library() {
        let (network, _) = sample();
        let mut refused = [0; 8];
        for record in damaged(network.record()) {
            let wanted = Network::decode(&record).err();
            let fault = network_fault(&record);
            assert_eq!(fault.as_ref().map(|fault| fault.refusal), wanted, "{record:x?}");
            refused[wanted.map_or(0, Refusal::number) as usize] += 1;
            assert!(fault.map_or(0, |fault| fault.at) <= record.len());
        }
        assert!(refused.iter().all(|&count| count > 0), "{refused:?}");
    }

    fn network_fault(record: &[u8]) -> Option<Fault> {
        network(Octets::new(record)).err()
    }

    #[test]
    fn plans_are_refused_as_by_the_library() {
        let (network, made) = sample();
        let row = Row { links: vec![3, 1, 0], length: 63_000, rate: 10_000, first: 20_000, departures: 100_063_000 };
        let long = Plan::new(&network, 100_000_000, 100_063_000, vec![100_063_000, 0, 200], vec![row.clone(), row]);
        let mut refused = [0; 24];
        for record in [made.record(), long.record()].into_iter().flat_map(damaged) {
            let wanted = examine(&network, &record).err();
            let fault = plan(Octets::new(&record), &network).err();
            assert_eq!(fault.map(|fault| fault.refusal), wanted, "{record:x?}");
            refused[wanted.map_or(0, Refusal::number) as usize] += 1;
        }
        assert!([0, 14, 15, 16, 17, 18, 23].iter().all(|&number| refused[number] > 0), "{refused:?}");
    }

    #[test]
    fn a_fault_stands_at_its_number() {
        let told = |record: &[u8]| network_fault(record).map(|fault| (fault.at, fault.words)).unwrap();
        assert_eq!(
            told(&[2, 0, 1, 1, 0, 1, 0x80, 0x7F]),
            (6, "the capacity of link 0 is 16256, not from 0 to 10000".into())
        );
        assert_eq!(told(&[2, 0, 1, 1, 0, 1, 0x80, 0x01, 0x80]), (8, "the transit of link 0 is cut short".into()));
        assert_eq!(told(&[2, 0, 1, 1, 0, 0]), (5, "the end of link 0 is 0 too".into()));
        assert_eq!(told(&[2, 0, 1, 1, 0, 1, 1, 1, 5]), (8, "octets remain from here on".into()));
        assert_eq!(told(&[]), (0, "the number of places is cut short".into()));
    }
}
