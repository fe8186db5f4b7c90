//! Networks: their numbers and their record.

use super::limits;
use super::numbers::{write_all, Reader};
use pudeyan::limits::NUMBERS;

#[derive(Clone, Copy, Debug, PartialEq, Eq)]
pub struct Link {
    pub start: u32,
    pub end: u32,
    pub capacity: u32,
    pub transit: u32,
}

#[derive(Clone, Debug, PartialEq, Eq)]
pub struct Network {
    pub places: u32,
    pub origin: u32,
    pub destination: u32,
    pub links: Vec<Link>,
}

impl Network {
    /// The record's numbers, in order.
    pub fn list(&self) -> Vec<u32> {
        let mut list = vec![self.places, self.origin, self.destination, self.links.len() as u32];
        for link in &self.links {
            list.extend([link.start, link.end, link.capacity, link.transit]);
        }
        list
    }

    /// The numbers as the C interface has them: 0 after the last link.
    pub fn numbers(&self) -> [u32; NUMBERS] {
        let list = self.list();
        let mut numbers = [0; NUMBERS];
        numbers[..list.len()].copy_from_slice(&list);
        numbers
    }

    pub fn record(&self) -> Vec<u8> {
        write_all(&self.list())
    }
}

/// "Read a network", with its refusals 1 to 7.
pub fn read(record: &[u8]) -> Result<Network, u32> {
    let mut reader = Reader { rest: record, ends: 1, not_shortest: 2, continues: 3, limits: 4 };
    let network = take(&mut |range| reader.take(range))?;
    if reader.rest.is_empty() {
        Ok(network)
    } else {
        Err(7)
    }
}

/// "Write a network": the record, or 4, 5, 6. (8 is up to the caller, who
/// knows the buffer.)
pub fn write(numbers: &[u32; NUMBERS]) -> Result<Vec<u8>, u32> {
    let mut rest = numbers.iter();
    let network = take(&mut |(low, high)| {
        let number = *rest.next().expect("256 links fill the numbers");
        if number < low || number > high {
            Err(4)
        } else {
            Ok(number)
        }
    })?;
    Ok(network.record())
}

/// Numbers in record order, each within its limits, 5 and 6 where they arise.
fn take(next: &mut dyn FnMut((u32, u32)) -> Result<u32, u32>) -> Result<Network, u32> {
    let places = next(limits::PLACES)?;
    let below = (0, places - 1);
    let origin = next(below)?;
    let destination = next(below)?;
    if destination == origin {
        return Err(5);
    }
    let count = next(limits::LINKS)?;
    let mut links = Vec::new();
    for _ in 0..count {
        let start = next(below)?;
        let end = next(below)?;
        if end == start {
            return Err(6);
        }
        let capacity = next(limits::CAPACITY)?;
        let transit = next(limits::TRANSIT)?;
        links.push(Link { start, end, capacity, transit });
    }
    Ok(Network { places, origin, destination, links })
}
