//! Plans: their numbers and their record.

use super::examine::length;
use super::limits;
use super::network::Network;
use super::numbers::{write_all, Reader};

#[derive(Clone, Debug, PartialEq, Eq)]
pub struct Row {
    pub links: Vec<u32>,
    /// As the plan writes it.
    pub length: u32,
    pub rate: u32,
    pub first: u32,
    pub departures: u32,
}

impl Row {
    /// A row whose length is not measured yet: 0.
    pub fn new(links: Vec<u32>, rate: u32, first: u32, departures: u32) -> Row {
        Row { links, length: 0, rate, first, departures }
    }

    /// Writes the sum of its transits as its length.
    pub fn measure(&mut self, network: &Network) {
        self.length = length(network, self) as u32;
    }
}

#[derive(Clone, Debug, PartialEq, Eq)]
pub struct Plan {
    pub amount: u32,
    pub horizon: u32,
    pub cut: Vec<u32>,
    pub rows: Vec<Row>,
}

impl Plan {
    /// With every row's length measured.
    pub fn measured(mut self, network: &Network) -> Plan {
        self.rows.iter_mut().for_each(|row| row.measure(network));
        self
    }

    /// The record's numbers from the amount on, in order.
    pub fn list(&self) -> Vec<u32> {
        let mut list = vec![self.amount, self.horizon];
        list.extend(&self.cut);
        list.push(self.rows.len() as u32);
        for row in &self.rows {
            list.push(row.links.len() as u32);
            list.extend(&row.links);
            list.extend([row.length, row.rate, row.first, row.departures]);
        }
        list
    }

    /// The record, which carries that of the network.
    pub fn record(&self, network: &Network) -> Vec<u8> {
        carrying(&network.record(), &write_all(&self.list()))
    }
}

/// A copy with its length before it, and the octets that follow it.
pub fn carrying(copy: &[u8], rest: &[u8]) -> Vec<u8> {
    [&write_all(&[copy.len() as u32]), copy, rest].concat()
}

/// Reads a plan's record for a network, with the refusals 14 to 18 and 23.
pub fn read(network: &Network, record: &[u8]) -> Result<Plan, u32> {
    let mut reader = Reader { rest: record, ends: 14, not_shortest: 15, continues: 16, limits: 17 };
    let length = reader.take(limits::COPY)?;
    let (copy, rest) = reader.rest.split_at_checked(length as usize).ok_or(14u32)?;
    if copy != network.record() {
        return Err(23);
    }
    reader.rest = rest;
    let amount = reader.take(limits::AMOUNT)?;
    let horizon = reader.take(limits::HORIZON)?;
    let mut cut = Vec::new();
    for _ in 0..network.places {
        cut.push(reader.take(limits::CUT)?);
    }
    let mut rows = Vec::new();
    for _ in 0..reader.take(limits::ROWS)? {
        let mut links = Vec::new();
        for _ in 0..reader.take(limits::ROW_LINKS)? {
            links.push(reader.take((0, network.links.len() as u32 - 1))?);
        }
        let length = reader.take(limits::LENGTH)?;
        let rate = reader.take(limits::RATE)?;
        let first = reader.take(limits::FIRST)?;
        let departures = reader.take(limits::DEPARTURES)?;
        rows.push(Row { links, length, rate, first, departures });
    }
    if reader.rest.is_empty() {
        Ok(Plan { amount, horizon, cut, rows })
    } else {
        Err(18)
    }
}
