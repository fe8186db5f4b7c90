use crate::{examine, numbers, Network, Refusal};
use std::ops::Range;

/// A row of a plan: a chain of links that is sent over with a steady rate.
#[derive(Clone, Debug, PartialEq, Eq, Hash)]
pub struct Row {
    /// The numbers of its links, from origin to archive.
    pub links: Vec<u32>,
    /// Its length, as the plan writes it. In a right plan it is the sum of
    /// the links' transits: [`Network::length`](crate::Network::length).
    pub length: u32,
    /// How many blocks enter its first link in each of its slots.
    pub rate: u32,
    /// The first of these slots.
    pub first: u32,
    /// How many slots there are.
    pub departures: u32,
}

impl Row {
    /// How many blocks it brings: rate × departures.
    pub fn blocks(&self) -> u64 {
        u64::from(self.rate) * u64::from(self.departures)
    }
}

/// A plan: an amount, the horizon T by which its rows deliver it, and a cut
/// that proves that no shorter horizon will do. It holds its record, which
/// carries the record of its network.
///
/// What [`plan`](crate::plan()) answers is right. A plan that comes from
/// elsewhere may be wrong in any way: [`examine`] says.
///
/// ```
/// use pudeyan::{examine, Link, Network, Plan, Refusal, Row, Verdict};
/// let network = Network::new(2, 0, 1, &[Link { start: 0, end: 1, capacity: 3, transit: 2 }])?;
/// let plan = pudeyan::plan(&network, 7)?;
/// assert_eq!((plan.amount(), plan.horizon(), plan.cut()), (7, 5, &[0, 4][..]));
/// assert_eq!(Plan::decode(&network, plan.record())?, plan);
///
/// // One's own: rate 3 twice, and 1 in slot 2.
/// let mut rows = vec![
///     Row { links: vec![0], length: 2, rate: 3, first: 0, departures: 2 },
///     Row { links: vec![0], length: 2, rate: 1, first: 2, departures: 1 },
/// ];
/// let own = Plan::new(&network, 7, 5, vec![0, 4], rows.clone());
/// assert_eq!(examine(&network, &own)?.verdict, Verdict::Right);
/// rows[1].first = 1;
/// let own = Plan::new(&network, 7, 5, vec![0, 4], rows);
/// assert_eq!(examine(&network, &own)?.verdict, Verdict::Overloaded);
///
/// // For another network it is refused, whatever its numbers are.
/// let other = Network::new(2, 0, 1, &[Link { start: 0, end: 1, capacity: 4, transit: 2 }])?;
/// assert_eq!(examine(&other, &own), Err(Refusal::AnotherNetwork));
/// # Ok::<(), Refusal>(())
/// ```
#[derive(Clone, Debug, PartialEq, Eq, Hash)]
pub struct Plan {
    amount: u32,
    horizon: u32,
    cut: Vec<u32>,
    rows: Vec<Row>,
    record: Vec<u8>,
    /// Where the network's copy stands in the record.
    copy: Range<usize>,
}

impl Plan {
    /// A plan for a network by its numbers, as they are: nothing is looked at
    /// here, and [`examine`] refuses what is outside the limits.
    pub fn new(network: impl AsRef<[u8]>, amount: u32, horizon: u32, cut: Vec<u32>, rows: Vec<Row>) -> Plan {
        let network = network.as_ref();
        let mut record = Vec::new();
        numbers::put(&mut record, count(network.len()));
        let copy = record.len()..record.len() + network.len();
        record.extend(network);
        encode(&mut record, amount, horizon, &cut, &rows);
        Plan { amount, horizon, cut, rows, record, copy }
    }

    /// A plan by its record, for the network that it carries. Refuses with 1 to
    /// 7 for the network and with 14 to 18 and 23 for the plan; the plan may
    /// have any verdict.
    pub fn decode(network: impl AsRef<[u8]>, record: &[u8]) -> Result<Plan, Refusal> {
        let network = network.as_ref();
        examine(network, record)?;
        let places = Network::decode(network)?.places();
        Ok(decode(places, record).expect("a record that was examined has its numbers"))
    }

    /// How many blocks are to be delivered.
    pub fn amount(&self) -> u32 {
        self.amount
    }

    /// The horizon T, in slots.
    pub fn horizon(&self) -> u32 {
        self.horizon
    }

    /// The cut for T - 1, one number per place.
    pub fn cut(&self) -> &[u32] {
        &self.cut
    }

    /// The rows, in record order.
    pub fn rows(&self) -> &[Row] {
        &self.rows
    }

    /// The record of the network that it is for, as it carries it.
    pub fn network(&self) -> &[u8] {
        &self.record[self.copy.clone()]
    }

    /// The plan's record.
    pub fn record(&self) -> &[u8] {
        &self.record
    }
}

impl AsRef<[u8]> for Plan {
    fn as_ref(&self) -> &[u8] {
        &self.record
    }
}

/// Writes what follows the network's copy.
fn encode(record: &mut Vec<u8>, amount: u32, horizon: u32, cut: &[u32], rows: &[Row]) {
    let mut put = |number| numbers::put(record, number);
    put(amount);
    put(horizon);
    cut.iter().copied().for_each(&mut put);
    put(count(rows.len()));
    for row in rows {
        put(count(row.links.len()));
        row.links.iter().copied().for_each(&mut put);
        [row.length, row.rate, row.first, row.departures].into_iter().for_each(&mut put);
    }
}

/// A length as a number. One that does not fit is outside the limits anyway.
fn count(length: usize) -> u32 {
    u32::try_from(length).unwrap_or(u32::MAX)
}

/// The plan of a record that was examined.
pub(crate) fn decode(places: usize, record: &[u8]) -> Option<Plan> {
    let mut rest = record;
    let length = numbers::take(&mut rest)? as usize;
    let start = record.len() - rest.len();
    rest = rest.get(length..)?;
    let amount = numbers::take(&mut rest)?;
    let horizon = numbers::take(&mut rest)?;
    let cut = many(&mut rest, places)?;
    let count = numbers::take(&mut rest)?;
    let rows = (0..count).map(|_| row(&mut rest)).collect::<Option<_>>()?;
    Some(Plan { amount, horizon, cut, rows, record: record.to_vec(), copy: start..start + length })
}

fn row(rest: &mut &[u8]) -> Option<Row> {
    let count = numbers::take(rest)?;
    let links = many(rest, count as usize)?;
    let mut next = || numbers::take(rest);
    let [length, rate, first, departures] = [next()?, next()?, next()?, next()?];
    Some(Row { links, length, rate, first, departures })
}

fn many(rest: &mut &[u8], count: usize) -> Option<Vec<u32>> {
    (0..count).map(|_| numbers::take(rest)).collect()
}
