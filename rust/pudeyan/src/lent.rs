//! The six operations with no memory allocated: what the caller lends is
//! written from its first element, and after a refusal all of it is as it was.

use crate::{limits, Examined, Finding, Refusal, Replayed, Verdict};
use pudeyan_sys::lent;

/// What planning answers beside the record.
#[derive(Clone, Copy, Debug, PartialEq, Eq)]
pub struct Planned {
    /// The least horizon, in slots.
    pub horizon: u64,
    /// How many octets of the buffer are the plan's record.
    pub length: usize,
}

/// The numbers of a network's record, 0 after the last link. Refuses with 1
/// to 7.
pub fn read_network(record: &[u8]) -> Result<[u32; limits::NUMBERS], Refusal> {
    let mut numbers = [0; limits::NUMBERS];
    Refusal::check(lent::read_network(record, &mut numbers))?;
    Ok(numbers)
}

/// Writes a network's record and answers its length. Numbers past the last
/// link are not looked at. Refuses with 4, 5, 6 in record order, then 8.
pub fn write_network(numbers: &[u32; limits::NUMBERS], buffer: &mut [u8]) -> Result<usize, Refusal> {
    let mut length = 0;
    Refusal::check(lent::write_network(numbers, buffer, &mut length))?;
    Ok(within(length, buffer))
}

/// The most blocks by a horizon, with a cut that proves it in the first
/// numbers of `cut`, one per place. Refuses with 1 to 7, then 9, then 10.
pub fn most(network: &[u8], horizon: u64, cut: &mut [u32]) -> Result<u64, Refusal> {
    let mut most = 0;
    Refusal::check(lent::most(network, horizon, cut, &mut most))?;
    Ok(most)
}

/// Writes a plan with the least horizon for an amount. The buffer has
/// [`limits::PLAN_BUFFER`] octets or more. Refuses with 1 to 7, 11, 13, 12.
pub fn plan(network: &[u8], amount: u64, buffer: &mut [u8]) -> Result<Planned, Refusal> {
    let (mut horizon, mut length) = (0, 0);
    Refusal::check(lent::plan(network, amount, buffer, &mut horizon, &mut length))?;
    Ok(Planned { horizon, length: within(length, buffer) })
}

/// Examines a plan for a network. Refuses with 1 to 7 for the network, then
/// with 14 to 18 and 23 for the plan.
pub fn examine(network: &[u8], plan: &[u8]) -> Result<Examined, Refusal> {
    let (mut verdict, mut bound) = (0, 0);
    Refusal::check(lent::examine(network, plan, &mut verdict, &mut bound))?;
    let verdict = Verdict::from_number(verdict).expect("library and package are of one version");
    Ok(Examined { verdict, bound })
}

/// Replays a link log. Refuses with 1 to 7 for the network, then entry by entry
/// with 20, 21, 22.
pub fn replay(network: &[u8], log: &[u8]) -> Result<Replayed, Refusal> {
    let (mut finding, mut delivered) = (0, 0);
    Refusal::check(lent::replay(network, log, &mut finding, &mut delivered))?;
    let finding = Finding::from_number(finding).expect("library and package are of one version");
    Ok(Replayed { finding, delivered })
}

/// A record's length as a count of the buffer's octets.
fn within(length: u64, buffer: &[u8]) -> usize {
    usize::try_from(length).ok().filter(|&n| n <= buffer.len()).expect("a record lies in its buffer")
}
