//! The listing: what is printed for a network's and a plan's record.

use super::examine::{bound, verdict};
use super::network::{self, Network};
use super::numbers::Reader;
use super::plan::{self, Plan};

/// As many octets of the input are read.
pub const INPUT: usize = 65_536;

/// What the listing program prints for its standard input.
pub fn listing(input: &[u8]) -> String {
    match records(input) {
        Ok((network, plan)) => text(verdict(&network, &plan), bound(&network, &plan.cut), &plan),
        Err(refusal) => format!("refused {refusal}\n"),
    }
}

/// The network and the plan of a standard input, or a refusal.
pub fn records(input: &[u8]) -> Result<(Network, Plan), u32> {
    let input = &input[..input.len().min(INPUT)];
    // Any length is within limits; it is the octets that may be too few.
    let mut reader = Reader { rest: input, ends: 1, not_shortest: 2, continues: 3, limits: 4 };
    let length = reader.take((0, u32::MAX))?;
    let (record, octets) = reader.rest.split_at_checked(length as usize).ok_or(1u32)?;
    let network = network::read(record)?;
    let plan = plan::read(&network, octets)?;
    Ok((network, plan))
}

fn text(verdict: u32, bound: u64, plan: &Plan) -> String {
    let spaced = |numbers: &[u32]| numbers.iter().map(|n| format!(" {n}")).collect::<String>();
    let mut lines = vec![format!("verdict {verdict}"), format!("amount {} horizon {}", plan.amount, plan.horizon)];
    for (i, row) in plan.rows.iter().enumerate() {
        let links = spaced(&row.links);
        lines.push(format!("row {i} links{links} rate {} first {} departures {}", row.rate, row.first, row.departures));
    }
    lines.push(format!("cut{} bound {bound}", spaced(&plan.cut)));
    lines.iter().map(|line| format!("{line}\n")).collect()
}
