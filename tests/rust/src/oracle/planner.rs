//! A planner of its own: the least horizon from the profile, rows from the
//! best static flow for it, the cut from the constraints for one slot less.

use super::network::Network;
use super::plan::{Plan, Row};
use super::residual::{augment, cut, Profile};
use std::collections::VecDeque;

/// A plan for the amount with the least horizon; none if there is no chain.
pub fn plan(network: &Network, amount: u32) -> Option<Plan> {
    let horizon = Profile::new(network).least(u64::from(amount))?;
    Some(Plan { amount, horizon: horizon as u32, cut: cut(network, horizon - 1), rows: rows(network, horizon, amount) })
}

/// Rows that bring just the amount by `horizon`, which must be long enough.
pub fn rows(network: &Network, horizon: u64, amount: u32) -> Vec<Row> {
    let (mut flow, _) = augment(network, horizon);
    let mut missing = amount;
    let mut rows = Vec::new();
    while missing > 0 {
        let links = carrying(network, &flow);
        let rate = links.iter().map(|e| flow[*e as usize]).min().expect("a chain has links");
        links.iter().for_each(|e| flow[*e as usize] -= rate);
        let length: u64 = links.iter().map(|e| u64::from(network.links[*e as usize].transit)).sum();
        let departures = (horizon.saturating_sub(length) as u32).min(missing / rate);
        if departures > 0 {
            rows.push(Row { links: links.clone(), length: length as u32, rate, first: 0, departures });
            missing -= rate * departures;
        }
        if missing > 0 && missing < rate && u64::from(departures) + length < horizon {
            rows.push(Row { links, length: length as u32, rate: missing, first: departures, departures: 1 });
            missing = 0;
        }
    }
    rows
}

/// A chain of links with flow that visits no place twice. A best static flow
/// may have circles of hops with transit 0, so following any link might go
/// round: the links by which places were reached first lead back instead.
fn carrying(network: &Network, flow: &[u32]) -> Vec<u32> {
    let mut by = vec![None; network.places as usize];
    let mut queue = VecDeque::from([network.origin]);
    while let Some(place) = queue.pop_front() {
        for (e, link) in network.links.iter().enumerate() {
            if flow[e] > 0 && link.start == place && link.end != network.origin && by[link.end as usize].is_none() {
                by[link.end as usize] = Some(e);
                queue.push_back(link.end);
            }
        }
    }
    let mut links = Vec::new();
    let mut place = network.destination;
    while place != network.origin {
        let e = by[place as usize].expect("the best flow brings the amount");
        links.push(e as u32);
        place = network.links[e].start;
    }
    links.reverse();
    links
}

/// Whether some chain of links with capacity leads from origin to archive.
pub fn chain_exists(network: &Network) -> bool {
    let mut reached = vec![false; network.places as usize];
    reached[network.origin as usize] = true;
    for _ in 0..network.places {
        for link in network.links.iter().filter(|l| l.capacity > 0) {
            if reached[link.start as usize] {
                reached[link.end as usize] = true;
            }
        }
    }
    reached[network.destination as usize]
}
