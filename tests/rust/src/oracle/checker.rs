//! Plans checked slot by slot against the definition of a flow over time,
//! with no use of the verdicts.

use super::network::Network;
use super::plan::{Plan, Row};

/// What a plan's rows put into each link in each slot, as far as any of them
/// goes and past the horizon. For short horizons.
fn entries(network: &Network, plan: &Plan) -> Vec<Vec<u64>> {
    let transit = |e: &u32| network.links[*e as usize].transit as usize;
    let latest = |r: &Row| r.first as usize + r.departures as usize + r.links.iter().map(transit).sum::<usize>();
    let slots = plan.rows.iter().map(latest).max().unwrap_or(0).max(plan.horizon as usize) + 1;
    let mut entering = vec![vec![0u64; slots]; network.links.len()];
    for row in &plan.rows {
        for block in 0..row.departures {
            let mut slot = (row.first + block) as usize;
            for e in &row.links {
                entering[*e as usize][slot] += u64::from(row.rate);
                slot += transit(e);
            }
        }
    }
    entering
}

/// What a plan's rows deliver, if what they put into the links is a flow with
/// the plan's horizon; else which condition fails. For short horizons.
pub fn simulate(network: &Network, plan: &Plan) -> Result<i64, String> {
    let horizon = plan.horizon as usize;
    let entering = entries(network, plan);
    for (e, link) in network.links.iter().enumerate() {
        for (slot, blocks) in entering[e].iter().enumerate() {
            if *blocks > u64::from(link.capacity) {
                return Err(format!("link {e} takes in {blocks} blocks in slot {slot}"));
            }
            if *blocks > 0 && slot + link.transit as usize > horizon - 1 {
                return Err(format!("link {e} takes in blocks in slot {slot}, too late"));
            }
        }
    }
    // Arrived less left, up to the slot at hand.
    let mut held = vec![0i64; network.places as usize];
    for slot in 0..horizon {
        for (e, link) in network.links.iter().enumerate() {
            held[link.start as usize] -= entering[e][slot] as i64;
            if slot >= link.transit as usize {
                held[link.end as usize] += entering[e][slot - link.transit as usize] as i64;
            }
        }
        for place in 0..network.places {
            if place != network.origin && held[place as usize] < 0 {
                return Err(format!("more has left place {place} than arrived by slot {slot}"));
            }
        }
    }
    Ok(held[network.destination as usize])
}

/// Whether in each slot of a plan's horizon as many blocks leave each middle
/// place as arrive at it. For short horizons.
pub fn holds_nothing(network: &Network, plan: &Plan) -> bool {
    let entering = entries(network, plan);
    (0..plan.horizon as usize).all(|slot| {
        let mut gained = vec![0i64; network.places as usize];
        for (e, link) in network.links.iter().enumerate() {
            gained[link.start as usize] -= entering[e][slot] as i64;
            if slot >= link.transit as usize {
                gained[link.end as usize] += entering[e][slot - link.transit as usize] as i64;
            }
        }
        gained[network.origin as usize] = 0;
        gained[network.destination as usize] = 0;
        gained.iter().all(|blocks| *blocks == 0)
    })
}

/// Whether a row visits no place twice, origin and archive counted.
pub fn is_simple(network: &Network, row: &Row) -> bool {
    let mut visited = vec![false; network.places as usize];
    visited[network.origin as usize] = true;
    row.links.iter().all(|e| {
        let end = network.links[*e as usize].end as usize;
        !std::mem::replace(&mut visited[end], true)
    })
}
