//! "Examine a plan": the verdict, by a sweep over each link's events.

use super::network::{self, Network};
use super::plan::{self, Plan, Row};

/// Refused, or verdict and bound, from the two records.
pub fn examine(record: &[u8], plan: &[u8]) -> Result<(u32, u64), u32> {
    let network = network::read(record)?;
    let plan = plan::read(&network, plan)?;
    Ok((verdict(&network, &plan), bound(&network, &plan.cut)))
}

/// The sum of capacity times slack, negative slacks counted as 0.
pub fn bound(network: &Network, cut: &[u32]) -> u64 {
    let mut sum = 0i64;
    for link in &network.links {
        let at = |place: u32| i64::from(cut[place as usize]);
        let slack = at(link.end) - at(link.start) - i64::from(link.transit);
        sum += i64::from(link.capacity) * slack.max(0);
    }
    sum as u64
}

/// The first that applies of 1, 7 and 2 to 6, else 0.
pub fn verdict(network: &Network, plan: &Plan) -> u32 {
    let blocks: u64 = plan.rows.iter().map(|r| u64::from(r.rate) * u64::from(r.departures)).sum();
    if !plan.rows.iter().all(|r| is_chain(network, r)) {
        1
    } else if plan.rows.iter().any(|r| u64::from(r.length) != length(network, r)) {
        7
    } else if overloaded(network, &plan.rows) {
        2
    } else if plan
        .rows
        .iter()
        .any(|r| u64::from(r.first) + u64::from(r.departures) + length(network, r) > u64::from(plan.horizon))
    {
        3
    } else if blocks != u64::from(plan.amount) {
        4
    } else if !is_cut(network, plan.horizon - 1, &plan.cut) {
        5
    } else if bound(network, &plan.cut) >= u64::from(plan.amount) {
        6
    } else {
        0
    }
}

/// From origin to archive, each link starting where the one before it ends.
pub fn is_chain(network: &Network, row: &Row) -> bool {
    let mut at = network.origin;
    for number in &row.links {
        let link = network.links[*number as usize];
        if link.start != at {
            return false;
        }
        at = link.end;
    }
    !row.links.is_empty() && at == network.destination
}

/// The sum of a row's transits.
pub fn length(network: &Network, row: &Row) -> u64 {
    row.links.iter().map(|e| u64::from(network.links[*e as usize].transit)).sum()
}

/// 0 at the origin, the horizon at the archive, at most that everywhere.
pub fn is_cut(network: &Network, horizon: u32, cut: &[u32]) -> bool {
    cut[network.origin as usize] == 0
        && cut[network.destination as usize] == horizon
        && cut.iter().all(|n| *n <= horizon)
}

/// Whether some link takes in more than its capacity in some slot.
fn overloaded(network: &Network, rows: &[Row]) -> bool {
    // (slot, change of the load) for each link; sorted, an end comes before a
    // start in the same slot, since its change is negative.
    let mut events: Vec<Vec<(u64, i64)>> = vec![Vec::new(); network.links.len()];
    for row in rows {
        let mut slot = u64::from(row.first);
        for number in &row.links {
            let link = &mut events[*number as usize];
            link.push((slot, i64::from(row.rate)));
            link.push((slot + u64::from(row.departures), -i64::from(row.rate)));
            slot += u64::from(network.links[*number as usize].transit);
        }
    }
    events.iter_mut().zip(&network.links).any(|(events, link)| {
        events.sort_unstable();
        let mut load = 0;
        events.iter().any(|(_, change)| {
            load += change;
            load > i64::from(link.capacity)
        })
    })
}
