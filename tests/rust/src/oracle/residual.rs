//! The most by any horizon, and the least horizon, by successive shortest
//! paths with Bellman and Ford's method: no potentials and no stop rule.
//!
//! Each augmentation adds a chain of some length and rate; with horizon H it
//! brings (H - length) x rate blocks, and the most by H is the sum of those
//! that bring any (Ford and Fulkerson's temporally repeated flows).

use super::limits;
use super::network::Network;
use std::collections::VecDeque;

/// One augmentation: length of the shortest residual path, blocks a slot.
#[derive(Clone, Copy, Debug, PartialEq, Eq)]
pub struct Step {
    pub length: u64,
    pub rate: u64,
}

/// All augmentations up to the maximum static flow, lengths never falling.
#[derive(Clone, Debug)]
pub struct Profile {
    pub steps: Vec<Step>,
}

impl Profile {
    pub fn new(network: &Network) -> Profile {
        Profile { steps: augment(network, u64::MAX).1 }
    }

    pub fn most(&self, horizon: u64) -> u64 {
        self.steps.iter().map(|s| horizon.saturating_sub(s.length) * s.rate).sum()
    }

    /// By binary search; none if the archive can't be reached.
    pub fn least(&self, amount: u64) -> Option<u64> {
        let (mut below, mut enough) = (0, limits::HORIZON_TRIED);
        if self.most(enough) < amount {
            return None;
        }
        while enough - below > 1 {
            let middle = (below + enough) / 2;
            if self.most(middle) >= amount {
                enough = middle;
            } else {
                below = middle;
            }
        }
        Some(enough)
    }
}

/// A static flow that is best for `horizon`, made of the augmentations
/// shorter than it, with their list.
pub fn augment(network: &Network, horizon: u64) -> (Vec<u32>, Vec<Step>) {
    let mut flow = vec![0u32; network.links.len()];
    let mut steps = Vec::new();
    let at = index(network);
    while let Some((length, path)) = shortest(network, &flow, &at) {
        if length >= horizon {
            break;
        }
        let room = |(e, forward): &(usize, bool)| {
            if *forward {
                network.links[*e].capacity - flow[*e]
            } else {
                flow[*e]
            }
        };
        let rate = path.iter().map(room).min().expect("a path has links");
        for (e, forward) in path {
            if forward {
                flow[e] += rate;
            } else {
                flow[e] -= rate;
            }
        }
        steps.push(Step { length, rate: u64::from(rate) });
    }
    (flow, steps)
}

/// For each place the links that start or end there.
fn index(network: &Network) -> Vec<Vec<(usize, bool)>> {
    let mut at = vec![Vec::new(); network.places as usize];
    for (e, link) in network.links.iter().enumerate() {
        at[link.start as usize].push((e, true));
        at[link.end as usize].push((e, false));
    }
    at
}

/// A shortest residual path from origin to archive, with its length.
fn shortest(network: &Network, flow: &[u32], at: &[Vec<(usize, bool)>]) -> Option<(u64, Vec<(usize, bool)>)> {
    let places = network.places as usize;
    let mut distance = vec![i64::MAX; places];
    let mut parent = vec![None; places];
    let mut queued = vec![false; places];
    let mut queue = VecDeque::from([network.origin as usize]);
    distance[network.origin as usize] = 0;
    while let Some(u) = queue.pop_front() {
        queued[u] = false;
        for &(e, forward) in &at[u] {
            let link = network.links[e];
            let (usable, head, cost) = if forward {
                (flow[e] < link.capacity, link.end, i64::from(link.transit))
            } else {
                (flow[e] > 0, link.start, -i64::from(link.transit))
            };
            let head = head as usize;
            if usable && distance[u] + cost < distance[head] {
                distance[head] = distance[u] + cost;
                parent[head] = Some((e, forward));
                if !queued[head] {
                    queued[head] = true;
                    queue.push_back(head);
                }
            }
        }
    }
    let length = distance[network.destination as usize];
    if length == i64::MAX {
        return None;
    }
    let mut path = Vec::new();
    let mut place = network.destination;
    while place != network.origin {
        let (e, forward) = parent[place as usize].expect("a reached place has a parent");
        path.push((e, forward));
        place = if forward { network.links[e].start } else { network.links[e].end };
    }
    path.reverse();
    Some((length as u64, path))
}

/// A cut for `horizon` whose bound is the most by it: the solution of a
/// system of difference constraints that the best static flow makes solvable.
pub fn cut(network: &Network, horizon: u64) -> Vec<u32> {
    let (flow, _) = augment(network, horizon);
    let horizon = horizon as i64;
    let (origin, destination) = (network.origin as usize, network.destination as usize);
    // (a, b, c): the number at b is at most that at a, plus c.
    let mut constraints = vec![(destination, origin, -horizon)];
    for place in 0..network.places as usize {
        constraints.push((origin, place, horizon));
        constraints.push((place, origin, 0));
    }
    for (e, link) in network.links.iter().enumerate() {
        let (start, end, transit) = (link.start as usize, link.end as usize, i64::from(link.transit));
        if flow[e] < link.capacity {
            constraints.push((start, end, transit));
        }
        if flow[e] > 0 {
            constraints.push((end, start, -transit));
        }
    }
    let mut number = vec![i64::from(u32::MAX); network.places as usize];
    number[origin] = 0;
    for pass in 0.. {
        let mut changed = false;
        for &(a, b, c) in &constraints {
            if number[a] + c < number[b] {
                number[b] = number[a] + c;
                changed = true;
            }
        }
        if !changed {
            break;
        }
        assert!(pass <= network.places, "the constraints of a best flow can be met");
    }
    number.into_iter().map(|n| n as u32).collect()
}
