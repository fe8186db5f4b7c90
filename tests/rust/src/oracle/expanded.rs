//! The most by a small horizon as an ordinary maximum flow in the
//! time-expanded network (Dinic's method): a node for each place and slot.

use super::network::Network;
use std::collections::VecDeque;

struct Arc {
    head: usize,
    room: u64,
}

#[derive(Default)]
struct Graph {
    arcs: Vec<Arc>,
    at: Vec<Vec<usize>>,
}

impl Graph {
    /// Arc 2k and its reverse 2k + 1.
    fn join(&mut self, tail: usize, head: usize, room: u64) {
        for (tail, head, room) in [(tail, head, room), (head, tail, 0)] {
            self.at[tail].push(self.arcs.len());
            self.arcs.push(Arc { head, room });
        }
    }

    fn levels(&self, source: usize) -> Vec<usize> {
        let mut level = vec![usize::MAX; self.at.len()];
        level[source] = 0;
        let mut queue = VecDeque::from([source]);
        while let Some(u) = queue.pop_front() {
            for a in &self.at[u] {
                let arc = &self.arcs[*a];
                if arc.room > 0 && level[arc.head] == usize::MAX {
                    level[arc.head] = level[u] + 1;
                    queue.push_back(arc.head);
                }
            }
        }
        level
    }

    fn push(&mut self, u: usize, sink: usize, limit: u64, level: &[usize], next: &mut [usize]) -> u64 {
        if u == sink {
            return limit;
        }
        while next[u] < self.at[u].len() {
            let a = self.at[u][next[u]];
            let (head, room) = (self.arcs[a].head, self.arcs[a].room);
            if room > 0 && level[head] == level[u] + 1 {
                let pushed = self.push(head, sink, limit.min(room), level, next);
                if pushed > 0 {
                    self.arcs[a].room -= pushed;
                    self.arcs[a ^ 1].room += pushed;
                    return pushed;
                }
            }
            next[u] += 1;
        }
        0
    }

    fn maximum(&mut self, source: usize, sink: usize) -> u64 {
        let mut total = 0;
        loop {
            let level = self.levels(source);
            if level[sink] == usize::MAX {
                return total;
            }
            let mut next = vec![0; self.at.len()];
            loop {
                let pushed = self.push(source, sink, u64::MAX, &level, &mut next);
                if pushed == 0 {
                    break;
                }
                total += pushed;
            }
        }
    }
}

/// The most by `horizon`.
pub fn most(network: &Network, horizon: u64) -> u64 {
    maximum(network, horizon, |_| true)
}

/// The most by `horizon` where a block leaves a middle place in the slot in
/// which it arrives: only the archive has arcs from slot to slot.
pub fn most_unheld(network: &Network, horizon: u64) -> u64 {
    maximum(network, horizon, |place| place == network.destination)
}

/// The origin is one node, since no balance binds it; of the other places
/// those that hold may do so from slot to slot.
fn maximum(network: &Network, horizon: u64, holds: impl Fn(u32) -> bool) -> u64 {
    if horizon == 0 {
        return 0;
    }
    let slots = horizon as usize;
    let places = network.places as usize;
    let node = |place: u32, slot: usize| {
        if place == network.origin {
            places * slots
        } else {
            place as usize * slots + slot
        }
    };
    let mut graph = Graph::default();
    graph.at.resize_with(places * slots + 1, Vec::new);
    for place in 0..network.places {
        if place != network.origin && holds(place) {
            for slot in 1..slots {
                graph.join(node(place, slot - 1), node(place, slot), u64::from(u32::MAX));
            }
        }
    }
    for link in &network.links {
        for slot in 0..slots {
            let arrival = slot + link.transit as usize;
            if arrival < slots && link.capacity > 0 {
                graph.join(node(link.start, slot), node(link.end, arrival), u64::from(link.capacity));
            }
        }
    }
    graph.maximum(places * slots, node(network.destination, slots - 1))
}

/// The least horizon up to `limit` that delivers the amount.
pub fn least(network: &Network, amount: u64, limit: u64) -> Option<u64> {
    (0..=limit).find(|horizon| most(network, *horizon) >= amount)
}

/// The same where middle places hold nothing.
pub fn least_unheld(network: &Network, amount: u64, limit: u64) -> Option<u64> {
    (0..=limit).find(|horizon| most_unheld(network, *horizon) >= amount)
}
