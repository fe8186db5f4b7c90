//! A fuzzer with a corpus: records from the generators, changed again and
//! again; what reaches something new by the oracle's account is kept.

use crate::differ::Differ;
use crate::differ::Known;
use crate::gen::{damage, logs, networks, plans, Rng};
use crate::oracle;
use crate::tally::{Outcome, Tally};
use std::collections::HashSet;

/// A network's octets, a plan's and a link log's.
#[derive(Clone)]
struct Pair {
    network: Vec<u8>,
    plan: Vec<u8>,
    log: Vec<u8>,
}

/// Counts of all that a run reached.
pub struct Report {
    pub read: Tally,
    pub write: Tally,
    pub examine: Tally,
    pub most: Tally,
    pub plan: Tally,
    pub replay: Tally,
    pub kept: usize,
}

const KEPT_MOST: usize = 4096;
const OCTETS_MOST: usize = 2 * oracle::limits::PLAN_OCTETS;

/// `count` rounds; the first difference, described, ends the run.
pub fn run(seed: u64, count: u64) -> Result<Report, String> {
    let mut rng = Rng::new(seed);
    let mut differ = Differ::new(rng.draw());
    let mut corpus = seeds(&mut rng);
    let mut seen = HashSet::new();
    let mut report = Report {
        read: Tally::new("fuzz read"),
        write: Tally::new("fuzz write"),
        examine: Tally::new("fuzz examine"),
        most: Tally::new("fuzz most"),
        plan: Tally::new("fuzz plan"),
        replay: Tally::new("fuzz replay"),
        kept: 0,
    };
    for round in 0..count {
        let pair = if rng.one_in(32) { fresh(&mut rng, round) } else { change(&mut rng, &corpus) };
        let in_round = |m: String| format!("seed {seed}, round {round}: {m}");
        let read = differ.read(&pair.network).map_err(in_round)?;
        report.read.add(read);
        let examined = differ.examine(&pair.network, &pair.plan).map_err(in_round)?;
        report.examine.add(examined);
        let replayed = differ.replay(&pair.network, &pair.log).map_err(in_round)?;
        report.replay.add(replayed);
        if rng.one_in(4) {
            let (numbers, room) = loose_numbers(&mut rng, &pair.network);
            report.write.add(differ.write(&numbers, room).map_err(in_round)?);
        }
        if rng.one_in(16) {
            optimize(&mut rng, &mut differ, &pair.network, &mut report).map_err(in_round)?;
        }
        if corpus.len() < KEPT_MOST && seen.insert(features(&pair, [read, examined, replayed])) {
            corpus.push(pair);
            report.kept += 1;
        }
    }
    Ok(report)
}

fn seeds(rng: &mut Rng) -> Vec<Pair> {
    let mut corpus: Vec<Pair> = (0..100).map(|i| fresh(rng, i)).collect();
    for _ in 0..20 {
        let network = networks::any(rng);
        let plan = plans::right(rng, &network).unwrap_or_else(|| plans::walks(rng, &network));
        let log = log_for(rng, &network, 400);
        corpus.push(Pair { network: network.record(), plan: plan.record(&network), log });
    }
    corpus
}

/// A log of up to `most` entries that is kept, or spoilt.
fn log_for(rng: &mut Rng, network: &oracle::network::Network, most: usize) -> Vec<u8> {
    let count = rng.below(most);
    let taken = logs::kept(rng, network, count);
    let mut entries = logs::stamped(rng, &taken);
    if rng.one_in(2) {
        let way = rng.below(logs::WAYS);
        logs::spoil(rng, network, &mut entries, way);
    }
    oracle::replay::record(&entries)
}

/// A small network with a right, a spoilt or a wandering plan, by turns.
fn fresh(rng: &mut Rng, turn: u64) -> Pair {
    let network = networks::small(rng);
    let right = if turn % 3 == 2 { None } else { plans::right(rng, &network) };
    let mut plan = right.unwrap_or_else(|| plans::walks(rng, &network));
    if turn % 3 == 1 {
        let way = rng.below(plans::WAYS);
        plans::spoil(rng, &network, &mut plan, way);
    }
    let log = log_for(rng, &network, 24);
    Pair { network: network.record(), plan: plan.record(&network), log }
}

/// A pair of the corpus with one to four changes.
fn change(rng: &mut Rng, corpus: &[Pair]) -> Pair {
    let mut pair = rng.pick(corpus).clone();
    for _ in 0..1 + rng.below(4) {
        match rng.below(14) {
            0 => pair.network = rng.pick(corpus).network.clone(),
            1 => pair.network = damage::octets(rng, &pair.network),
            2 => pair.network = renumbered(rng, &pair.network),
            3 => pair.plan = damage::octets(rng, &pair.plan),
            4 => {
                let back = &corpus[rng.below(corpus.len())].plan;
                pair.plan = spliced(rng, &pair.plan, back);
            }
            5 => pair.plan = respoilt(rng, &pair),
            6 => pair.log = damage::octets(rng, &pair.log),
            7 => {
                let back = &corpus[rng.below(corpus.len())].log;
                pair.log = spliced(rng, &pair.log, back);
            }
            8 | 9 => pair.log = relogged(rng, &pair),
            10 => pair.plan = recopied(rng, &pair),
            11 => pair.plan = renumbered_behind(rng, &pair),
            _ => pair.plan = renumbered(rng, &pair.plan),
        }
    }
    pair.network.truncate(2 * oracle::limits::NETWORK_OCTETS);
    pair.plan.truncate(OCTETS_MOST);
    pair.log.truncate(2 * oracle::limits::LOG_OCTETS);
    pair
}

/// One number of a record changed, where the octets are numbers at all.
fn renumbered(rng: &mut Rng, octets: &[u8]) -> Vec<u8> {
    let mut list = Vec::new();
    let mut rest = octets;
    while let Ok((number, used)) = oracle::numbers::read(rest) {
        list.push(number);
        rest = &rest[used..];
    }
    if list.is_empty() {
        return rng.octets(8);
    }
    let mut changed = damage::numbers(rng, &list);
    changed.extend(rest);
    changed
}

/// The front of one record and the back of another.
fn spliced(rng: &mut Rng, front: &[u8], back: &[u8]) -> Vec<u8> {
    let mut octets = front[..rng.below(front.len() + 1)].to_vec();
    octets.extend(&back[rng.below(back.len() + 1)..]);
    octets
}

/// A plan spoilt in one way, where network and plan can be read.
fn respoilt(rng: &mut Rng, pair: &Pair) -> Vec<u8> {
    let Ok(network) = oracle::network::read(&pair.network) else {
        return pair.plan.clone();
    };
    let mut plan = match oracle::plan::read(&network, &pair.plan) {
        Ok(plan) => plan,
        Err(_) => plans::walks(rng, &network),
    };
    // The later claim runs the oracle's flow: too slow for every round.
    let way = rng.below(plans::WAYS);
    if way != plans::LATER_CLAIM || rng.one_in(8) {
        plans::spoil(rng, &network, &mut plan, way);
    }
    plan.record(&network)
}

/// A plan whose copy of the network is spoilt, or right again whatever the network's octets are now.
fn recopied(rng: &mut Rng, pair: &Pair) -> Vec<u8> {
    let rest = &pair.plan[behind_copy(&pair.plan)..];
    let Ok(network) = oracle::network::read(&pair.network) else {
        return oracle::plan::carrying(&pair.network, rest);
    };
    match oracle::plan::read(&network, &pair.plan) {
        Ok(plan) => {
            let way = rng.below(plans::COPIES);
            plans::miscopied(rng, &network, &plan, way)
        }
        Err(_) => oracle::plan::carrying(&pair.network, rest),
    }
}

/// One number of a plan changed, behind the copy.
fn renumbered_behind(rng: &mut Rng, pair: &Pair) -> Vec<u8> {
    let (front, rest) = pair.plan.split_at(behind_copy(&pair.plan));
    [front, &renumbered(rng, rest)].concat()
}

/// Where a plan's copy of a network ends; 0 if there is none.
fn behind_copy(plan: &[u8]) -> usize {
    match oracle::numbers::read(plan) {
        Ok((length, used)) if length as usize <= plan.len() - used => used + length as usize,
        _ => 0,
    }
}

/// A log spoilt in one way, or a fresh one, where the network can be read.
fn relogged(rng: &mut Rng, pair: &Pair) -> Vec<u8> {
    let Ok(network) = oracle::network::read(&pair.network) else {
        return pair.log.clone();
    };
    if rng.one_in(4) {
        return log_for(rng, &network, 24);
    }
    let Ok(taken) = oracle::replay::read(&network, &pair.log) else {
        return log_for(rng, &network, 24);
    };
    let mut entries = logs::stamped(rng, &taken);
    let way = rng.below(logs::WAYS);
    logs::spoil(rng, &network, &mut entries, way);
    oracle::replay::record(&entries)
}

/// Numbers for the writer: a network's, mostly with one changed, and a buffer
/// that fits, just fits or does not.
fn loose_numbers(rng: &mut Rng, record: &[u8]) -> ([u32; pudeyan::limits::NUMBERS], usize) {
    let mut numbers = [0; pudeyan::limits::NUMBERS];
    if let Ok(network) = oracle::network::read(record) {
        numbers = network.numbers();
        // What stands past the last link is not looked at.
        let used = 4 + 4 * network.links.len();
        numbers[used..].iter_mut().for_each(|n| *n = rng.draw() as u32);
    } else {
        numbers.iter_mut().for_each(|n| *n = *rng.pick(&damage::EDGES));
    }
    if rng.one_in(2) {
        let front = rng.one_in(2);
        let at = rng.below(if front { 8 } else { numbers.len() });
        numbers[at] = match rng.below(3) {
            0 => *rng.pick(&damage::EDGES),
            1 => numbers[at.max(1) - 1],
            _ => numbers[rng.below(16)],
        };
    }
    let needed = oracle::network::write(&numbers).map_or(8, |r| r.len());
    let room = match rng.below(4) {
        0 => needed,
        1 => needed - 1,
        2 => rng.below(2 * needed),
        _ => needed + rng.below(64),
    };
    (numbers, room)
}

/// The operations that run the optimizer; on large networks seldom, since the
/// oracle takes long there.
fn optimize(rng: &mut Rng, differ: &mut Differ, record: &[u8], report: &mut Report) -> Result<(), String> {
    let known = match oracle::network::read(record) {
        Ok(network) if network.links.len() > 40 && !rng.one_in(16) => return Ok(()),
        other => other.map(Known::new),
    };
    // An amount or a horizon.
    let number = match rng.below(8) {
        0 => rng.draw(),
        // Right if cut to 32 bits.
        1 => u64::from(rng.within(1, 9)) << 32 | u64::from(rng.within(1, oracle::limits::AMOUNT.1)),
        2 => u64::from(*rng.pick(&damage::EDGES)),
        3 | 4 => u64::from(rng.within(1, 1_000_000)),
        _ => u64::from(rng.within(1, oracle::limits::HORIZON.1)),
    };
    let count = if rng.one_in(4) { rng.below(64) } else { 64 + rng.below(8) };
    report.most.add(match &known {
        Ok(known) => differ.most(known, number, count)?,
        Err(_) => differ.most_refused(record, number, count)?,
    });
    let room = if rng.one_in(8) {
        rng.below(oracle::limits::PLAN_BUFFER)
    } else {
        oracle::limits::PLAN_BUFFER + rng.below(64)
    };
    report.plan.add(match &known {
        Ok(known) => differ.plan(known, number, room)?,
        Err(_) => differ.plan_refused(record, number, room)?,
    });
    Ok(())
}

/// What makes a pair worth keeping: outcomes, and sizes by powers of two.
fn features(pair: &Pair, outcomes: [Outcome; 3]) -> ([Outcome; 3], [u32; 5]) {
    let size = |n: usize| usize::BITS - n.leading_zeros();
    let (mut links, mut rows) = (0, 0);
    if let Ok(network) = oracle::network::read(&pair.network) {
        links = network.links.len();
        rows = oracle::plan::read(&network, &pair.plan).map_or(0, |p| p.rows.len());
    }
    (outcomes, [size(pair.network.len()), size(pair.plan.len()), size(pair.log.len()), size(links), size(rows)])
}
