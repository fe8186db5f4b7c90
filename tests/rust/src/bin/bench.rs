//! Times of the library beside those of what one would take instead, in one
//! run, as ratios: above 1 the library is faster. Nothing here is a test.

use pudeyan::limits::NUMBERS;
use pudeyan_tests::gen::{logs, Rng};
use pudeyan_tests::oracle::network::{Link, Network};
use pudeyan_tests::oracle::plan::{Plan, Row};
use pudeyan_tests::oracle::replay::{Entry, Taken};
use pudeyan_tests::oracle::{self, limits};
use std::fs;
use std::hint::black_box;
use std::path::Path;
use std::time::{Duration, Instant};

/// The median time of one call, over batches long enough to be measured.
fn time<T>(mut call: impl FnMut() -> T) -> Duration {
    let begin = Instant::now();
    black_box(call());
    let once = begin.elapsed().max(Duration::from_nanos(50));
    let batch = (Duration::from_micros(500).as_nanos() / once.as_nanos()).clamp(1, 10_000) as u32;
    let times = (0..7).map(|_| {
        let begin = Instant::now();
        for _ in 0..batch {
            black_box(call());
        }
        begin.elapsed() / batch
    });
    median(times.collect())
}

fn median<T: Ord + Copy>(mut list: Vec<T>) -> T {
    list.sort();
    list[list.len() / 2]
}

fn ratio(peer: Duration, library: Duration) -> f64 {
    peer.as_secs_f64() / library.as_secs_f64().max(1e-9)
}

fn line(what: &str, size: &str, library: Duration, peer: Duration) {
    println!("{what:<26} {size:<52} {library:>10.1?} {peer:>10.1?} {:>7.2}", ratio(peer, library));
}

fn main() {
    println!("{:<26} {:<52} {:>10} {:>10} {:>7}", "operation, peer", "size", "library", "peer", "ratio");
    codec();
    examiner();
    replayer();
    optimizer::all();
}

/// How an operation used its hint: the crate `hint_probe` tells, where it is
/// linked.
#[derive(Default)]
struct Hints {
    outcomes: [u32; 3],
}

/// Asks for an operation's outcome: record, its length, amount or horizon.
type Probe = unsafe extern "C" fn(*const u8, usize, u32) -> u32;

/// Of the most, of a plan's flow, of its rows.
#[cfg(probe)]
fn probes() -> Option<[Probe; 3]> {
    extern "C" {
        fn pudeyan_hint_of_most(octets: *const u8, len: usize, horizon: u32) -> u32;
        fn pudeyan_hint_of_plan(octets: *const u8, len: usize, amount: u32) -> u32;
        fn pudeyan_hint_of_rows(octets: *const u8, len: usize, amount: u32) -> u32;
    }
    Some([pudeyan_hint_of_most, pudeyan_hint_of_plan, pudeyan_hint_of_rows])
}

#[cfg(not(probe))]
fn probes() -> Option<[Probe; 3]> {
    None
}

impl Hints {
    fn count(&mut self, probe: Probe, record: &[u8], target: u64) {
        // SAFETY: the octets are lent for the call, and any numbers are taken.
        let outcome = unsafe { probe(record.as_ptr(), record.len(), target as u32) };
        self.outcomes[outcome as usize] += 1;
    }

    fn print(&self, what: &str) {
        let [unasked, taken, turned_down] = self.outcomes;
        println!("hints of {what}: {taken} taken, {turned_down} turned down, {unasked} calls that need none");
    }
}

/// A line of 64 places, about four links from each to the next, every number
/// as long as it can be.
fn largest_network() -> Network {
    let link = |e: u32| Link { start: e % 63, end: e % 63 + 1, capacity: 10_000, transit: 200 + e };
    Network { places: 64, origin: 0, destination: 63, links: (0..256).map(link).collect() }
}

fn codec() {
    let network = largest_network();
    let record = network.record();
    let size = format!("64 places, 256 links, {} octets", record.len());
    let read = || pudeyan::lent::read_network(black_box(&record));
    let peer = || oracle::network::read(black_box(&record)).map(|n| n.numbers());
    line("read, oracle", &size, time(read), time(peer));

    let numbers: [u32; NUMBERS] = network.numbers();
    let mut buffer = [0; limits::NETWORK_OCTETS];
    let write = || pudeyan::lent::write_network(black_box(&numbers), &mut buffer);
    line("write, oracle", &size, time(write), time(|| oracle::network::write(black_box(&numbers))));
}

fn examiner() {
    let mut rng = Rng::new(1);
    let wide = largest_network();
    let rows = (0..257).map(|_| row(&mut rng, (0..63).collect())).collect();
    examine_line(&wide, rows);

    let rows = (0..257)
        .map(|_| {
            let links = (0..63).map(|hop| hop + 63 * rng.within(0, if hop < 4 { 4 } else { 3 })).collect();
            row(&mut rng, links)
        })
        .collect();
    examine_line(&wide, rows);

    let ends = [(0, 1), (1, 0)];
    let links = ends.map(|(start, end)| Link { start, end, capacity: 10_000, transit: 7 }).to_vec();
    let pair = Network { places: 2, origin: 0, destination: 1, links };
    let rows = (0..257).map(|_| row(&mut rng, (0..63).map(|hop| hop % 2).collect())).collect();
    examine_line(&pair, rows);

    let once = Row::new(vec![0], 1, 0, 1);
    examine_record(&pair, &Plan { amount: 1, horizon: 8, cut: vec![0, 7], rows: vec![once] }.measured(&pair));

    let root = Path::new(env!("PUDEYAN_ROOT")).join("examples");
    let [record, octets] = ["a.network", "a.plan"].map(|name| fs::read(root.join(name)).expect("an example"));
    examine_octets("network A's plan", &record, &octets);
}

fn row(rng: &mut Rng, links: Vec<u32>) -> Row {
    Row::new(links, rng.within(1, 9), rng.within(0, 100_000), rng.within(1, 300))
}

/// Rows that pass every test up to the last: the cut's bound is too high.
fn examine_line(network: &Network, rows: Vec<Row>) {
    let amount: u32 = rows.iter().map(|r| r.rate * r.departures).sum();
    let horizon = 300_000;
    let mut cut = vec![0; network.places as usize];
    cut[network.destination as usize] = horizon - 1;
    examine_record(network, &Plan { amount, horizon, cut, rows }.measured(network));
}

fn examine_record(network: &Network, plan: &Plan) {
    let (record, octets) = (network.record(), plan.record(network));
    let examined = pudeyan::lent::examine(&record, &octets).expect("a plan's record");
    let (verdict, bound) = oracle::examine::examine(&record, &octets).expect("a plan's record");
    assert_eq!((examined.verdict.number(), examined.bound), (verdict, bound));
    let mut uses = vec![0; network.links.len()];
    plan.rows.iter().flat_map(|r| &r.links).for_each(|e| uses[*e as usize] += 1);
    let size = format!(
        "{} rows x {} links, a link used {} times, verdict {verdict}",
        plan.rows.len(),
        plan.rows[0].links.len(),
        uses.iter().max().unwrap()
    );
    examine_octets(&size, &record, &octets);
}

fn examine_octets(size: &str, record: &[u8], octets: &[u8]) {
    let library = time(|| pudeyan::lent::examine(black_box(record), black_box(octets)));
    let peer = time(|| oracle::examine::examine(black_box(record), black_box(octets)));
    line("examine, oracle's sweep", size, library, peer);
}

/// Logs of 4,096 entries, each looked at to the end: all on one link, all into
/// one place and out of it, spread over the network.
fn replayer() {
    let mut rng = Rng::new(2);
    let wide = largest_network();
    let spread = logs::kept(&mut rng, &wide, limits::LOG_ENTRIES);
    replay_line(&wide, "spread over 256 links", &spread);

    let one = |slot: u64| Taken { link: 0, slot, blocks: 1 };
    replay_line(&wide, "all on one link, a slot each", &(0..4_096).map(one).collect::<Vec<_>>());
    replay_line(&wide, "all on one link and slot", &vec![Taken { link: 0, slot: 0, blocks: 1 }; 4_096]);

    let link = |e: u32| match e {
        0..=127 => Link { start: 0, end: 1, capacity: 10_000, transit: 7 * e },
        _ => Link { start: 1, end: 2 + e % 62, capacity: 10_000, transit: 1 },
    };
    let hub = Network { places: 64, origin: 0, destination: 63, links: (0..256).map(link).collect() };
    let hop = |i: u64| match i % 2 {
        0 => Taken { link: (i * 37 % 128) as u32, slot: i, blocks: 1_000 },
        _ => Taken { link: 128 + (i * 29 % 128) as u32, slot: i, blocks: u32::from(i > 1_000) },
    };
    replay_line(&hub, "all into one place and out of it", &(0..4_096).map(hop).collect::<Vec<_>>());
}

fn replay_line(network: &Network, what: &str, taken: &[Taken]) {
    let entry = |t: &Taken| Entry { stamp: u32::MAX.wrapping_add(t.slot as u32), link: t.link, blocks: t.blocks };
    let (record, log) = (network.record(), oracle::replay::record(&taken.iter().map(entry).collect::<Vec<_>>()));
    let replayed = pudeyan::lent::replay(&record, &log).expect("a log");
    let (finding, delivered) = oracle::replay::replay(&record, &log).expect("a log");
    assert_eq!((replayed.finding.number(), replayed.delivered), (finding, delivered));
    assert_eq!(finding, 0, "a fault would end the replay early");
    let library = time(|| pudeyan::lent::replay(black_box(&record), black_box(&log)));
    let peer = time(|| oracle::replay::replay(black_box(&record), black_box(&log)));
    line("replay, oracle's events", &format!("4,096 entries, {what}"), library, peer);
    assert!(library < Duration::from_millis(5), "a replay takes 5 ms or more");
}

mod optimizer {
    use super::*;
    use pudeyan_tests::gen::networks::{self, Family, Size};
    use pudeyan_tests::peer::Peer;
    use std::collections::BTreeMap;

    const INSTANCES: usize = 7;
    const REPEATS: usize = 25;
    /// No call of a network of full size is to take as long.
    const SLOWEST: Duration = Duration::from_millis(10);

    /// Which ratio is wanted of a family.
    #[derive(Clone, Copy, Debug, PartialEq, Eq, PartialOrd, Ord)]
    enum Class {
        Ordinary,
        Parallel,
        Bad,
    }
    use Class::{Bad, Ordinary, Parallel};

    impl Class {
        /// The least ratio that is wanted of a family.
        fn wanted(self) -> f64 {
            match self {
                Ordinary => 1.0,
                Parallel => 0.75,
                Bad => 0.5,
            }
        }
    }

    /// A named way to draw full-size networks.
    struct Drawn {
        name: &'static str,
        class: Class,
        family: Family,
        capacity: u32,
        transit: u32,
    }

    const fn drawn(name: &'static str, class: Class, family: Family, capacity: u32) -> Drawn {
        Drawn { name, class, family, capacity, transit: limits::TRANSIT.1 }
    }

    /// All places in one hall: transit 0, and loops wherever links go round.
    const fn hall(name: &'static str, class: Class, family: Family) -> Drawn {
        Drawn { name, class, family, capacity: 10_000, transit: 0 }
    }

    const DRAWN: [Drawn; 25] = [
        drawn("random", Ordinary, Family::Random, 10_000),
        drawn("random, capacities to 20", Ordinary, Family::Random, 20),
        drawn("layered", Ordinary, Family::Layered, 10_000),
        drawn("layered, capacities to 20", Ordinary, Family::Layered, 20),
        drawn("grid", Ordinary, Family::Grid, 100),
        drawn("bipartite", Ordinary, Family::Bipartite, 100),
        drawn("line with shortcuts", Ordinary, Family::Line, 100),
        drawn("equal levels", Ordinary, Family::EqualLevels, 10_000),
        drawn("equal levels, capacities to 20", Ordinary, Family::EqualLevels, 20),
        drawn("parallel", Parallel, Family::Parallel, 100),
        drawn("parallel, 1 hop of 256", Parallel, Family::Hops(1), 100),
        drawn("parallel, 2 hops of 128", Parallel, Family::Hops(2), 100),
        drawn("parallel, 8 hops of 32", Parallel, Family::Hops(8), 100),
        drawn("zig-zag", Bad, Family::ZigZag, 10_000),
        drawn("zig-zag over 40 links", Bad, Family::ZigZagOver(40), 10_000),
        drawn("zig-zag over 96 links", Bad, Family::ZigZagOver(96), 10_000),
        drawn("zig-zag over 144 links", Bad, Family::ZigZagOver(144), 10_000),
        drawn("to and fro", Bad, Family::ToAndFro, 10_000),
        hall("hall, random", Ordinary, Family::Random),
        hall("hall, layered", Ordinary, Family::Layered),
        hall("hall, grid", Ordinary, Family::Grid),
        hall("hall, bipartite", Ordinary, Family::Bipartite),
        hall("hall, line", Ordinary, Family::Line),
        hall("hall, parallel", Parallel, Family::Hops(8)),
        hall("hall, to and fro", Bad, Family::ToAndFro),
    ];

    impl Drawn {
        /// Instances in which the archive can be reached.
        fn kind(&self) -> Kind {
            let mut rng = Rng::new(self.capacity.into());
            let mut networks = Vec::new();
            while networks.len() < INSTANCES {
                let size = Size { capacity: self.capacity, transit: self.transit, ..Size::FULL };
                let network = networks::network(&mut rng, self.family, size);
                if oracle::planner::chain_exists(&network) {
                    networks.push(network);
                }
            }
            Kind { name: self.name, class: self.class, networks }
        }
    }

    /// Networks of a kind.
    struct Kind {
        name: &'static str,
        class: Class,
        networks: Vec<Network>,
    }

    fn kinds() -> Vec<Kind> {
        let file = Path::new(env!("PUDEYAN_ROOT")).join("examples/a.network");
        let a = oracle::network::read(&fs::read(file).expect("an example")).expect("a network");
        let mut list: Vec<Kind> = DRAWN.iter().map(Drawn::kind).collect();
        list.push(Kind { name: "network A", class: Ordinary, networks: vec![a] });
        list
    }

    /// What an operation is compared with: LEMON's method and its name here.
    struct Methods {
        operation: &'static str,
        word: &'static str,
        variants: &'static [(&'static str, &'static str)],
    }

    const MOST: Methods = Methods {
        operation: "most",
        word: "horizon",
        variants: &[("most-simplex", "most, NetworkSimplex"), ("most-scaling", "most, CapacityScaling")],
    };
    const PLAN: Methods = Methods {
        operation: "plan",
        word: "amount",
        variants: &[
            ("plan-newton", "plan, Simplex+Newton"),
            ("plan-plain", "plan, Newton, plain start"),
            ("plan-binary", "plan, Simplex+binary"),
        ],
    };

    /// The peer, and what is summed up at the end of the run.
    struct Run {
        peer: Option<Peer>,
        slowest: (Duration, String),
        /// Of each class, operation and target: the ratios to the best variant.
        ratios: BTreeMap<(Class, String), Vec<f64>>,
        /// Of each class: the least ratio of a family, and whose.
        least: BTreeMap<Class, (f64, String)>,
    }

    pub fn all() {
        let mut run = Run {
            peer: Peer::start(),
            slowest: (Duration::ZERO, String::new()),
            ratios: BTreeMap::new(),
            least: BTreeMap::new(),
        };
        if run.peer.is_none() {
            println!("LEMON's rows are left out: target/lemon/peer is missing (tests/lemon/build makes it)");
        }
        let mut hints = [Hints::default(), Hints::default(), Hints::default()];
        for kind in kinds() {
            for horizon in [1_000, 20_000, 1_063_000, 100_063_000] {
                let mut cut = [0; 64];
                let most = |record: &[u8], horizon| pudeyan::lent::most(record, horizon, &mut cut).expect("a network");
                run.compare(&MOST, &kind, horizon, most);
                count(&mut hints[0], 0, &kind, horizon);
            }
            for amount in [1, 1_000, 1_000_000, 100_000_000] {
                let mut buffer = vec![0; limits::PLAN_BUFFER];
                let plan =
                    |record: &[u8], amount| pudeyan::lent::plan(record, amount, &mut buffer).expect("a chain").horizon;
                run.compare(&PLAN, &kind, amount, plan);
                count(&mut hints[1], 1, &kind, amount);
                count(&mut hints[2], 2, &kind, amount);
            }
        }
        time_expanded();
        run.sum_up();
        match probes() {
            Some(_) => ["most", "plan", "rows"].iter().zip(&hints).for_each(|(what, hints)| hints.print(what)),
            None => println!("hints were not counted: no probe is linked (PUDEYAN_PROBE)"),
        }
        assert!(run.slowest.0 < SLOWEST, "a call takes {SLOWEST:?} or more");
    }

    fn count(hints: &mut Hints, operation: usize, kind: &Kind, target: u64) {
        if let Some(probes) = probes() {
            kind.networks.iter().for_each(|n| hints.count(probes[operation], &n.record(), target));
        }
    }

    /// The answer, and the median of single calls: as the peer takes its own.
    fn median_call(mut call: impl FnMut() -> u64) -> (u64, Duration) {
        let begin = Instant::now();
        let mut times = Vec::new();
        let mut answer = 0;
        while times.len() < 3 || (times.len() < REPEATS && begin.elapsed() < Duration::from_millis(50)) {
            let begin = Instant::now();
            answer = black_box(call());
            times.push(begin.elapsed());
        }
        (answer, median(times))
    }

    fn middle(mut list: Vec<f64>) -> f64 {
        list.sort_by(f64::total_cmp);
        list[list.len() / 2]
    }

    /// A line: medians over the instances, and of the ratios, which are the
    /// answer.
    fn ratios_line(title: &str, size: &str, times: &[Duration], peers: &[Duration]) -> Vec<f64> {
        let ratios: Vec<f64> = peers.iter().zip(times).map(|(peer, time)| ratio(*peer, *time)).collect();
        let (time, peer, of_ratios) = (median(times.to_vec()), median(peers.to_vec()), middle(ratios.clone()));
        println!("{title:<26} {size:<52} {time:>10.1?} {peer:>10.1?} {of_ratios:>7.2}");
        ratios
    }

    impl Run {
        /// A line for each variant, and one for the best of each instance.
        fn compare(&mut self, methods: &Methods, kind: &Kind, target: u64, mut call: impl FnMut(&[u8], u64) -> u64) {
            let size = format!("{}, {} {target}", kind.name, methods.word);
            let (mut answers, mut times) = (Vec::new(), Vec::new());
            for network in &kind.networks {
                let record = network.record();
                let (answer, time) = median_call(|| call(black_box(&record), target));
                answers.push(answer);
                times.push(time);
                if self.slowest.0 < time {
                    self.slowest = (time, format!("{}, {size}", methods.operation));
                }
            }
            let Some(peer) = &mut self.peer else {
                println!("{:<26} {size:<52} {:>10.1?}", methods.operation, median(times));
                return;
            };
            let mut best = vec![Duration::MAX; times.len()];
            for (method, title) in methods.variants {
                let mut peers = Vec::new();
                for (i, network) in kind.networks.iter().enumerate() {
                    let (answer, time) = peer.ask(method, REPEATS, target, network);
                    assert_eq!(answers[i], answer, "{title}, {size}: the answers differ");
                    best[i] = best[i].min(time);
                    peers.push(time);
                }
                ratios_line(title, &size, &times, &peers);
            }
            let ratios = ratios_line(&format!("{}, best of LEMON", methods.operation), &size, &times, &best);
            let of_family = middle(ratios.clone());
            let least = self.least.entry(kind.class).or_insert((f64::INFINITY, String::new()));
            if of_family < least.0 {
                *least = (of_family, format!("{}, {size}", methods.operation));
            }
            let what = format!("{}, {} {target}", methods.operation, methods.word);
            self.ratios.entry((kind.class, what)).or_default().extend(ratios);
        }

        /// The ratios to the best of LEMON and the least of them by class, and
        /// the slowest call.
        fn sum_up(&self) {
            for ((class, what), ratios) in &self.ratios {
                println!("median of the instances, {class:?}: {what}: {:.2}", middle(ratios.clone()));
            }
            for (class, (ratio, whose)) in &self.least {
                println!("least ratio of a family, {class:?}: {ratio:.3} ({whose}); wanted: {}", class.wanted());
            }
            println!("slowest instance: {:.1?} ({})", self.slowest.0, self.slowest.1);
        }
    }

    /// The textbook method, on a network small enough for it.
    fn time_expanded() {
        let mut rng = Rng::new(5);
        let size = Size { places: 16, links: 48, capacity: 20, transit: 10 };
        let network = networks::network(&mut rng, Family::Layered, size);
        let record = network.record();
        let mut cut = [0; 64];
        let answer = pudeyan::lent::most(&record, 100, &mut cut).expect("a network");
        assert_eq!(answer, oracle::expanded::most(&network, 100));
        let library = time(|| pudeyan::lent::most(black_box(&record), 100, &mut cut));
        let peer = time(|| oracle::expanded::most(black_box(&network), 100));
        line("most, time-expanded", "16 places, 48 links, horizon 100", library, peer);
    }
}
