//! Each function on its largest inputs in a thread with just as much stack as
//! the header states: `tests/c/stack.c`, one process for each call, so that the
//! dynamic linker's part in the first call counts too.

use pudeyan_tests::gen::networks::{self, Size};
use pudeyan_tests::gen::{logs, Rng};
use pudeyan_tests::header;
use pudeyan_tests::oracle::network::{Link, Network};
use pudeyan_tests::oracle::plan::{Plan, Row};
use pudeyan_tests::oracle::planner;
use pudeyan_tests::oracle::replay::{self, Entry};
use std::path::{Path, PathBuf};
use std::process::Command;
use std::sync::OnceLock;

/// Enough for any call: to see how much it touches.
const AMPLE: usize = 1 << 20;

fn path(name: &str) -> PathBuf {
    Path::new(env!("CARGO_TARGET_TMPDIR")).join(name)
}

/// The program, bound lazily, as most C programs are.
fn program() -> &'static Path {
    static PROGRAM: OnceLock<PathBuf> = OnceLock::new();
    PROGRAM.get_or_init(|| {
        let program = path("stack");
        let compiled = Command::new("cc")
            .args(["-std=gnu99", "-O1", "-Wall", "-Wextra", "-Werror", "-pthread", "-Wl,-z,lazy", "-I"])
            .arg(header::folder())
            .arg(Path::new(env!("PUDEYAN_ROOT")).join("tests/c/stack.c"))
            .arg(env!("PUDEYAN_ARCHIVE"))
            .arg("-o")
            .arg(&program)
            .output()
            .expect("cc runs");
        assert!(compiled.status.success(), "{}", String::from_utf8_lossy(&compiled.stderr));
        program
    })
}

/// A function's calls, each a number and the contents of its files.
struct Calls {
    function: &'static str,
    made: usize,
    stated: usize,
    touched: usize,
}

impl Calls {
    fn new(function: &'static str) -> Calls {
        Calls { function, made: 0, stated: 0, touched: 0 }
    }

    /// How much a call touches; and, if that is not above what the header states, the call with just that.
    fn add(&mut self, number: u64, files: &[&[u8]]) {
        let [stated, touched] = self.call(AMPLE, number, files).expect("an ample stack is enough");
        self.made += 1;
        self.stated = stated;
        self.touched = self.touched.max(touched);
        if touched <= stated {
            let again = self.call(0, number, files);
            assert!(again.is_some(), "{}: {stated} octets of stack are not enough", self.function);
        }
    }

    fn require(self) {
        let Calls { function, made, stated, touched } = self;
        println!("counts stack, {function}: {made} calls, {touched} octets touched of {stated} stated");
        assert!(made > 0);
        assert!(touched <= stated, "{function} needs {touched} octets of stack, and the header states {stated}");
    }

    /// What the header states and what is touched; none if the call ended the process.
    fn call(&self, octets: usize, number: u64, files: &[&[u8]]) -> Option<[usize; 2]> {
        let mut command = Command::new(program());
        command.args([self.function, &octets.to_string(), &number.to_string()]);
        for (i, content) in files.iter().enumerate() {
            let file = path(&format!("stack-{}-{i}", self.function));
            std::fs::write(&file, content).expect("a file can be written");
            command.arg(file);
        }
        let done = command.output().expect("the program runs");
        let text = String::from_utf8_lossy(&done.stdout).into_owned();
        if done.status.code().is_none() {
            return None;
        }
        assert!(done.status.success(), "{command:?}: {}", String::from_utf8_lossy(&done.stderr));
        match text.split_whitespace().collect::<Vec<_>>()[..] {
            ["stated", stated, "touched", touched, "refusal", refusal] => {
                assert_eq!(refusal, "0", "the largest inputs are not refused: {command:?}");
                Some([stated, touched].map(|n| n.parse().expect("a number")))
            }
            _ => panic!("{text}"),
        }
    }
}

/// Networks of full size: every family's, with transits and in one hall, where a
/// flow may go round; the longest record, the longest line.
fn largest() -> Vec<Network> {
    let mut rng = Rng::new(61);
    let mut all = vec![longest()];
    for size in [Size::FULL, Size { transit: 0, ..Size::FULL }] {
        all.extend(networks::FAMILIES.map(|family| networks::network(&mut rng, family, size)));
    }
    let line = (0..63).map(|e| Link { start: e, end: e + 1, capacity: 1, transit: 1_000 });
    all.push(Network { places: 64, origin: 0, destination: 63, links: line.collect() });
    all
}

fn longest() -> Network {
    let link = |e: u32| Link { start: e % 63, end: e % 63 + 1, capacity: 10_000, transit: 1_000 };
    Network { places: 64, origin: 0, destination: 63, links: (0..256).map(link).collect() }
}

/// 257 rows of 63 links, over each other or one after another; in the second way only the rows' sum is wrong.
fn longest_plans() -> [Plan; 2] {
    let links: Vec<u32> = (0..63).map(|hop| hop + 63 * 3).collect();
    let row = |first, departures| Row::new(links.clone(), 10_000, first, departures);
    let cut = |number| vec![number; 64];
    let over = (0..257).map(|_| row(100_063_000, 100_063_000)).collect();
    let after = (0..257).map(|i| row(i * 389_000, 389_000)).collect();
    [
        Plan { amount: 100_000_000, horizon: 100_063_000, cut: cut(100_063_000), rows: over },
        Plan { amount: 100_000_000, horizon: 100_063_000, cut: cut(100_062_999), rows: after },
    ]
    .map(|plan| plan.measured(&longest()))
}

#[test]
fn read() {
    let mut calls = Calls::new("read");
    largest().iter().for_each(|network| calls.add(0, &[&network.record()]));
    calls.require();
}

#[test]
fn write() {
    let mut calls = Calls::new("write");
    for network in largest() {
        let numbers: Vec<u8> = network.numbers().iter().flat_map(|n| n.to_ne_bytes()).collect();
        calls.add(0, &[&numbers]);
    }
    calls.require();
}

#[test]
fn most() {
    let mut calls = Calls::new("most");
    for network in largest() {
        for horizon in [0, 1, 100, 20_000, 1_063_000, 100_063_000] {
            calls.add(horizon, &[&network.record()]);
        }
    }
    calls.require();
}

#[test]
fn plan() {
    let mut calls = Calls::new("plan");
    for network in largest().iter().filter(|n| planner::chain_exists(n)) {
        for amount in [1, 1_000, 1_000_000, 100_000_000] {
            calls.add(amount, &[&network.record()]);
        }
    }
    calls.require();
}

#[test]
fn examine() {
    let mut calls = Calls::new("examine");
    for plan in longest_plans() {
        assert!(plan.record(&longest()).len() > 36_500);
        calls.add(0, &[&longest().record(), &plan.record(&longest())]);
    }
    for network in largest() {
        for plan in [1, 1_000_000, 100_000_000].into_iter().filter_map(|amount| planner::plan(&network, amount)) {
            calls.add(0, &[&network.record(), &plan.record(&network)]);
        }
    }
    calls.require();
}

#[test]
fn replay() {
    let mut calls = Calls::new("log");
    let mut rng = Rng::new(62);
    for network in largest() {
        let taken = logs::kept(&mut rng, &network, 4_096);
        let log = logs::stamped(&mut rng, &taken);
        calls.add(0, &[&network.record(), &replay::record(&log)]);
        // Broken capacities and blocks sent too early end it sooner.
        let same: Vec<_> = log.iter().map(|entry| Entry { stamp: 0, ..*entry }).collect();
        calls.add(0, &[&network.record(), &replay::record(&same)]);
    }
    calls.require();
}
