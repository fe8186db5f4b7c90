//! The LEMON peer of the benchmarks: a process that is asked on its standard
//! input and answers with a number and its own median time.

use crate::oracle::network::Network;
use std::io::{BufRead, BufReader, Write};
use std::path::Path;
use std::process::{Child, ChildStdin, ChildStdout, Command, Stdio};
use std::time::Duration;

pub struct Peer {
    child: Child,
    requests: ChildStdin,
    answers: BufReader<ChildStdout>,
}

impl Peer {
    /// The program that tests/lemon/build makes; none if it was not built.
    pub fn start() -> Option<Peer> {
        let program = Path::new(env!("PUDEYAN_ROOT")).join("target/lemon/peer");
        let mut child = Command::new(program).stdin(Stdio::piped()).stdout(Stdio::piped()).spawn().ok()?;
        let requests = child.stdin.take()?;
        let answers = BufReader::new(child.stdout.take()?);
        Some(Peer { child, requests, answers })
    }

    /// The answer of a method, and the median of its times.
    pub fn ask(&mut self, method: &str, repeats: usize, target: u64, network: &Network) -> (u64, Duration) {
        let list: Vec<String> = network.list().iter().map(|n| n.to_string()).collect();
        writeln!(self.requests, "{method} {repeats} {target} {}", list.join(" ")).expect("the peer listens");
        let mut line = String::new();
        self.answers.read_line(&mut line).expect("the peer answers");
        let mut words = line.split_whitespace().map(|w| w.parse::<u64>().expect("the peer answers with numbers"));
        let mut word = || words.next().expect("two numbers");
        (word(), Duration::from_nanos(word()))
    }
}

impl Drop for Peer {
    fn drop(&mut self) {
        let _ = self.child.kill();
        let _ = self.child.wait();
    }
}
