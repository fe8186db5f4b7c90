//! The programs `list` and `sheet`, run: what they print against the oracle's
//! listing and sheet, with the input in one piece and in many.
//!
//! PUDEYAN_LIST and PUDEYAN_SHEET name programs to test in the place of
//! target/bin/list and target/bin/sheet.

use pudeyan_tests::gen::{damage, networks, plans, Rng};
use pudeyan_tests::oracle::examine::verdict;
use pudeyan_tests::oracle::limits;
use pudeyan_tests::oracle::listing::{listing, INPUT};
use pudeyan_tests::oracle::network::{Link, Network};
use pudeyan_tests::oracle::numbers::write_all;
use pudeyan_tests::oracle::plan::{carrying, Plan, Row};
use pudeyan_tests::oracle::sheet::sheet;
use pudeyan_tests::tally::{cases, refusals, seed, verdicts, Outcome, Tally};
use std::collections::HashSet;
use std::io::{Read, Write};
use std::os::fd::AsRawFd;
use std::path::{Path, PathBuf};
use std::process::{Child, Command, Stdio};

const FIONREAD: u64 = 0x541B;
const SIGCONT: i32 = 18;
const SIGSTOP: i32 = 19;
const WUNTRACED: i32 = 2;

extern "C" {
    fn ioctl(file: i32, request: u64, answer: *mut i32) -> i32;
    fn kill(process: i32, signal: i32) -> i32;
    fn waitpid(process: i32, status: *mut i32, options: i32) -> i32;
}

/// A program that is tested, and what the oracle says that it prints.
struct Program {
    name: &'static str,
    other: &'static str,
    wanted: fn(&[u8]) -> String,
}

const LIST: Program = Program { name: "list", other: "PUDEYAN_LIST", wanted: listing };
const SHEET: Program = Program { name: "sheet", other: "PUDEYAN_SHEET", wanted: sheet };

fn program(Program { name, other, .. }: &Program) -> PathBuf {
    let own = || Path::new(env!("PUDEYAN_ROOT")).join("target/bin").join(name);
    let program = std::env::var_os(other).map_or_else(own, PathBuf::from);
    assert!(program.is_file(), "there is no {} (make texts makes it)", program.display());
    program
}

fn start(of: &Program) -> Child {
    let mut command = Command::new(program(of));
    command.stdin(Stdio::piped()).stdout(Stdio::piped()).stderr(Stdio::piped());
    command.spawn().expect("the program starts")
}

/// How many octets stand in a pipe.
fn in_pipe(pipe: &impl AsRawFd) -> usize {
    let mut octets = 0;
    // SAFETY: the request answers one number.
    let status = unsafe { ioctl(pipe.as_raw_fd(), FIONREAD, &mut octets) };
    assert_eq!(status, 0, "FIONREAD");
    octets as usize
}

fn wait_while(mut holds: impl FnMut() -> bool) {
    while holds() {
        std::thread::sleep(std::time::Duration::from_micros(20));
    }
}

fn ended(child: &mut Child) -> bool {
    child.try_wait().expect("the program can be asked").is_some()
}

/// The program ended well and told nothing on standard error.
fn ended_well(child: Child) {
    let done = child.wait_with_output().expect("the program ends");
    assert!(done.status.success(), "{:?}", done.status);
    assert_eq!(String::from_utf8_lossy(&done.stderr), "");
}

/// What the program prints when its input comes in these pieces, one `read` for each at the most.
fn prints<'a>(of: &Program, pieces: impl IntoIterator<Item = &'a [u8]>) -> String {
    let mut child = start(of);
    let mut pipe = child.stdin.take().expect("a pipe");
    let mut printed = child.stdout.take().expect("a pipe");
    let reader = std::thread::spawn(move || {
        let mut text = String::new();
        printed.read_to_string(&mut text).expect("the program prints text");
        text
    });
    for piece in pieces {
        // A program that has read enough may have ended.
        if pipe.write_all(piece).is_err() {
            break;
        }
        // Once the pipe is empty, the next piece is for another `read`.
        wait_while(|| in_pipe(&pipe) > 0 && !ended(&mut child));
    }
    drop(pipe);
    let text = reader.join().expect("the reader ends");
    ended_well(child);
    text
}

/// What the program prints when it is stopped and continued while the pipe to which it prints is full: its `write` then answers that
/// it took fewer octets than it was handed.
fn prints_stopped(of: &Program, input: &[u8]) -> String {
    let mut child = start(of);
    let mut printed = child.stdout.take().expect("a pipe");
    child.stdin.take().expect("a pipe").write_all(input).expect("the program reads");
    wait_while(|| in_pipe(&printed) < 65_536 && !ended(&mut child));
    let process = child.id() as i32;
    let mut status = 0;
    // SAFETY: signals to, and the status of, the child started above.
    unsafe {
        assert_eq!(kill(process, SIGSTOP), 0);
        assert_eq!(waitpid(process, &mut status, WUNTRACED), process);
        assert_eq!(status & 0xff, 0x7f, "the program stopped");
        assert_eq!(kill(process, SIGCONT), 0);
    }
    let mut text = String::new();
    printed.read_to_string(&mut text).expect("the program prints text");
    ended_well(child);
    text
}

/// An input: the length of the network's record, that record, the plan's.
fn input(network: &[u8], plan: &[u8]) -> Vec<u8> {
    [&write_all(&[network.len() as u32]), network, plan].concat()
}

/// The program's first word and number.
fn outcome(text: &str) -> Outcome {
    let line = text.lines().next().expect("a line is printed");
    let (word, number) = line.split_once(' ').expect("a word and a number");
    let number = number.parse().expect("a number");
    match word {
        "refused" => Outcome::Refused(number),
        "verdict" => Outcome::Verdict(number),
        _ => panic!("{line}"),
    }
}

/// Both programs print what the oracle says; what the listing begins with.
fn assert_prints(input: &[u8], piece: usize) -> Outcome {
    for of in [LIST, SHEET] {
        let (name, wanted) = (of.name, (of.wanted)(input));
        let printed = prints(&of, input.chunks(piece));
        assert!(
            printed == wanted,
            "in pieces of {piece}: {input:02x?}\n{name} prints\n{printed}the oracle says\n{wanted}"
        );
    }
    outcome(&listing(input))
}

/// Document 01's example, with the lengths and the copy of document 02: its text is the same to the letter.
#[test]
fn example() {
    let octets = [
        0x18, 0x04, 0x00, 0x03, 0x05, 0x00, 0x01, 0x02, 0x01, 0x01, 0x03, 0x01, 0x01, 0x01, 0x02, 0x01, 0x01, 0x02,
        0x03, 0x01, 0x02, 0x00, 0x02, 0x01, 0x03, 0x18, 0x04, 0x00, 0x03, 0x05, 0x00, 0x01, 0x02, 0x01, 0x01, 0x03,
        0x01, 0x01, 0x01, 0x02, 0x01, 0x01, 0x02, 0x03, 0x01, 0x02, 0x00, 0x02, 0x01, 0x03, 0x04, 0x05, 0x00, 0x01,
        0x02, 0x04, 0x02, 0x02, 0x00, 0x01, 0x02, 0x01, 0x00, 0x03, 0x03, 0x00, 0x02, 0x03, 0x04, 0x01, 0x00, 0x01,
    ];
    let text = "verdict 0\n\
                amount 4 horizon 5\n\
                row 0 links 0 1 rate 1 first 0 departures 3\n\
                row 1 links 0 2 3 rate 1 first 0 departures 1\n\
                cut 0 1 2 4 bound 2\n";
    assert_eq!(listing(&octets), text);
    for piece in [1, 2, 7, 24, 25, octets.len()] {
        assert_eq!(prints(&LIST, octets.chunks(piece)), text, "in pieces of {piece}");
        assert_eq!(
            prints(&SHEET, octets.chunks(piece)),
            "row 0 blocks 3\nrow 1 blocks 1\ntotal 4\n",
            "in pieces of {piece}"
        );
    }
    // Every front of it.
    for end in 0..octets.len() {
        assert_prints(&octets[..end], octets.len());
    }
}

/// A line of 63 links, over which 257 rows bring a block each: a right plan.
fn right_and_long() -> (Network, Plan) {
    let link = |e| Link { start: e, end: e + 1, capacity: 257, transit: 1_000 };
    let network = Network { places: 64, origin: 0, destination: 63, links: (0..63).map(link).collect() };
    let row = Row::new((0..63).collect(), 1, 0, 1);
    let cut = (0..64).map(|place| place * 1_000).collect();
    let plan = Plan { amount: 257, horizon: 63_001, cut, rows: vec![row; 257] }.measured(&network);
    (network, plan)
}

/// The longest plan, with link numbers of three digits and a bound above 2^32.
fn longest() -> (Network, Plan) {
    let link = |e: u32| Link { start: e % 63, end: e % 63 + 1, capacity: 10_000, transit: 1_000 };
    let network = Network { places: 64, origin: 0, destination: 63, links: (0..256).map(link).collect() };
    let links: Vec<u32> = (0..63).map(|hop| hop + 63 * 3).collect();
    let rows = vec![Row::new(links, 10_000, 100_063_000, 100_063_000); 257];
    let cut = (0..64).map(|place| if place % 2 == 0 { 100_000_001 } else { 100_063_000 }).collect();
    let plan = Plan { amount: 100_000_000, horizon: 100_063_000, cut, rows }.measured(&network);
    (network, plan)
}

/// Inputs and texts longer than a program would hold that reads or writes 4,096 octets, and than a pipe holds.
#[test]
fn long_plans() {
    let (network, plan) = right_and_long();
    assert_eq!(verdict(&network, &plan), 0);
    let right = input(&network.record(), &plan.record(&network));
    assert!(right.len() > 4 * 4_096 && listing(&right).len() > 4 * 4_096);
    let (network, plan) = longest();
    let long = input(&network.record(), &plan.record(&network));
    assert!(long.len() == 2 + 1_541 + 37_789 && listing(&long).len() > 65_536);
    assert!(listing(&long).ends_with(&format!(" bound {}\n", 130u64 * 10_000 * 61_999)));
    for (octets, wanted) in [(right, Outcome::Verdict(0)), (long, Outcome::Verdict(2))] {
        for piece in [100, 4_095, 4_096, 4_097, 10_000, octets.len() - 1, octets.len()] {
            assert_eq!(assert_prints(&octets, piece), wanted);
        }
        // The last octet counts, and one after it too.
        assert_eq!(assert_prints(&octets[..octets.len() - 1], 5_000), Outcome::Refused(14));
        assert_eq!(assert_prints(&[&octets[..], &[0]].concat(), 5_000), Outcome::Refused(18));
    }
}

/// Two places and a link, and a plan that prints these numbers as first slots and departures.
fn printing(numbers: &[u32]) -> Vec<u8> {
    let link = Link { start: 0, end: 1, capacity: 10_000, transit: 1 };
    let network = Network { places: 2, origin: 0, destination: 1, links: vec![link] };
    let row = |pair: &[u32]| Row::new(vec![0], 1, pair[0], pair[pair.len() - 1].max(1));
    let (first, last) = (numbers[0], numbers[numbers.len() - 1]);
    let plan = Plan {
        amount: last.clamp(limits::AMOUNT.0, limits::AMOUNT.1),
        horizon: last.max(limits::HORIZON.0),
        cut: vec![first, last],
        rows: numbers.chunks(2).map(row).collect(),
    };
    input(&network.record(), &plan.measured(&network).record(&network))
}

/// Every number of up to four digits, those about the powers of ten and the first thousands, the largest, and others.
#[test]
fn printed_numbers() {
    let largest = limits::DEPARTURES.1;
    let powers = (0..=8).map(|k| 10u32.pow(k)).flat_map(|power| power.saturating_sub(120)..=(power + 120));
    let thousands = (1..=1_063).map(|k| k * 1_000).flat_map(|k| [k - 1, k, k + 1, k + 10, k + 100]);
    let mut rng = Rng::new(seed(82));
    let others = (0..cases(2_000)).map(|_| rng.below(largest as usize) as u32).collect::<Vec<_>>();
    let all = (0..10_000).chain(powers).chain(thousands).chain(others).chain([largest]);
    let printable: Vec<u32> = all.filter(|&n| n <= largest).collect();
    for numbers in printable.chunks(2 * limits::ROWS.1 as usize) {
        let octets = printing(numbers);
        let printed = prints(&LIST, [&octets[..]]);
        assert_eq!(printed, listing(&octets));
        let words: HashSet<&str> = printed.split_whitespace().collect();
        for number in numbers {
            assert!(words.contains(&number.to_string()[..]), "{number} is not printed");
        }
    }
}

/// The largest number of each kind that a listing prints.
#[test]
fn largest_numbers() {
    let link = Link { start: 0, end: 1, capacity: limits::CAPACITY.1, transit: 0 };
    let network = Network { places: 2, origin: 0, destination: 1, links: vec![link; limits::LINKS.1 as usize] };
    let links = vec![limits::LINKS.1 - 1; limits::ROW_LINKS.1 as usize];
    let row = Row::new(links, limits::RATE.1, limits::FIRST.1, limits::DEPARTURES.1);
    let rows = vec![row; limits::ROWS.1 as usize];
    let plan = Plan { amount: limits::AMOUNT.1, horizon: limits::HORIZON.1, cut: vec![0, limits::CUT.1], rows };
    let octets = input(&network.record(), &plan.measured(&network).record(&network));
    assert_prints(&octets, octets.len());
    let printed = prints(&LIST, [&octets[..]]);
    let bound = u64::from(limits::LINKS.1) * u64::from(limits::CAPACITY.1) * u64::from(limits::CUT.1);
    assert!(printed.ends_with(&format!("cut 0 {} bound {bound}\n", limits::CUT.1)), "{printed}");
    let blocks = u64::from(limits::RATE.1) * u64::from(limits::DEPARTURES.1);
    let last = format!("row 256 blocks {blocks}\ntotal {}\n", blocks * u64::from(limits::ROWS.1));
    assert!(prints(&SHEET, [&octets[..]]).ends_with(&last), "{last}");
}

/// The numbers at the ends of a sheet's lines, those above the total and the total.
fn numbers_of(sheet: &str) -> (Vec<u64>, u64) {
    let number = |line: &str| line.rsplit(' ').next().expect("a word").parse().expect("a number");
    let mut numbers: Vec<u64> = sheet.lines().map(number).collect();
    let total = numbers.pop().expect("a last line");
    (numbers, total)
}

/// Whatever the verdict, the total printed is the sum of the lines printed above it; under the verdict 0 it is the amount.
#[test]
fn sheets_add_up() {
    let mut rng = Rng::new(seed(83));
    let mut tally = Tally::new("sheet");
    for _ in 0..cases(120) {
        let network = networks::small(&mut rng);
        let mut plan = plans::right(&mut rng, &network).unwrap_or_else(|| plans::walks(&mut rng, &network));
        if rng.below(3) > 0 {
            let way = rng.below(plans::WAYS);
            plans::spoil(&mut rng, &network, &mut plan, way);
        }
        let octets = input(&network.record(), &plan.record(&network));
        let found = outcome(&listing(&octets));
        tally.add(found);
        if let Outcome::Verdict(verdict) = found {
            let (blocks, total) = numbers_of(&prints(&SHEET, [&octets[..]]));
            assert_eq!((blocks.len(), blocks.iter().sum()), (plan.rows.len(), total), "{plan:?}");
            assert!(verdict > 0 || total == u64::from(plan.amount), "{plan:?}");
        }
    }
    tally.require([Outcome::Verdict(0), Outcome::Verdict(4)], 1);
}

#[test]
fn stopped_while_printing() {
    let (network, plan) = longest();
    let input = input(&network.record(), &plan.record(&network));
    assert_eq!(prints_stopped(&LIST, &input), listing(&input));
}

/// "At most 65,536 octets": with the last of them the network's record has as many octets as its length says, and some remain; without
/// it there are too few. What stands past them is not read.
#[test]
fn longest_input() {
    let (network, _) = right_and_long();
    let with = |length: usize, octets: usize| {
        let mut input = input(&network.record(), &[]);
        input.splice(..2, write_all(&[length as u32]));
        input.resize(octets, 0);
        input
    };
    for (length, octets, refusal) in [
        (INPUT - 3, INPUT, 7),
        (INPUT - 3, INPUT - 1, 1),
        (INPUT - 3, INPUT + 1, 7),
        (INPUT - 2, INPUT, 1),
        (INPUT - 2, INPUT + 1, 1),
        (INPUT - 2, INPUT + 70_000, 1),
    ] {
        let input = with(length, octets);
        assert_eq!(input.len(), octets);
        for piece in [1_000, 4_096, 65_535, 65_536, octets] {
            assert_eq!(assert_prints(&input, piece), Outcome::Refused(refusal), "length {length}, {octets} octets");
        }
    }
}

/// Every refusal and verdict, on records right, nearly right and damaged.
#[test]
fn any_input() {
    let mut rng = Rng::new(seed(81));
    let mut tally = Tally::new("list");
    for case in 0..cases(120) {
        let network = if case % 8 == 0 { networks::any(&mut rng) } else { networks::small(&mut rng) };
        let record = network.record();
        let plan = plans::right(&mut rng, &network).unwrap_or_else(|| plans::walks(&mut rng, &network));
        let mut spoilt = plan.clone();
        let way = rng.below(plans::WAYS);
        plans::spoil(&mut rng, &network, &mut spoilt, way);
        let copy = rng.below(plans::COPIES);
        let whole = input(&record, &plan.record(&network));
        let mut same_ends = network.list();
        same_ends[2] = same_ends[1];
        let inputs = [
            input(&write_all(&same_ends), &plan.record(&network)),
            input(&record, &spoilt.record(&network)),
            input(&record, &damage::octets(&mut rng, &plan.record(&network))),
            input(&record, &carrying(&record, &damage::numbers(&mut rng, &plan.list()))),
            input(&record, &plans::miscopied(&mut rng, &network, &plan, copy)),
            input(&damage::octets(&mut rng, &record), &plan.record(&network)),
            input(&damage::numbers(&mut rng, &network.list()), &plan.record(&network)),
            damage::octets(&mut rng, &whole),
            whole[1..].to_vec(),
            whole,
        ];
        for input in inputs {
            let piece = 1 + rng.below(input.len().max(1));
            tally.add(assert_prints(&input, piece));
        }
    }
    tally.require(refusals((1..=7).chain(14..=18).chain([23])).chain(verdicts()), 1);
}
