//! Every constant of the header against what the library does: a limit is
//! accepted and the number past it is not, each refusal and verdict is what
//! some call answers. A constant that no test here knows is a failure.

use pudeyan::lent::{examine, most, plan, read_network, replay, write_network};
use pudeyan::limits::NUMBERS;
use pudeyan::Refusal;
use pudeyan_sys::lent as ffi;
use pudeyan_tests::header;
use pudeyan_tests::oracle::network::{Link, Network};
use pudeyan_tests::oracle::numbers::write_all;
use pudeyan_tests::oracle::plan::carrying;
use pudeyan_tests::oracle::replay::{self as logs, Entry};
use std::collections::BTreeSet;

/// Network A of document 01, and its plan for 4 blocks.
const A: [u32; 24] = [4, 0, 3, 5, 0, 1, 2, 1, 1, 3, 1, 1, 1, 2, 1, 1, 2, 3, 1, 2, 0, 2, 1, 3];
/// From the amount on.
const A_PLAN: [u32; 22] = [4, 5, 0, 1, 2, 4, 2, 2, 0, 1, 2, 1, 0, 3, 3, 0, 2, 3, 4, 1, 0, 1];

const LIMITS: u32 = 4;
const PLAN_LIMITS: u32 = 17;

fn a() -> Vec<u8> {
    write_all(&A)
}

/// What reading says of a network of so many places and links, each link with the capacity and transit.
fn read(places: u64, links: u64, capacity: u64, transit: u64) -> u32 {
    let record = record(places, links, capacity, transit);
    match read_network(&record) {
        Ok(_) => 0,
        Err(refusal) => refusal.number(),
    }
}

fn record(places: u64, links: u64, capacity: u64, transit: u64) -> Vec<u8> {
    let link = Link { start: 0, end: 1, capacity: capacity as u32, transit: transit as u32 };
    let links = vec![link; links as usize];
    Network { places: places as u32, origin: 0, destination: 1, links }.record()
}

/// What examining says of A's plan with the number at a position replaced.
fn examined_with(at: usize, number: u64) -> u32 {
    let mut list = A_PLAN;
    list[at] = number as u32;
    refusal_of(&list)
}

/// A plan of these numbers, which carries A.
fn plan_of(list: &[u32]) -> Vec<u8> {
    carrying(&a(), &write_all(list))
}

/// The refusal of a plan for A, 0 if it has a verdict.
fn refusal_of(list: &[u32]) -> u32 {
    match examine(&a(), &plan_of(list)) {
        Ok(_) => 0,
        Err(refusal) => refusal.number(),
    }
}

/// The verdict of a plan for A.
fn verdict_of(list: &[u32]) -> u32 {
    examine(&a(), &plan_of(list)).expect("the plan can be read").verdict.number()
}

/// A number of A's plan: at the limit it is not refused for it, one above it is.
fn most_in_plan(at: usize, value: u64) {
    assert_ne!(examined_with(at, value), PLAN_LIMITS, "number {at} at {value}");
    assert_eq!(examined_with(at, value + 1), PLAN_LIMITS, "number {at} above {value}");
}

fn refused<T: std::fmt::Debug>(answer: Result<T, Refusal>) -> u32 {
    answer.expect_err("the call is refused").number()
}

/// A plan of so many rows over A, each of so many links back and forth; and its refusal.
fn rows(count: u64, links: u64) -> u32 {
    let mut list = vec![1, 5, 0, 1, 2, 4, count as u32];
    for _ in 0..count {
        list.push(links as u32);
        list.extend((0..links).map(|_| 0));
        list.extend([0, 1, 0, 1]);
    }
    refusal_of(&list)
}

// The limits: each is handed the header's value.

fn places(value: u64) {
    assert_eq!([read(value, 1, 1, 1), read(value + 1, 1, 1, 1)], [0, LIMITS]);
}

fn links(value: u64) {
    assert_eq!([read(2, value, 1, 1), read(2, value + 1, 1, 1)], [0, LIMITS]);
}

/// Of capacities, and of rates.
fn capacity(value: u64) {
    assert_eq!([read(2, 1, value, 1), read(2, 1, value + 1, 1)], [0, LIMITS]);
    most_in_plan(11, value);
}

/// From 0 on.
fn transit(value: u64) {
    assert_eq!([read(2, 1, 1, 0), read(2, 1, 1, value), read(2, 1, 1, value + 1)], [0, 0, LIMITS]);
}

/// Of amounts to be planned, and of amounts in a plan.
fn amount(value: u64) {
    let mut buffer = vec![0; pudeyan::limits::PLAN_BUFFER];
    assert!(plan(&a(), value, &mut buffer).is_ok());
    assert_eq!(refused(plan(&a(), value + 1, &mut buffer)), 11);
    most_in_plan(0, value);
}

/// Of horizons to be tried, and in a plan of T, of cut numbers, first slots and departures.
fn horizon(value: u64) {
    assert!(most(&a(), value, &mut [0; 4]).is_ok());
    assert_eq!(refused(most(&a(), value + 1, &mut [0; 4])), 9);
    for at in [1, 2, 3, 4, 5, 12, 13] {
        most_in_plan(at, value);
    }
}

fn length(value: u64) {
    most_in_plan(10, value);
}

fn row_count(value: u64) {
    assert_eq!([rows(value, 1), rows(value + 1, 1)], [0, PLAN_LIMITS]);
}

fn row_links(value: u64) {
    assert_eq!([rows(1, value), rows(1, value + 1)], [0, PLAN_LIMITS]);
}

/// Reading fills just so many numbers, the last of which is the last link's transit; writing looks at it.
fn numbers(value: u64) {
    let (count, record) = (value as usize, record(2, 256, 7, 9));
    let mut lent = vec![u32::MAX; count.max(NUMBERS) + 8];
    let table: &mut [u32; NUMBERS] = (&mut lent[..NUMBERS]).try_into().expect("so many numbers");
    assert_eq!(ffi::read_network(&record, table), 0);
    assert_eq!(lent[count - 4..count], [0, 1, 7, 9]);
    assert!(lent[count..].iter().all(|n| *n == u32::MAX));
    lent[count - 1] = 1_001;
    let table: &[u32; NUMBERS] = lent[..NUMBERS].try_into().expect("so many numbers");
    assert_eq!(refused(write_network(table, &mut [0; 4096])), LIMITS);
}

/// The longest record of a network is written to so many octets and not to one fewer, and no plan carries more.
fn network_octets(value: u64) {
    let copied = |octets: u64| refused(examine(&a(), &carrying(&vec![0; octets as usize], &[])));
    assert_eq!([copied(value), copied(value + 1)], [23, PLAN_LIMITS]);
    let numbers = read_network(&record(64, 256, 10_000, 1_000)).expect("a network");
    assert_eq!(write_network(&numbers, &mut vec![0; value as usize]), Ok(value as usize));
    assert_eq!(refused(write_network(&numbers, &mut vec![0; value as usize - 1])), 8);
}

/// The longest record of a plan has so many octets: every number with as many groups as its limits allow.
fn plan_octets(value: u64) {
    let network = record(64, 256, 10_000, 1_000);
    let mut list = vec![100_000_000, 100_063_000];
    list.extend([100_063_000; 64]);
    list.push(257);
    for _ in 0..257 {
        list.push(63);
        list.extend([255; 63]);
        list.extend([63_000, 10_000, 100_063_000, 100_063_000]);
    }
    let mut octets = carrying(&network, &write_all(&list));
    assert_eq!(octets.len() as u64, value);
    assert!(examine(&network, &octets).is_ok());
    octets.push(0);
    assert_eq!(refused(examine(&network, &octets)), 18);
}

fn plan_buffer(value: u64) {
    assert!(plan(&a(), 4, &mut vec![0; value as usize]).is_ok());
    assert_eq!(refused(plan(&a(), 4, &mut vec![0; value as usize - 1])), 13);
}

/// What replaying says of a log for A: a refusal, or 0 and the finding.
fn replayed(entries: &[Entry]) -> (u32, u32) {
    match replay(&a(), &logs::record(entries)) {
        Ok(found) => (0, found.finding.number()),
        Err(refusal) => (refusal.number(), 0),
    }
}

fn entry(stamp: u64, blocks: u64) -> Entry {
    Entry { stamp: stamp as u32, link: 0, blocks: blocks as u32 }
}

fn log_entries(value: u64) {
    let entries = |count: u64| vec![entry(0, 0); count as usize];
    assert_eq!([replayed(&entries(value)), replayed(&entries(value + 1))], [(0, 0), (20, 0)]);
}

fn log_blocks(value: u64) {
    assert_eq!([replayed(&[entry(0, value)]), replayed(&[entry(0, value + 1)])], [(0, 1), (20, 0)]);
}

fn log_slot(value: u64) {
    let after = |slots: u64| replayed(&[entry(9, 0), entry(9 + slots, 0)]);
    assert_eq!([after(value), after(value + 1)], [(0, 0), (22, 0)]);
}

/// The longest log has so many octets: every number with as many groups as its limits allow.
fn log_octets(value: u64) {
    let network = record(64, 256, 10_000, 1_000);
    let log = logs::record(&[Entry { stamp: 0, link: 255, blocks: 10_000 }; 4_096]);
    assert_eq!(log.len() as u64, value);
    assert!(replay(&network, &log).is_ok());
    assert_eq!(refused(replay(&network, &[&log[..], &[0]].concat())), 20);
}

/// tests/stack.rs runs each function with just that much: whole pages.
fn stack(value: u64) {
    assert!(value > 0 && value % 4096 == 0, "{value} octets of stack");
}

type Check = fn(u64);

const LIMIT_CONSTANTS: [(&str, Check); 23] = [
    ("PUDEYAN_PLACES_MOST", places),
    ("PUDEYAN_LINKS_MOST", links),
    ("PUDEYAN_CAPACITY_MOST", capacity),
    ("PUDEYAN_TRANSIT_MOST", transit),
    ("PUDEYAN_AMOUNT_MOST", amount),
    ("PUDEYAN_HORIZON_MOST", horizon),
    ("PUDEYAN_ROWS_MOST", row_count),
    ("PUDEYAN_ROW_LINKS_MOST", row_links),
    ("PUDEYAN_LENGTH_MOST", length),
    ("PUDEYAN_NUMBERS", numbers),
    ("PUDEYAN_NETWORK_OCTETS", network_octets),
    ("PUDEYAN_PLAN_OCTETS", plan_octets),
    ("PUDEYAN_PLAN_BUFFER", plan_buffer),
    ("PUDEYAN_LOG_ENTRIES_MOST", log_entries),
    ("PUDEYAN_LOG_BLOCKS_MOST", log_blocks),
    ("PUDEYAN_LOG_SLOT_MOST", log_slot),
    ("PUDEYAN_LOG_OCTETS", log_octets),
    ("PUDEYAN_STACK_READ", stack),
    ("PUDEYAN_STACK_WRITE", stack),
    ("PUDEYAN_STACK_MOST", stack),
    ("PUDEYAN_STACK_PLAN", stack),
    ("PUDEYAN_STACK_EXAMINE", stack),
    ("PUDEYAN_STACK_REPLAY", stack),
];

/// What the library answers where document 01 wants each refusal; 0 for a call that is not refused.
fn refusals() -> [(&'static str, u32); 23] {
    let with = |at: usize, number: u32| {
        let mut list = A;
        list[at] = number;
        refused(read_network(&write_all(&list)))
    };
    let octets = |octets: &[u8]| refused(read_network(octets));
    let plan_octets = |octets: &[u8]| refused(examine(&a(), octets));
    let longer = |octets: Vec<u8>| [&octets[..], &[0]].concat();
    let idle = Network { places: 2, origin: 0, destination: 1, links: vec![] };
    let idle = Network { links: vec![Link { start: 0, end: 1, capacity: 0, transit: 1 }], ..idle };
    let table = read_network(&a()).expect("A");
    let mut buffer = vec![0; pudeyan::limits::PLAN_BUFFER];
    [
        ("PUDEYAN_DONE", ffi::read_network(&a(), &mut [0; NUMBERS])),
        ("PUDEYAN_NETWORK_ENDS", octets(&[0x80, 0x80, 0x80])),
        ("PUDEYAN_NETWORK_NOT_SHORTEST", octets(&[0x80, 0x00])),
        ("PUDEYAN_NETWORK_CONTINUES", octets(&[0x80, 0x80, 0x80, 0x80])),
        ("PUDEYAN_NETWORK_LIMITS", with(7, 1_001)),
        ("PUDEYAN_SAME_ENDS", with(2, 0)),
        ("PUDEYAN_LINK_LOOP", with(5, 0)),
        ("PUDEYAN_NETWORK_REMAINS", octets(&longer(a()))),
        ("PUDEYAN_BUFFER_SHORT", refused(write_network(&table, &mut [0; 23]))),
        ("PUDEYAN_HORIZON_LIMITS", refused(most(&a(), 100_063_001, &mut [0; 4]))),
        ("PUDEYAN_CUT_SHORT", refused(most(&a(), 5, &mut [0; 3]))),
        ("PUDEYAN_AMOUNT_LIMITS", refused(plan(&a(), 100_000_001, &mut buffer))),
        ("PUDEYAN_NO_CHAIN", refused(plan(&idle.record(), 1, &mut buffer))),
        ("PUDEYAN_PLAN_BUFFER_SHORT", refused(plan(&a(), 1, &mut [0; 38_911]))),
        ("PUDEYAN_PLAN_ENDS", plan_octets(&[0x80, 0x80, 0x80])),
        ("PUDEYAN_PLAN_NOT_SHORTEST", plan_octets(&[0x80, 0x00])),
        ("PUDEYAN_PLAN_CONTINUES", plan_octets(&[0x80, 0x80, 0x80, 0x80])),
        ("PUDEYAN_PLAN_LIMITS", examined_with(0, 0)),
        ("PUDEYAN_PLAN_REMAINS", plan_octets(&longer(plan_of(&A_PLAN)))),
        ("PUDEYAN_LOG_ENTRY", refused(replay(&a(), &[0]))),
        ("PUDEYAN_LOG_DISTANCE", replayed(&[entry(9, 0), entry(8, 0)]).0),
        ("PUDEYAN_LOG_SLOT", replayed(&[entry(0, 0), entry(100_063_001, 0)]).0),
        ("PUDEYAN_ANOTHER_NETWORK", plan_octets(&carrying(&idle.record(), &[]))),
    ]
}

/// What the library says of plans for A to which document 01 gives each verdict.
fn verdicts() -> [(&'static str, u32); 8] {
    [
        ("PUDEYAN_RIGHT", verdict_of(&A_PLAN)),
        ("PUDEYAN_NOT_A_CHAIN", verdict_of(&[4, 5, 0, 1, 2, 4, 1, 1, 0, 1, 1, 0, 4])),
        ("PUDEYAN_OVERLOADED", verdict_of(&[6, 5, 0, 1, 2, 4, 1, 2, 0, 1, 2, 2, 0, 3])),
        ("PUDEYAN_LATE", verdict_of(&[4, 5, 0, 1, 2, 4, 1, 2, 0, 1, 2, 1, 0, 4])),
        ("PUDEYAN_WRONG_SUM", verdict_of(&[5, 5, 0, 1, 2, 4, 1, 2, 0, 1, 2, 1, 0, 3])),
        ("PUDEYAN_WRONG_CUT", verdict_of(&[3, 5, 0, 1, 2, 3, 1, 2, 0, 1, 2, 1, 0, 3])),
        ("PUDEYAN_BOUND_TOO_HIGH", verdict_of(&[2, 5, 0, 1, 2, 4, 1, 2, 0, 1, 2, 1, 0, 2])),
        ("PUDEYAN_WRONG_LENGTH", verdict_of(&[3, 5, 0, 1, 2, 4, 1, 2, 0, 1, 3, 1, 0, 3])),
    ]
}

/// What the library finds in logs for A to which document 02 gives each finding.
fn findings() -> [(&'static str, u32); 3] {
    let early = [Entry { stamp: 0, link: 1, blocks: 1 }];
    [
        ("PUDEYAN_KEPT", replayed(&[]).1),
        ("PUDEYAN_OVERFULL", replayed(&[entry(0, 2), entry(0, 1)]).1),
        ("PUDEYAN_OVERSENT", replayed(&early).1),
    ]
}

#[test]
fn limits() {
    let header = header::constants();
    for (name, check) in LIMIT_CONSTANTS {
        println!("{name} {}", header[name]);
        check(header[name]);
    }
}

#[test]
fn answers() {
    let header = header::constants();
    for (name, answer) in refusals().into_iter().chain(verdicts()).chain(findings()) {
        assert_eq!(header[name], u64::from(answer), "{name}");
    }
}

#[test]
fn no_other_constants() {
    let in_header: BTreeSet<&str> = header::constants().keys().map(|name| name.as_str()).collect();
    let answers = refusals().into_iter().chain(verdicts()).chain(findings()).map(|(name, _)| name);
    let known: BTreeSet<&str> = LIMIT_CONSTANTS.iter().map(|(name, _)| *name).chain(answers).collect();
    println!("counts header: {} constants", known.len());
    assert_eq!(in_header, known);
}
