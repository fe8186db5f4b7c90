//! Reading and writing networks, against the oracle.

use pudeyan::limits::NUMBERS;
use pudeyan_tests::differ::Differ;
use pudeyan_tests::gen::{damage, networks, Rng};
use pudeyan_tests::oracle;
use pudeyan_tests::tally::{cases, refusals, seed, Outcome, Tally};

#[test]
fn read() {
    let mut rng = Rng::new(seed(11));
    let mut differ = Differ::new(rng.draw());
    let mut tally = Tally::new("read");
    let mut check = |record: &[u8]| tally.add(differ.read(record).unwrap_or_else(|m| panic!("{m}")));
    for _ in 0..cases(6_000) {
        let network = networks::any(&mut rng);
        let record = network.record();
        check(&record);
        check(&record[..rng.below(record.len())]);
        for _ in 0..3 {
            check(&damage::octets(&mut rng, &record));
            check(&damage::numbers(&mut rng, &network.list()));
        }
        let small = networks::small(&mut rng);
        for _ in 0..6 {
            check(&damage::numbers(&mut rng, &small.list()));
        }
        let count = rng.below(12);
        check(&rng.octets(count));
    }
    // Every front of a record, and every octet of it changed in every bit.
    let record = networks::small(&mut rng).record();
    for end in 0..=record.len() {
        check(&record[..end]);
    }
    for at in 0..record.len() {
        for bit in 0..8 {
            let mut record = record.clone();
            record[at] ^= 1 << bit;
            check(&record);
        }
    }
    // Every form of the first number, alone and with more behind it.
    for first in 0..=255 {
        for second in [0, 1, 0x7F, 0x80, 0xFF] {
            for third in [0, 1, 0x80, 0xFF] {
                for fourth in [0, 1, 0x7F, 0x80, 0xFF] {
                    let octets = [first, second, third, fourth];
                    for end in 0..=4 {
                        check(&octets[..end]);
                    }
                }
            }
        }
    }
    tally.require(refusals(1..=7).chain([Outcome::Answered]), 200);
}

#[test]
fn write() {
    let mut rng = Rng::new(seed(12));
    let mut differ = Differ::new(rng.draw());
    let mut tally = Tally::new("write");
    let mut check = |numbers: &[u32; NUMBERS], room: usize| {
        tally.add(differ.write(numbers, room).unwrap_or_else(|m| panic!("{m}")));
    };
    for case in 0..cases(4_000) {
        let network = if case % 2 == 0 { networks::any(&mut rng) } else { networks::small(&mut rng) };
        let mut numbers = network.numbers();
        let used = 4 + 4 * network.links.len();
        if rng.one_in(2) {
            // Not looked at.
            numbers[used..].iter_mut().for_each(|n| *n = rng.draw() as u32);
        }
        let needed = network.record().len();
        for room in [needed, needed - 1, 0, rng.below(needed), needed + 1 + rng.below(40)] {
            check(&numbers, room);
        }
        for _ in 0..6 {
            let mut numbers = numbers;
            let at = if rng.one_in(2) { rng.below(8) } else { rng.below(used) };
            numbers[at] = match rng.below(3) {
                0 => *rng.pick(&damage::EDGES),
                1 => numbers[rng.below(used)],
                _ => numbers[at].wrapping_add(rng.within(0, 2)).wrapping_sub(1),
            };
            let needed = oracle::network::write(&numbers).map_or(9, |record| record.len());
            check(&numbers, needed);
            check(&numbers, needed - 1);
        }
        // Loops, where they are not the first fault.
        let mut loops = numbers;
        let e = rng.below(network.links.len());
        loops[4 + 4 * e + 1] = loops[4 + 4 * e];
        check(&loops, 1_541);
    }
    check(&[0; NUMBERS], 0);
    check(&[u32::MAX; NUMBERS], 1_541);
    tally.require(refusals([4, 5, 6, 8]).chain([Outcome::Answered]), 200);
}
