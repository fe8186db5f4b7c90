//! fuzz [SEED [COUNT]]: compares the library with the oracle on changed
//! records; ends with status 1 and the records at the first difference.

use pudeyan_tests::fuzzing;

fn main() {
    let mut words = std::env::args().skip(1).map(|w| w.parse::<u64>());
    let (seed, count) = match (words.next(), words.next(), words.next()) {
        (None, _, _) => (1, 100_000),
        (Some(Ok(seed)), None, _) => (seed, 100_000),
        (Some(Ok(seed)), Some(Ok(count)), None) if count > 0 => (seed, count),
        _ => {
            eprintln!("usage: fuzz [SEED [COUNT]], COUNT above 0");
            std::process::exit(2);
        }
    };
    match fuzzing::run(seed, count) {
        Ok(report) => {
            for tally in [&report.read, &report.write, &report.examine, &report.replay, &report.most, &report.plan] {
                println!("{tally}");
            }
            println!("fuzz: seed {seed}, {count} rounds, {} pairs kept, no difference", report.kept);
        }
        Err(difference) => {
            println!("fuzz: {difference}");
            std::process::exit(1);
        }
    }
}
