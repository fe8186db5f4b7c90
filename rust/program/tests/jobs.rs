//! Every job, in words and as objects.

mod support;

use pudeyan::{Link, Network, Plan, Row};
use support::{example, root, Folder, Ran, A, A_AMOUNT, A_PLAN, LINK, RIGHT};

/// What planning says of a record; how long it is, is left to the planner.
fn planned(horizon: u32, record: &[u8]) -> String {
    format!("horizon {horizon}\nlength {}\n", record.len())
}

#[test]
fn plan() {
    let folder = Folder::new();
    for amount in ["4", "0004"] {
        let ran = folder.run(&["plan", "a.network", amount, "out"]);
        ran.says(0, &planned(5, &folder.get("out")));
        assert_eq!(pudeyan::examine(A, folder.get("out")).unwrap().verdict.number(), 0);
        std::fs::remove_file(folder.path("out")).unwrap();
    }
    let ran = folder.run(&["--json", "plan", "a.network", "4", "out"]);
    let length = folder.get("out").len();
    ran.says(0, &format!("{{\"job\":\"plan\",\"amount\":4,\"horizon\":5,\"length\":{length}}}\n"));
    assert_eq!(folder.names(), ["a.network", "a.plan", "link", "out"]);
}

/// The examples, with the horizons and mosts that are fixed by them.
#[test]
fn examples() {
    let folder = Folder::new();
    let figures = [
        ("observatory", "1000", 61),
        ("hall", "100", 15),
        ("line", "1000000", 1_063_000),
        ("line", "100000000", 100_063_000),
        ("a", "4", 5),
    ];
    for (name, amount, horizon) in figures {
        let name = format!("{name}.network");
        folder.put(&name, example(&name));
        let ran = folder.run(&["plan", &name, amount, "out"]);
        ran.says(0, &planned(horizon, &folder.get("out")));
        let examined = folder.run(&["examine", &name, "out"]);
        assert_eq!((examined.status, examined.out.lines().next()), (0, Some(RIGHT.trim_end())));
        let most = |horizon: u32| {
            let ran = folder.run(&["most", &name, &horizon.to_string()]);
            let line = ran.out.lines().next().expect("a line").to_string();
            line.strip_prefix("most ").expect("most N").parse::<u64>().unwrap()
        };
        let amount: u64 = amount.parse().unwrap();
        assert!(most(horizon - 1) < amount && amount <= most(horizon), "{name}");
    }
    assert_eq!(example("a.network"), A);
    assert_eq!(example("a.plan"), A_PLAN);
}

#[test]
fn most() {
    let folder = Folder::new();
    folder.run(&["most", "link", "3"]).says(0, "most 2\ncut 0 3\n");
    folder.run(&["most", "link", "0"]).says(0, "most 0\ncut 0 0\n");
    folder.run(&["most", "link", "3", "--json"]).says(0, "{\"job\":\"most\",\"horizon\":3,\"most\":2,\"cut\":[0,3]}\n");
    let last = folder.run(&["most", "a.network", "100063000"]);
    assert_eq!((last.status, last.out.lines().next()), (0, Some("most 200125994")));
}

#[test]
fn examine() {
    let folder = Folder::new();
    folder.run(&["examine", "a.network", "a.plan"]).says(0, &format!("{RIGHT}bound 2\n"));
    let object = "{\"job\":\"examine\",\"verdict\":0,\"words\":\"the plan is right and no shorter horizon will do\",\"bound\":2}\n";
    folder.run(&["examine", "--json", "a.network", "a.plan"]).says(0, object);
}

/// The log of A's plan, and logs with a fault: the finding decides the status.
#[test]
fn replay() {
    let folder = Folder::new();
    let log = example("a.log");
    folder.put("log", &log);
    let kept = "finding 0: capacities are kept and no place sent what had not reached it\n";
    folder.run(&["replay", "a.network", "log"]).says(0, &format!("{kept}delivered 4\n"));
    let object = "{\"job\":\"replay\",\"finding\":0,\
        \"words\":\"capacities are kept and no place sent what had not reached it\",\"delivered\":4}\n";
    folder.run(&["replay", "--json", "a.network", "log"]).says(0, object);
    // Without the last entry slot 3 is the last: two blocks have arrived.
    folder.put("log", &log[..48]);
    folder.run(&["replay", "a.network", "log"]).says(0, &format!("{kept}delivered 2\n"));
    folder.put("log", []);
    folder.run(&["replay", "a.network", "log"]).says(0, &format!("{kept}delivered 0\n"));

    let mut full = log.clone();
    full[17] = 2;
    folder.put("log", &full);
    let words = "a link took more than its capacity in some slot";
    let hint = "link 1 took 2 blocks in slot 1";
    folder.run(&["replay", "a.network", "log"]).says(1, &format!("finding 1: {words}\ndelivered 0\nhint: {hint}\n"));
    let object = format!(
        "{{\"job\":\"replay\",\"finding\":1,\"words\":\"{words}\",\"delivered\":0,\
         \"hint\":{{\"link\":1,\"slot\":1,\"words\":\"{hint}\"}}}}\n"
    );
    folder.run(&["replay", "--json", "a.network", "log"]).says(1, &object);

    let mut early = log.clone();
    early[5] = 1;
    folder.put("log", &early);
    let words = "a place sent more by some slot than had reached it";
    let hint = "up to slot 1 place 1 sent 1 blocks too many";
    folder.run(&["replay", "a.network", "log"]).says(1, &format!("finding 2: {words}\ndelivered 0\nhint: {hint}\n"));
}

const SHOWN: &str = "verdict 0\namount 4 horizon 5\nrow 0 links 0 1 rate 1 first 0 departures 3\n\
    row 1 links 0 2 3 rate 1 first 0 departures 1\ncut 0 1 2 4 bound 2\n";

#[test]
fn show() {
    let folder = Folder::new();
    folder.run(&["show", "a.network", "a.plan"]).says(0, SHOWN);
    let object = "{\"job\":\"show\",\"verdict\":0,\"amount\":4,\"horizon\":5,\"rows\":[\
        {\"links\":[0,1],\"length\":2,\"rate\":1,\"first\":0,\"departures\":3},\
        {\"links\":[0,2,3],\"length\":4,\"rate\":1,\"first\":0,\"departures\":1}],\"cut\":[0,1,2,4],\"bound\":2}\n";
    folder.run(&["show", "a.network", "a.plan", "--json"]).says(0, object);
    // The listing is an answer under every verdict.
    let mut late = A_PLAN;
    late[A_AMOUNT] = 5;
    folder.put("late", late);
    let shown = SHOWN.replace("verdict 0", "verdict 4").replace("amount 4", "amount 5");
    folder.run(&["show", "a.network", "late"]).says(0, &shown);
}

#[test]
fn sheet() {
    let folder = Folder::new();
    let printed = "row 0 blocks 3\nrow 1 blocks 1\ntotal 4\n";
    folder.run(&["sheet", "a.network", "a.plan"]).says(0, printed);
    let object = "{\"job\":\"sheet\",\"blocks\":[3,1],\"total\":4}\n";
    folder.run(&["sheet", "a.network", "a.plan", "--json"]).says(0, object);
    // The total is that of the rows under every verdict.
    let mut missummed = A_PLAN;
    missummed[A_AMOUNT] = 5;
    folder.put("missummed", missummed);
    folder.run(&["sheet", "a.network", "missummed"]).says(0, printed);
}

/// A right plan of 257 rows and far more than 4,096 octets.
fn long_plan() -> (Network, Plan) {
    let links: Vec<Link> = (0..63).map(|v| Link { start: v, end: v + 1, capacity: 257, transit: 1 }).collect();
    let network = Network::new(64, 0, 63, &links).unwrap();
    let row = Row { links: (0..63).collect(), length: 63, rate: 1, first: 0, departures: 1 };
    let plan = Plan::new(&network, 257, 64, (0..64).collect(), vec![row; 257]);
    (network, plan)
}

/// What a proved program, `list` or `sheet`, prints for the same two records.
fn printed(program: &str, network: &[u8], plan: &[u8]) -> Ran {
    let folder = Folder::new();
    let mut length = Vec::new();
    let mut rest = network.len();
    while rest > 127 {
        length.push(128 | (rest % 128) as u8);
        rest /= 128;
    }
    length.push(rest as u8);
    folder.put("input", [&length, network, plan].concat());
    let input = std::fs::File::open(folder.path("input")).unwrap();
    Ran::of(folder.start(folder.text_program(program)).stdin(input).output().unwrap())
}

#[test]
fn show_and_sheet_print_what_the_proved_programs_print() {
    let folder = Folder::new();
    let compare = |network: &[u8], plan: &[u8]| {
        folder.put("network", network);
        folder.put("plan", plan);
        for (job, program) in [("show", "list"), ("sheet", "sheet")] {
            let told = folder.run(&[job, "network", "plan"]);
            assert_eq!((told.status, told.out), (0, printed(program, network, plan).out), "{job}");
        }
    };
    let (network, plan) = long_plan();
    assert!(plan.record().len() > 16_000);
    compare(network.record(), plan.record());
    for amount in [1, 100, 1_000, 1_000_000, 100_000_000] {
        for name in ["a.network", "observatory.network", "hall.network", "line.network"] {
            let network = example(name);
            compare(&network, pudeyan::plan(&network, amount).unwrap().record());
        }
    }
    // Every verdict: the plan of A with one number changed.
    let mut verdicts = [0; 8];
    for at in 0..A_PLAN.len() {
        for number in 0..10 {
            let mut changed = A_PLAN;
            changed[at] = number;
            if let Ok(examined) = pudeyan::examine(A, changed) {
                compare(&A, &changed);
                verdicts[examined.verdict.number() as usize] += 1;
            }
        }
    }
    assert!(verdicts.iter().all(|&count| count > 0), "{verdicts:?}");
}

#[test]
fn records_in_pieces_and_above_4096_octets() {
    let folder = Folder::new();
    let (network, plan) = long_plan();
    folder.put("network", network.record());
    let right = format!("{RIGHT}bound 0\n");
    folder.feed(&["examine", "network", "-"], plan.record()).says(0, &right);
    folder.feed_pieces(&["examine", "network", "-"], plan.record(), 1_000).says(0, &right);
    folder.feed_pieces(&["examine", "-", "a.plan"], &A, 1).says(0, &format!("{RIGHT}bound 2\n"));
    folder.feed_pieces(&["most", "-", "3"], &LINK, 3).says(0, "most 2\ncut 0 3\n");
}

#[test]
fn help_and_version() {
    let folder = Folder::new();
    let help = folder.run(&["--help"]);
    assert_eq!((help.status, help.err.as_str()), (0, ""));
    for job in ["plan NETWORK AMOUNT OUT", "most NETWORK HORIZON", "examine NETWORK PLAN"] {
        assert!(help.out.contains(&format!("pudeyan {job} ")), "{job}");
    }
    for job in ["show NETWORK PLAN", "sheet NETWORK PLAN", "network pack TEXT OUT", "network print NETWORK"] {
        assert!(help.out.contains(&format!("pudeyan {job} ")), "{job}");
    }
    assert_eq!(folder.run(&["plan", "--help"]), help);
    let version = std::fs::read_to_string(root().join("VERSION")).unwrap();
    folder.run(&["--version"]).says(0, &format!("pudeyan {version}"));
}

#[test]
fn wrong_usage() {
    let folder = Folder::new();
    let tells = "; pudeyan --help tells the usage";
    let none: [&str; 0] = [];
    folder.run(&none).fails(&format!("a job is missing{tells}"));
    for word in ["", "pla", "plans", "help", "Plan"] {
        folder.run(&[word, "a.network", "4", "none"]).fails(&format!("there is no job {word}{tells}"));
    }
    folder.run(&["network"]).fails(&format!("network is followed by pack or print{tells}"));
    folder.run(&["network", "show"]).fails(&format!("network is followed by pack or print{tells}"));
    for option in ["-x", "--jso", "--json=1", "-1"] {
        folder.run(&["plan", "a.network", "4", "none", option]).fails(&format!("there is no option {option}{tells}"));
    }
    for words in ["plan a.network 4", "plan a.network 4 none more"] {
        let words: Vec<&str> = words.split(' ').collect();
        folder.run(&words).fails("the words are: pudeyan plan NETWORK AMOUNT OUT");
    }
    folder.run(&["most", "a.network"]).fails("the words are: pudeyan most NETWORK HORIZON");
    folder.run(&["examine", "a.network"]).fails("the words are: pudeyan examine NETWORK PLAN");
    folder.run(&["show", "a", "b", "c"]).fails("the words are: pudeyan show NETWORK PLAN");
    folder.run(&["network", "pack", "a"]).fails("the words are: pudeyan network pack TEXT OUT");
    folder.run(&["network", "print"]).fails("the words are: pudeyan network print NETWORK");
    folder.run(&["examine", "-", "-"]).fails("standard input can be read only once");
    assert_eq!(folder.names(), ["a.network", "a.plan", "link"]);
}

#[test]
fn wrong_numbers() {
    let folder = Folder::new();
    let large = ["18446744073709551616", "184467440737095516150", "99999999999999999999999"];
    for word in ["", "4x", "x4", "+4", " 4", "4.", "0x4", ":", "/", "٤"].into_iter().chain(large) {
        folder.run(&["plan", "a.network", word, "none"]).fails("AMOUNT is not a decimal number below 2^64");
        folder.run(&["most", "a.network", word]).fails("HORIZON is not a decimal number below 2^64");
    }
    assert_eq!(folder.names(), ["a.network", "a.plan", "link"]);
}

/// Names that look like options, or like nothing in particular.
#[test]
fn odd_names() {
    use std::ffi::OsStr;
    use std::os::unix::ffi::OsStrExt;
    let folder = Folder::new();
    folder.put("-x", A);
    let ran = folder.run(&["plan", "--", "-x", "4", "--json"]);
    ran.says(0, &planned(5, &folder.get("--json")));
    let (odd, out) = (OsStr::from_bytes(b"n\xFF\n.network"), OsStr::from_bytes(b"o\xFE"));
    folder.put(odd, A);
    let ran = folder.run(&["plan".as_ref(), odd, "4".as_ref(), out]);
    ran.says(0, &planned(5, &folder.get(out)));
    let missing = folder.run(&["most".as_ref(), OsStr::from_bytes(b"m\xFF"), "4".as_ref()]);
    missing.fails("m\u{FFFD}: No such file or directory");
}
