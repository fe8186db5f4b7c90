//! Every refusal and verdict that a command line can meet, with its words, its
//! hint and its status. 8, 10 and 13 tell of buffers too short: the program's
//! are not.

mod support;

use support::{hex, Folder, A, A_AMOUNT, A_PLAN, LINK, LINK_PLAN};

/// A record in hexadecimal, and how it is refused: number, words, hint.
type Case = (&'static str, &'static str, &'static str, &'static str);

const NETWORKS: [Case; 13] = [
    ("", "1", "the network's record ends before a number's last octet", "octet 0: the number of places is cut short"),
    ("02", "1", "the network's record ends before a number's last octet", "octet 1: the origin is cut short"),
    (
        "02 00 01 01 00 01 80",
        "1",
        "the network's record ends before a number's last octet",
        "octet 6: the capacity of link 0 is cut short",
    ),
    (
        "80 00",
        "2",
        "a number of the network is not in shortest form",
        "octet 0: the number of places is not in shortest form",
    ),
    (
        "80 80 80",
        "1",
        "the network's record ends before a number's last octet",
        "octet 0: the number of places is cut short",
    ),
    (
        "80 80 80 80",
        "3",
        "a fourth octet in the network has its top bit set",
        "octet 0: the number of places has too many octets",
    ),
    (
        "01",
        "4",
        "a number of the network is outside its limits",
        "octet 0: the number of places is 1, not from 2 to 64",
    ),
    (
        "02 00 01 01 00 02",
        "4",
        "a number of the network is outside its limits",
        "octet 5: the end of link 0 is 2, not from 0 to 1",
    ),
    (
        "02 00 01 01 00 01 91 4E",
        "4",
        "a number of the network is outside its limits",
        "octet 6: the capacity of link 0 is 10001, not from 0 to 10000",
    ),
    (
        "02 00 01 01 00 01 01 E9 07",
        "4",
        "a number of the network is outside its limits",
        "octet 7: the transit of link 0 is 1001, not from 0 to 1000",
    ),
    ("02 00 00", "5", "the destination is the origin", "octet 2: the destination is 0 too"),
    ("02 00 01 01 00 00", "6", "a link ends where it starts", "octet 5: the end of link 0 is 0 too"),
    (
        "02 00 01 01 00 01 01 01 00",
        "7",
        "octets remain after the network's last number",
        "octet 8: octets remain from here on",
    ),
];

fn in_words((_, number, words, hint): Case) -> String {
    format!("refused {number}: {words}\nhint: {hint}\n")
}

fn as_object(job: &str, (_, number, words, hint): Case) -> String {
    let octet = hint["octet ".len()..].split(':').next().unwrap();
    format!(
        "{{\"job\":\"{job}\",\"refused\":{number},\"words\":\"{words}\",\
         \"hint\":{{\"octet\":{octet},\"words\":\"{hint}\"}}}}\n"
    )
}

#[test]
fn every_job_refuses_a_wrong_network() {
    let folder = Folder::new();
    folder.put("old", A_PLAN);
    for case in NETWORKS {
        folder.put("bad", hex(case.0));
        let wanted = in_words(case);
        folder.run(&["plan", "bad", "4", "none"]).says(2, &wanted);
        folder.run(&["plan", "bad", "4", "old"]).says(2, &wanted);
        folder.run(&["most", "bad", "4"]).says(2, &wanted);
        folder.run(&["examine", "bad", "a.plan"]).says(2, &wanted);
        folder.run(&["show", "bad", "a.plan"]).says(2, &wanted);
        folder.run(&["replay", "bad", "a.plan"]).says(2, &wanted);
        folder.run(&["sheet", "bad", "a.plan"]).says(2, &wanted);
        folder.run(&["network", "print", "bad"]).says(2, &wanted);
        folder.run(&["--json", "plan", "bad", "4", "none"]).says(2, &as_object("plan", case));
        folder.run(&["--json", "show", "bad", "a.plan"]).says(2, &as_object("show", case));
        folder.run(&["--json", "sheet", "bad", "a.plan"]).says(2, &as_object("sheet", case));
        folder.run(&["--json", "network", "print", "bad"]).says(2, &as_object("network print", case));
    }
    assert_eq!(folder.get("old"), A_PLAN);
    assert_eq!(folder.names(), ["a.network", "a.plan", "bad", "link", "old"]);
}

const PLANS: [Case; 17] = [
    (
        "",
        "14",
        "the plan's record ends before a number's last octet, or within its copy of the network",
        "octet 0: the length of the network's copy is cut short",
    ),
    (
        "88 00 02 00 01 01 00 01 01 01",
        "15",
        "a number of the plan is not in shortest form",
        "octet 0: the length of the network's copy is not in shortest form",
    ),
    (
        "80 80 80 80",
        "16",
        "a fourth octet in the plan has its top bit set",
        "octet 0: the length of the network's copy has too many octets",
    ),
    (
        "86 0c",
        "17",
        "a number of the plan is outside its limits",
        "octet 0: the length of the network's copy is 1542, not from 0 to 1541",
    ),
    (
        "08 02 00 01 01 00 01 01",
        "14",
        "the plan's record ends before a number's last octet, or within its copy of the network",
        "octet 1: the network's copy is cut short",
    ),
    (
        "08 02 00 01 01 00 01 01 02 00",
        "23",
        "the network that the plan carries is not the one given",
        "octet 8: the network's copy has 2, the network 1",
    ),
    (
        "07 02 00 01 01 00 01 01",
        "23",
        "the network that the plan carries is not the one given",
        "octet 8: the network's copy has 7 octets, the network 8",
    ),
    (
        "00 01 02 00 01 01 01 00 01 01 00 01",
        "23",
        "the network that the plan carries is not the one given",
        "octet 1: the network's copy has 0 octets, the network 8",
    ),
    (
        "08 02 00 01 01 00 01 01 01",
        "14",
        "the plan's record ends before a number's last octet, or within its copy of the network",
        "octet 9: the amount is cut short",
    ),
    (
        "08 02 00 01 01 00 01 01 01 01 02 00",
        "14",
        "the plan's record ends before a number's last octet, or within its copy of the network",
        "octet 12: the cut's number at place 1 is cut short",
    ),
    (
        "08 02 00 01 01 00 01 01 01 80 00",
        "15",
        "a number of the plan is not in shortest form",
        "octet 9: the amount is not in shortest form",
    ),
    (
        "08 02 00 01 01 00 01 01 01 01 80 80 80 80",
        "16",
        "a fourth octet in the plan has its top bit set",
        "octet 10: T has too many octets",
    ),
    (
        "08 02 00 01 01 00 01 01 01 00",
        "17",
        "a number of the plan is outside its limits",
        "octet 9: the amount is 0, not from 1 to 100000000",
    ),
    (
        "08 02 00 01 01 00 01 01 01 01 02 00 01 01 01 01",
        "17",
        "a number of the plan is outside its limits",
        "octet 15: link 0 of row 0 is 1, not from 0 to 0",
    ),
    (
        "08 02 00 01 01 00 01 01 01 01 02 00 01 01 01 00 99 ec 03",
        "17",
        "a number of the plan is outside its limits",
        "octet 16: the length of row 0 is 63001, not from 0 to 63000",
    ),
    (
        "08 02 00 01 01 00 01 01 01 01 02 00 01 01 01 00 01 00",
        "17",
        "a number of the plan is outside its limits",
        "octet 17: the rate of row 0 is 0, not from 1 to 10000",
    ),
    (
        "08 02 00 01 01 00 01 01 01 01 02 00 01 01 01 00 01 01 00 01 00",
        "18",
        "octets remain after the plan's last row",
        "octet 20: octets remain from here on",
    ),
];

#[test]
fn a_wrong_plan_is_refused() {
    let folder = Folder::new();
    for case in PLANS {
        folder.put("bad", hex(case.0));
        folder.run(&["examine", "link", "bad"]).says(2, &in_words(case));
        folder.run(&["show", "link", "bad"]).says(2, &in_words(case));
        folder.run(&["sheet", "link", "bad"]).says(2, &in_words(case));
        folder.run(&["examine", "link", "bad", "--json"]).says(2, &as_object("examine", case));
        folder.run(&["sheet", "link", "bad", "--json"]).says(2, &as_object("sheet", case));
    }
}

#[test]
fn numbers_that_operations_refuse() {
    let folder = Folder::new();
    folder.put("old", A_PLAN);
    for amount in ["0", "100000001", "4294967300", "18446744073709551615"] {
        let words = "refused 11: the amount is not from 1 to 100,000,000\n";
        folder.run(&["plan", "a.network", amount, "none"]).says(2, words);
        folder.run(&["plan", "a.network", amount, "old"]).says(2, words);
    }
    for horizon in ["100063001", "4294967300", "18446744073709551615"] {
        folder.run(&["most", "a.network", horizon]).says(2, "refused 9: the horizon is above 100,063,000\n");
    }
    let mut severed = LINK;
    severed[6] = 0;
    folder.put("severed", severed);
    let words = "no chain of links with capacity leads from origin to archive";
    folder.run(&["plan", "severed", "1", "old"]).says(2, &format!("refused 12: {words}\n"));
    let object = format!("{{\"job\":\"plan\",\"refused\":12,\"words\":\"{words}\"}}\n");
    folder.run(&["plan", "severed", "1", "none", "--json"]).says(2, &object);
    folder.run(&["most", "severed", "9"]).says(0, "most 0\ncut 0 9\n");
    assert_eq!(folder.get("old"), A_PLAN);
    assert!(!folder.path("none").exists());
}

/// A refusal of a plan that was to go to standard output leaves it empty.
#[test]
fn refusals_beside_a_record() {
    let folder = Folder::new();
    let ran = folder.run(&["plan", "a.network", "0", "-"]);
    assert_eq!((ran.status, ran.out.as_str()), (2, ""));
    assert_eq!(ran.err, "pudeyan: refused 11: the amount is not from 1 to 100,000,000\n");
    let ran = folder.run(&["plan", "a.network", "0", "-", "--json"]);
    assert_eq!((ran.status, ran.out.as_str()), (2, ""));
    assert_eq!(ran.err, "{\"job\":\"plan\",\"refused\":11,\"words\":\"the amount is not from 1 to 100,000,000\"}\n");
}

/// Plans for one link, with verdict, bound, words, hint and the hint's places.
const VERDICTS: [(&str, u32, u32, &str, &str, &str); 8] = [
    (
        "08 02 00 01 01 00 01 01 01 01 02 00 01 01 01 00 01 01 00 01",
        0,
        0,
        "the plan is right and no shorter horizon will do",
        "",
        "",
    ),
    (
        "08 02 00 01 01 00 01 01 01 01 02 00 01 01 02 00 00 02 01 00 01",
        1,
        0,
        "a row is no chain from origin to archive",
        "row 0: link 0 starts at place 0, not at 1",
        "\"row\":0,\"link\":0",
    ),
    (
        "08 02 00 01 01 00 01 01 01 02 02 00 01 01 01 00 01 02 00 01",
        2,
        0,
        "a link takes in more than its capacity in some slot",
        "link 0 takes in 2 in slot 0; its capacity is 1",
        "\"link\":0,\"slot\":0",
    ),
    (
        "08 02 00 01 01 00 01 01 01 01 02 00 01 01 01 00 01 01 01 01",
        3,
        0,
        "a row's first slot + departures + length is above T",
        "row 0: 1 + 1 + 1 is 3, above T = 2",
        "\"row\":0",
    ),
    (
        "08 02 00 01 01 00 01 01 01 02 02 00 01 01 01 00 01 01 00 01",
        4,
        0,
        "the rows do not sum to the amount",
        "the rows bring 1, the amount is 2",
        "\"sum\":1",
    ),
    (
        "08 02 00 01 01 00 01 01 01 01 02 01 01 01 01 00 01 01 00 01",
        5,
        0,
        "the cut's numbers are wrong for T - 1",
        "the cut's number at place 0 is 1, not 0 as at the origin",
        "\"place\":0",
    ),
    (
        "08 02 00 01 01 00 01 01 01 01 03 00 02 01 01 00 01 01 00 01",
        6,
        1,
        "the cut's bound is not below the amount",
        "",
        "",
    ),
    (
        "08 02 00 01 01 00 01 01 01 01 02 00 01 01 01 00 02 01 00 01",
        7,
        0,
        "a row's length is not the sum of its transits",
        "row 0: its transits sum to 1, not to 2",
        "\"row\":0",
    ),
];

#[test]
fn every_verdict() {
    let folder = Folder::new();
    for (plan, verdict, bound, words, hint, places) in VERDICTS {
        folder.put("some", hex(plan));
        let status = i32::from(verdict != 0);
        let told = if hint.is_empty() { String::new() } else { format!("hint: {hint}\n") };
        let wanted = format!("verdict {verdict}: {words}\nbound {bound}\n{told}");
        folder.run(&["examine", "link", "some"]).says(status, &wanted);
        let hint = match hint {
            "" => String::new(),
            _ => format!(",\"hint\":{{{places},\"words\":\"{hint}\"}}"),
        };
        let object =
            format!("{{\"job\":\"examine\",\"verdict\":{verdict},\"words\":\"{words}\",\"bound\":{bound}{hint}}}\n");
        folder.run(&["examine", "link", "some", "--json"]).says(status, &object);
        let shown = folder.run(&["show", "link", "some"]);
        assert_eq!((shown.status, shown.out.lines().next()), (0, Some(format!("verdict {verdict}").as_str())));
    }
}

/// What a script relies on.
#[test]
fn only_verdict_0_goes_on() {
    let folder = Folder::new();
    let mut wrong = A_PLAN;
    wrong[A_AMOUNT] = 5;
    folder.put("wrong", wrong);
    folder.put("cut", &A_PLAN[..46]);
    folder.put("another", LINK_PLAN);
    let goes_on = |plan: &str| folder.shell(&format!("\"$0\" examine a.network {plan} >/dev/null && echo deploy")).out;
    assert_eq!(goes_on("a.plan"), "deploy\n");
    for plan in ["wrong", "cut", "another", "missing"] {
        assert_eq!(goes_on(plan), "", "{plan}");
    }
}

/// Files that are longer than any record, and longer than what is read.
#[test]
fn long_files() {
    let folder = Folder::new();
    for length in [65_535, 65_536, 65_537, 70_000, 1_000_000] {
        let longer = |record: &[u8]| [record, &vec![0; length - record.len()]].concat();
        folder.put("long", longer(&A));
        let refused =
            "refused 7: octets remain after the network's last number\nhint: octet 24: octets remain from here on\n";
        folder.run(&["plan", "long", "4", "none"]).says(2, refused);
        folder.run(&["network", "print", "long"]).says(2, refused);
        folder.feed(&["most", "-", "4"], &longer(&A)).says(2, refused);
        folder.put("long", longer(&A_PLAN));
        let refused =
            "refused 18: octets remain after the plan's last row\nhint: octet 47: octets remain from here on\n";
        folder.run(&["examine", "a.network", "long"]).says(2, refused);
        folder.feed(&["show", "a.network", "-"], &longer(&A_PLAN)).says(2, refused);
    }
    // A file without an end.
    let zeros = "refused 4: a number of the network is outside its limits\n\
        hint: octet 0: the number of places is 0, not from 2 to 64\n";
    folder.run(&["most", "/dev/zero", "4"]).says(2, zeros);
}

const LOGS: [Case; 7] = [
    ("00 00 00", "20", LOG_ENTRY, "octet 0: the stamp of entry 0 is cut short"),
    ("00 00 00 00 80", "20", LOG_ENTRY, "octet 4: the link of entry 0 is cut short or misspelled"),
    ("00 00 00 00 05", "20", LOG_ENTRY, "octet 4: the link of entry 0 is 5, not from 0 to 4"),
    (
        "00 00 00 00 00 00 00 00 00 00 04 80 00",
        "20",
        LOG_ENTRY,
        "octet 11: the block count of entry 1 is cut short or misspelled",
    ),
    ("00 00 00 00 00 91 4E", "20", LOG_ENTRY, "octet 5: the block count of entry 0 is 10001, not from 0 to 10000"),
    (
        "01 00 00 00 00 00 00 00 00 00 00 00",
        "21",
        "the stamp of a log's entry is 2,147,483,648 or more from the one before it",
        "octet 6: entry 1 is 4294967295 from the one before it",
    ),
    (
        "00 00 00 00 00 00 19 D7 F6 05 00 00",
        "22",
        "the slot of a log's entry is above 100,063,000",
        "octet 6: entry 1 is in slot 100063001",
    ),
];

const LOG_ENTRY: &str = "an entry of the log is cut short, misspelled or out of limits, or is the 4,097th";

#[test]
fn wrong_logs() {
    let folder = Folder::new();
    for case in LOGS {
        folder.put("log", hex(case.0));
        folder.run(&["replay", "a.network", "log"]).says(2, &in_words(case));
        folder.run(&["replay", "a.network", "log", "--json"]).says(2, &as_object("replay", case));
    }
    folder.put("log", vec![0; 6 * 4_097]);
    let hint = "octet 24576: entry 4096 is one too many";
    folder.run(&["replay", "a.network", "log"]).says(2, &in_words(("", "20", LOG_ENTRY, hint)));
}
