//! Networks as text: what is read, what is printed, and what is wrong with a
//! line.

mod support;

use pudeyan::{Link, Network};
use support::{example, hex, root, Folder, Ran, A};

const HEADER: &str = "start end capacity(blocks/slot) transit(slots)";

const A_TEXT: &str = "places 4\norigin 0\ndestination 3\nstart end capacity(blocks/slot) transit(slots)\n\
    0 1 2 1\n1 3 1 1\n1 2 1 1\n2 3 1 2\n0 2 1 3\n";

/// Packs a text; the record, or how it was refused.
fn pack(text: impl AsRef<[u8]>) -> Result<Vec<u8>, Ran> {
    let folder = Folder::new();
    folder.put("text", text);
    let ran = folder.run(&["network", "pack", "text", "out"]);
    if ran.status != 0 {
        assert_eq!(folder.names(), ["a.network", "a.plan", "link", "text"]);
        return Err(ran);
    }
    Ok(folder.get("out"))
}

#[track_caller]
fn is_faulty(text: impl AsRef<[u8]>, faults: &[&str]) {
    let ran = pack(text).expect_err("there is a fault");
    let told: String = faults.iter().map(|fault| format!("pudeyan: text: {fault}\n")).collect();
    assert_eq!((ran.status, ran.out.as_str(), ran.err), (2, "", told));
}

#[track_caller]
fn is_refused(text: impl AsRef<[u8]>, lines: &str) {
    pack(text).expect_err("it is refused").says(2, lines);
}

#[test]
fn print() {
    let folder = Folder::new();
    folder.run(&["network", "print", "a.network"]).says(0, A_TEXT);
    folder.feed(&["network", "print", "-"], &A).says(0, A_TEXT);
    let object = "{\"job\":\"network print\",\"places\":2,\"origin\":0,\"destination\":1,\
        \"links\":[{\"start\":0,\"end\":1,\"capacity\":1,\"transit\":1}]}\n";
    folder.run(&["network", "print", "link", "--json"]).says(0, object);
}

#[test]
fn pack_tells_what_it_made() {
    let folder = Folder::new();
    folder.put("text", A_TEXT);
    folder.run(&["network", "pack", "text", "out"]).says(0, "places 4\nlinks 5\nlength 24\n");
    assert_eq!(folder.get("out"), A);
    let object = "{\"job\":\"network pack\",\"places\":4,\"links\":5,\"length\":24}\n";
    folder.run(&["network", "pack", "text", "out", "--json"]).says(0, object);
    let done = folder.command(&["network", "pack", "text", "-"]).output().unwrap();
    assert_eq!(done.stdout, A);
    assert_eq!(done.stderr, b"pudeyan: places 4\npudeyan: links 5\npudeyan: length 24\n");
}

/// Names, comments, spaces, other line ends, leading zeros, and no line end.
#[test]
fn many_ways_to_say_one_network() {
    let text = format!(
        "# network A\r\n\n  places 04 # of them\nplace 1 relay\ndestination Archiv-\u{e4}.2\nplace 3 Archiv-\u{e4}.2\n\
         \torigin\t0\nplace 0 start\n{}\nstart relay 2 1\n1 3 001 1\n\n relay 2 1 1#\n2 Archiv-\u{e4}.2 1 2\n0 2 1 3",
        HEADER.replace(' ', "   ")
    );
    assert_eq!(pack(text).unwrap(), A);
    let commented = [b"# \xFF\xFE any octets may stand here\n", A_TEXT.as_bytes()].concat();
    assert_eq!(pack(commented).unwrap(), A);
}

fn draw(state: &mut u64, low: u32, high: u32) -> u32 {
    *state = state.wrapping_mul(6_364_136_223_846_793_005).wrapping_add(1_442_695_040_888_963_407);
    low + ((*state >> 33) % u64::from(high - low + 1)) as u32
}

fn random_network(state: &mut u64) -> Network {
    let places = draw(state, 2, 64);
    let pair = |state: &mut u64| {
        let first = draw(state, 0, places - 1);
        (first, (first + draw(state, 1, places - 1)) % places)
    };
    let (origin, destination) = pair(state);
    let links: Vec<Link> = (0..draw(state, 1, 256))
        .map(|_| {
            let (start, end) = pair(state);
            Link { start, end, capacity: draw(state, 0, 10_000), transit: draw(state, 0, 1_000) }
        })
        .collect();
    Network::new(places, origin, destination, &links).unwrap()
}

#[test]
fn printed_text_reads_back() {
    let folder = Folder::new();
    let mut state = 14;
    let examples = ["a", "hall", "line", "observatory", "severed"].map(|name| example(&format!("{name}.network")));
    let random = (0..40).map(|_| random_network(&mut state).record().to_vec());
    for record in examples.into_iter().chain(random.collect::<Vec<_>>()) {
        folder.put("network", &record);
        let printed = folder.run(&["network", "print", "network"]);
        assert_eq!(pack(&printed.out).unwrap(), record);
        let network = Network::decode(&record).unwrap();
        assert_eq!(printed.out.lines().count(), 4 + network.links().len(), "one line a link");
    }
}

/// The examples are shipped in both forms.
#[test]
fn examples_are_the_same_in_both_forms() {
    let mut found = 0;
    for entry in std::fs::read_dir(root().join("examples")).unwrap() {
        let name = entry.unwrap().file_name().into_string().unwrap();
        if let Some(stem) = name.strip_suffix(".network") {
            assert_eq!(pack(example(&format!("{stem}.text"))).unwrap(), example(&name), "{name}");
            found += 1;
        }
    }
    assert!(found >= 4);
}

#[test]
fn statements_that_are_missing() {
    let rest = format!("{HEADER}\n0 1 1 1\n");
    let head = "places 2\norigin 0\ndestination 1\n";
    is_faulty(
        "",
        &[
            "line 1: there is no origin",
            "line 1: there is no destination",
            "line 1: there is no number of places",
            "line 1: there is no line 'start end capacity(blocks/slot) transit(slots)', nor links after it",
        ],
    );
    is_faulty(format!("origin 0\ndestination 1\n{rest}"), &["line 4: there is no number of places"]);
    is_faulty(format!("places 2\ndestination 1\n{rest}"), &["line 4: there is no origin"]);
    is_faulty(format!("places 2\norigin 0\n{rest}"), &["line 4: there is no destination"]);
    is_faulty(
        format!("{head}0 1 1 1\n"),
        &[
            "line 4: '0' starts no statement: places, place, origin, destination, or the header 'start ..'",
            "line 4: there is no line 'start end capacity(blocks/slot) transit(slots)', nor links after it",
        ],
    );
}

#[test]
fn faults_of_statements() {
    let rest = format!("{HEADER}\n0 1 1 1\n");
    let head = "places 2\norigin 0\ndestination 1\n";
    is_faulty(format!("{head}places 2\n{rest}"), &["line 4: the number of places is given twice"]);
    is_faulty(format!("{head}origin 1\n{rest}"), &["line 4: the origin is given twice"]);
    is_faulty(format!("{head}destination 1\n{rest}"), &["line 4: the destination is given twice"]);
    is_faulty(format!("{head}places\n{rest}"), &["line 4: the statement is places N"]);
    is_faulty(format!("{head}place 0\n{rest}"), &["line 4: the statement is place NUMBER NAME"]);
    is_faulty(format!("{head}origin 0 1\n{rest}"), &["line 4: the statement is origin PLACE"]);
    is_faulty(format!("{head}destination\n{rest}"), &["line 4: the statement is destination PLACE"]);
    is_faulty(
        format!("places x\norigin 0\ndestination 1\n{rest}"),
        &["line 1: 'x' is not a decimal number", "line 5: there is no number of places"],
    );
    is_faulty(
        format!("places 2\norigin north\ndestination 1\n{rest}"),
        &["line 2: 'north' is neither a number nor the name of a place"],
    );
    is_faulty(
        "places 2\norigin 0\ndestination 1\nstart end capacity transit\n0 1 1 1\n",
        &[
            "line 4: the header is 'start end capacity(blocks/slot) transit(slots)'",
            "line 5: '0' starts no statement: places, place, origin, destination, or the header 'start ..'",
            "line 5: there is no line 'start end capacity(blocks/slot) transit(slots)', nor links after it",
        ],
    );
    is_faulty([head.as_bytes(), b"\xFF\n", rest.as_bytes()].concat(), &["line 4: it is not UTF-8"]);
}

#[test]
fn faults_of_names() {
    let with = |line: &str| format!("places 2\nplace 0 north\n{line}\norigin 0\ndestination 1\n{HEADER}\n0 1 1 1\n");
    is_faulty(with("place 1 north"), &["line 3: the name 'north' is given twice"]);
    is_faulty(with("place 0 south"), &["line 3: place 0 has a name already"]);
    is_faulty(with("place 2 south"), &["line 3: place 2 is not below the number of places, 2"]);
    is_faulty(with("place x south"), &["line 3: 'x' is not a decimal number"]);
    for name in ["1st", "-a", "a/b", "a,b", "_"] {
        let words = format!("line 3: '{name}' is no name: a letter, then letters, digits, '-', '_' or '.'");
        is_faulty(with(&format!("place 1 {name}")), &[&words]);
    }
    let early = format!("place 0 north\nplaces 2\norigin 0\ndestination 1\n{HEADER}\n0 1 1 1\n");
    is_faulty(early, &["line 1: the number of places comes first: places N"]);
}

#[test]
fn faults_of_links() {
    let with = |lines: &str| format!("places 2\norigin 0\ndestination 1\n{HEADER}\n0 1 1 1\n{lines}\n");
    is_faulty(
        with("0 1 1\n0 1 1 1\n0 1 1 1 1\n# a comment\nnorth 1 1 1\n0 1 x 1\n0 1 1 -1\n0 1 1 4294967296\norigin 0"),
        &[
            "line 6: a link is start, end, capacity and transit: 4 words, and here are 3",
            "line 8: a link is start, end, capacity and transit: 4 words, and here are 5",
            "line 10: 'north' is neither a number nor the name of a place",
            "line 11: 'x' is not a decimal number",
            "line 12: '-1' is not a decimal number",
            "line 13: 4294967296 is too large",
            "line 14: a link is start, end, capacity and transit: 4 words, and here are 2",
        ],
    );
    let many: Vec<String> =
        (6..26).map(|line| format!("line {line}: 'x' is neither a number nor the name of a place")).collect();
    let many: Vec<&str> = many.iter().map(String::as_str).chain(["3 more faults"]).collect();
    is_faulty(with(&"x 1 1 1\n".repeat(23)), &many);
    // Names may be given after they are used, and still the lines are in order.
    is_faulty(
        format!("places 2\norigin north\ndestination 1\n{HEADER}\n0 1 x 1\n"),
        &["line 2: 'north' is neither a number nor the name of a place", "line 5: 'x' is not a decimal number"],
    );
    let folder = Folder::new();
    folder.put("text", with("0 1 x 1"));
    let object = "{\"job\":\"network pack\",\"faults\":[{\"line\":6,\"words\":\"'x' is not a decimal number\"}]}\n";
    folder.run(&["network", "pack", "text", "out", "--json"]).says(2, object);
}

/// Numbers that the library refuses, each with its line.
#[test]
fn numbers_outside_their_limits() {
    let text = |places: &str, origin: &str, destination: &str, links: &str| {
        format!("# head\nplaces {places}\norigin {origin}\ndestination {destination}\n{HEADER}\n{links}\n")
    };
    let limits = |hint: &str| format!("refused 4: a number of the network is outside its limits\nhint: {hint}\n");
    let one = "0 1 1 1";
    is_refused(text("1", "0", "1", one), &limits("line 2: the number of places is 1, not from 2 to 64"));
    is_refused(text("65", "0", "1", one), &limits("line 2: the number of places is 65, not from 2 to 64"));
    is_refused(text("2", "2", "1", one), &limits("line 3: the origin is 2, not from 0 to 1"));
    is_refused(text("2", "0", "9", one), &limits("line 4: the destination is 9, not from 0 to 1"));
    is_refused(text("2", "0", "1", ""), &limits("line 5: the number of links is 0, not from 1 to 256"));
    for count in [257, 300] {
        let words = format!("line 262: the number of links is {count}, not from 1 to 256");
        is_refused(text("2", "0", "1", &"0 1 1 1\n".repeat(count)), &limits(&words));
    }
    is_refused(text("2", "0", "1", "0 1 1 1\n2 1 1 1"), &limits("line 7: the start of link 1 is 2, not from 0 to 1"));
    is_refused(text("2", "0", "1", "\n0 2 1 1"), &limits("line 7: the end of link 0 is 2, not from 0 to 1"));
    is_refused(
        text("2", "0", "1", "0 1 10001 1"),
        &limits("line 6: the capacity of link 0 is 10001, not from 0 to 10000"),
    );
    is_refused(text("2", "0", "1", "0 1 1 1001"), &limits("line 6: the transit of link 0 is 1001, not from 0 to 1000"));
    let same = "refused 5: the destination is the origin\nhint: line 4: the destination is 1 too\n";
    is_refused(text("2", "1", "1", one), same);
    let turned = "refused 6: a link ends where it starts\nhint: line 7: the end of link 1 is 1 too\n";
    is_refused(text("2", "0", "1", "0 1 1 1\n1 1 1 1"), turned);
    assert_eq!(pack(text("2", "0", "1", "0 1 10000 1000")).unwrap(), hex("02 00 01 01 00 01 90 4E E8 07"));
    assert_eq!(pack(text("2", "0", "1", "0 1 1 0")).unwrap(), hex("02 00 01 01 00 01 01 00"));
}

#[test]
fn a_long_text() {
    let comment = format!("#{}\n", "x".repeat(1 << 20));
    let fits = &comment[..(1 << 20) - A_TEXT.len() - 1];
    assert_eq!(pack(format!("{fits}\n{A_TEXT}")).unwrap(), A);
    let ran = pack(format!("{fits}x\n{A_TEXT}")).unwrap_err();
    ran.fails("text: the text is longer than 1048576 octets");
    assert_eq!(pack(&A[..]).unwrap_err().status, 2);
}
