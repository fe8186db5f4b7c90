//! Files, pipes and devices; what cannot be read or written; what stays.

mod support;

use std::fs;
use std::io::{Read, Write};
use std::os::unix::fs::{symlink, FileTypeExt, MetadataExt, OpenOptionsExt, PermissionsExt};
use std::process::{Command, Stdio};
use support::{is_root, Folder, Ran, A, A_PLAN, NOBODY, RIGHT};

const OLD: &[u8] = b"what was there before";

/// A plan for network A and 4 blocks.
#[track_caller]
fn is_a_plan(record: &[u8]) {
    let plan = pudeyan::Plan::decode(A, record).expect("a plan's record");
    assert_eq!((plan.amount(), plan.horizon()), (4, 5));
}

/// A text whose record has the most octets, 1,541.
fn large_text() -> String {
    let link = "62 63 10000 1000\n".repeat(256);
    format!("places 64\norigin 62\ndestination 63\nstart end capacity(blocks/slot) transit(slots)\n{link}")
}

#[test]
fn a_record_to_standard_output_has_its_words_beside_it() {
    let folder = Folder::new();
    // By every name of it, to a pipe and to a file.
    for out in ["-", "/dev/stdout", "/proc/self/fd/1", "/dev/fd/1"] {
        let done = folder.command(&["plan", "a.network", "4", out]).output().unwrap();
        is_a_plan(&done.stdout);
        let words = format!("pudeyan: horizon 5\npudeyan: length {}\n", done.stdout.len());
        assert_eq!((done.status.code(), String::from_utf8(done.stderr).unwrap()), (Some(0), words), "{out}");
        let ran = folder.shell(&format!("\"$0\" plan a.network 4 {out} >file"));
        assert_eq!((ran.status, ran.out.as_str()), (0, ""));
        is_a_plan(&folder.get("file"));
    }
    let ran = folder.shell("\"$0\" plan a.network 4 file >file");
    assert_eq!((ran.status, ran.out.as_str()), (0, ""));
    is_a_plan(&folder.get("file"));
    let done = folder.command(&["--json", "plan", "a.network", "4", "-"]).output().unwrap();
    is_a_plan(&done.stdout);
    let object = format!("{{\"job\":\"plan\",\"amount\":4,\"horizon\":5,\"length\":{}}}\n", done.stdout.len());
    assert_eq!(String::from_utf8(done.stderr).unwrap(), object);
}

#[test]
fn pipes() {
    let folder = Folder::new();
    let ran = folder.shell("\"$0\" plan - 4 - <a.network 2>/dev/null | \"$0\" examine a.network -");
    assert_eq!((ran.status, ran.out.starts_with(RIGHT), ran.err.as_str()), (0, true, ""));
    let ran = folder.shell("\"$0\" network print a.network | \"$0\" network pack - - 2>/dev/null | cmp - a.network");
    ran.says(0, "");
    let ran = folder.shell("cat a.network | \"$0\" plan /dev/stdin 4 out && cat a.plan | \"$0\" examine a.network -");
    assert_eq!((ran.status, ran.err.as_str()), (0, ""));
    is_a_plan(&folder.get("out"));
}

#[test]
fn a_named_pipe_stays_one() {
    const O_NONBLOCK: i32 = 0o4000;
    let folder = Folder::new();
    assert!(folder.start("mkfifo").arg("pipe").status().unwrap().success());
    // Open on both sides, so that neither the program nor this test waits.
    let pipe = fs::OpenOptions::new().read(true).write(true).custom_flags(O_NONBLOCK).open(folder.path("pipe"));
    let ran = folder.run(&["plan", "a.network", "4", "pipe"]);
    let mut read = [0; 4_096];
    let length = pipe.unwrap().read(&mut read).expect("the record is in the pipe");
    is_a_plan(&read[..length]);
    ran.says(0, &format!("horizon 5\nlength {length}\n"));
    assert!(fs::metadata(folder.path("pipe")).unwrap().file_type().is_fifo());
    assert_eq!(folder.names(), ["a.network", "a.plan", "link", "pipe"]);
}

#[test]
fn descriptors_of_the_caller_are_written_straight() {
    let folder = Folder::new();
    let number = || fs::metadata(folder.path("file")).unwrap().ino();
    for (out, stream) in [("/dev/fd/3", "3<>file"), ("/dev/stderr", "2>file")] {
        folder.put("file", [0; 100]);
        let before = number();
        let plan = format!("\"$0\" plan a.network 4 {out} {stream} >/dev/null");
        let ran = folder.shell(&format!("{plan} && \"$0\" examine a.network file"));
        assert_eq!((ran.status, ran.err.as_str()), (0, ""), "{out}");
        assert_eq!(number(), before, "what the caller has open as {out} was replaced");
    }
}

#[test]
fn devices() {
    let folder = Folder::new();
    let null = fs::metadata("/dev/null").unwrap();
    let ran = folder.run(&["plan", "a.network", "4", "/dev/null"]);
    assert_eq!((ran.status, ran.err.as_str()), (0, ""));
    let after = fs::metadata("/dev/null").unwrap();
    assert_eq!((after.ino(), after.file_type().is_char_device()), (null.ino(), true));
    // A device may well be read and written at once.
    let empty = folder.run(&["plan", "/dev/null", "4", "/dev/null"]);
    assert_eq!((empty.status, empty.out.lines().next().map(|line| &line[..10])), (2, Some("refused 1:")));
    folder.run(&["plan", "a.network", "4", "/dev/full"]).fails("/dev/full: No space left on device");
    assert!(fs::metadata("/dev/full").unwrap().file_type().is_char_device());
}

#[test]
fn output_that_is_lost_is_told() {
    let folder = Folder::new();
    let jobs = ["plan a.network 4 -", "plan a.network 4 out", "most a.network 4", "examine a.network a.plan"];
    let others = ["show a.network a.plan", "network print a.network", "--help", "--version", "most missing 4"];
    for job in jobs.into_iter().chain(others) {
        let full = folder.shell(&format!("\"$0\" {job} >/dev/full"));
        let closed = folder.shell(&format!("\"$0\" {job} >&-"));
        if job == "most missing 4" {
            full.fails("missing: No such file or directory");
            continue;
        }
        full.fails("standard output: No space left on device");
        closed.fails("standard output: Bad file descriptor");
    }
    folder.shell("\"$0\" most - 4 <&-").fails("standard input: Bad file descriptor");
    // Nobody hears of it, but the status tells.
    let unheard = folder.shell("\"$0\" most a.network 4 >/dev/full 2>/dev/full");
    assert_eq!((unheard.status, unheard.err.as_str()), (3, ""));
    let unheard = folder.shell("\"$0\" plan a.network 4 - 2>/dev/full >/dev/null");
    assert_eq!(unheard.status, 3);
}

#[test]
fn a_pipe_that_nobody_reads() {
    let folder = Folder::new();
    let mut command = folder.command(&["show", "a.network", "-"]);
    let mut child = command.stdin(Stdio::piped()).stdout(Stdio::piped()).stderr(Stdio::piped()).spawn().unwrap();
    drop(child.stdout.take());
    child.stdin.take().unwrap().write_all(&A_PLAN).unwrap();
    Ran::of(child.wait_with_output().unwrap()).fails("standard output: Broken pipe");
}

#[test]
fn out_that_is_an_input() {
    let folder = Folder::new();
    fs::hard_link(folder.path("a.network"), folder.path("hard")).unwrap();
    symlink("a.network", folder.path("soft")).unwrap();
    let text = "places 2\norigin 0\ndestination 1\nstart end capacity(blocks/slot) transit(slots)\n0 1 1 1\n";
    folder.put("text", text);
    for out in ["a.network", "./a.network", "hard", "soft"] {
        let words = format!("{out} is the file that a.network was read from: nothing is written");
        folder.run(&["plan", "a.network", "4", out]).fails(&words);
        // It is told before anything else would be.
        folder.run(&["plan", "a.network", "0", out]).fails(&words);
        let words = format!("{out} is the file that standard input was read from: nothing is written");
        folder.shell(&format!("\"$0\" plan - 4 {out} <a.network")).fails(&words);
    }
    let words = "standard output is the file that a.network was read from: nothing is written";
    folder.shell("\"$0\" plan a.network 4 - >>a.network").fails(words);
    folder
        .run(&["network", "pack", "text", "text"])
        .fails("text is the file that text was read from: nothing is written");
    assert_eq!((folder.get("a.network"), folder.get("text")), (A.to_vec(), text.into()));
    assert_eq!(folder.names(), ["a.network", "a.plan", "hard", "link", "soft", "text"]);
}

#[test]
fn links_stay_and_lead_to_the_record() {
    let folder = Folder::new();
    folder.make_folder("sub");
    folder.put("sub/file", OLD);
    symlink("sub/file", folder.path("one")).unwrap();
    symlink(folder.path("one"), folder.path("two")).unwrap();
    symlink("sub/new", folder.path("dangling")).unwrap();
    symlink("round", folder.path("round")).unwrap();
    symlink("sub", folder.path("folder")).unwrap();
    for (out, end) in [("two", "sub/file"), ("dangling", "sub/new"), ("folder/there", "sub/there")] {
        let ran = folder.run(&["plan", "a.network", "4", out]);
        assert_eq!((ran.status, ran.err.as_str()), (0, ""), "{out}");
        is_a_plan(&folder.get(end));
        assert!(fs::symlink_metadata(folder.path(end)).unwrap().is_file());
    }
    for link in ["one", "two", "dangling", "round", "folder"] {
        assert!(fs::symlink_metadata(folder.path(link)).unwrap().is_symlink(), "{link}");
    }
    folder.run(&["plan", "a.network", "4", "round"]).fails("round: Too many levels of symbolic links");
}

#[test]
fn permissions_stay() {
    let folder = Folder::new();
    for mode in [0o600, 0o644, 0o640, 0o604, 0o755] {
        folder.put("out", OLD);
        fs::set_permissions(folder.path("out"), fs::Permissions::from_mode(mode)).unwrap();
        assert_eq!(folder.run(&["plan", "a.network", "4", "out"]).status, 0);
        is_a_plan(&folder.get("out"));
        assert_eq!(fs::metadata(folder.path("out")).unwrap().mode() & 0o7777, mode);
    }
    for (mask, mode) in [("022", 0o644), ("077", 0o600), ("000", 0o666)] {
        let ran = folder.shell(&format!("rm -f out; umask {mask}; \"$0\" plan a.network 4 out"));
        assert_eq!(ran.status, 0);
        assert_eq!(fs::metadata(folder.path("out")).unwrap().mode() & 0o7777, mode, "umask {mask}");
    }
}

#[test]
fn what_cannot_be_read() {
    let folder = Folder::new();
    let long = "a".repeat(5_000);
    let cases = [
        ("missing", "No such file or directory"),
        ("", "No such file or directory"),
        (".", "Is a directory"),
        ("a.network/x", "Not a directory"),
        (long.as_str(), "File name too long"),
    ];
    for (name, reason) in cases {
        let told = if name.is_empty() { "''" } else { name };
        let words = format!("{told}: {reason}");
        folder.run(&["plan", name, "4", "none"]).fails(&words);
        folder.run(&["most", name, "4"]).fails(&words);
        folder.run(&["examine", name, "a.plan"]).fails(&words);
        folder.run(&["examine", "a.network", name]).fails(&words);
        folder.run(&["show", "a.network", name]).fails(&words);
        folder.run(&["network", "print", name]).fails(&words);
        folder.run(&["network", "pack", name, "none"]).fails(&words);
        folder.run(&["network", "pack", name, "none", "--json"]).fails(&words);
    }
    folder.shell("\"$0\" most - 4 <.").fails("standard input: Is a directory");
    assert_eq!(folder.names(), ["a.network", "a.plan", "link"]);
}

#[test]
fn what_cannot_be_written() {
    let folder = Folder::new();
    let long = "a".repeat(300);
    let cases = [
        ("no/where", "No such file or directory"),
        ("", "No such file or directory"),
        (".", "Is a directory"),
        ("a.plan/x", "Not a directory"),
        (long.as_str(), "File name too long"),
    ];
    for (name, reason) in cases {
        let told = if name.is_empty() { "''" } else { name };
        folder.run(&["plan", "a.network", "4", name]).fails(&format!("{told}: {reason}"));
    }
    assert_eq!(folder.names(), ["a.network", "a.plan", "link"]);
}

#[test]
fn what_permissions_forbid() {
    let folder = Folder::new();
    let allow = |name: &str, mode| fs::set_permissions(folder.path(name), fs::Permissions::from_mode(mode)).unwrap();
    folder.make_folder("closed");
    folder.make_folder("open");
    for name in ["closed/out", "open/out", "hidden"] {
        folder.put(name, OLD);
    }
    // A file that may not be read, one that may not be changed, and a folder.
    allow("hidden", 0o000);
    allow("open/out", 0o444);
    allow("closed", 0o555);
    folder.run(&["most", "hidden", "4"]).fails("hidden: Permission denied");
    folder.run(&["plan", "a.network", "4", "open/out"]).fails("open/out: Permission denied");
    folder.run(&["plan", "a.network", "4", "closed/out"]).fails("closed/out: Permission denied");
    folder.run(&["plan", "a.network", "4", "closed/new"]).fails("closed/new: Permission denied");
    assert_eq!((folder.get("open/out"), folder.get("closed/out")), (OLD.into(), OLD.into()));
    let ran = folder.run(&["plan", "a.network", "4", "open/new"]);
    assert_eq!((ran.status, ran.err.as_str()), (0, ""));
    is_a_plan(&folder.get("open/new"));
    allow("closed", 0o755);
}

/// A limit on the size of files ends the write in the middle: the record has
/// 1,541 octets, and the shell counts 512 or 1,024 for 1.
#[test]
fn an_interrupted_write_leaves_what_was_there() {
    let folder = Folder::new();
    folder.put("text", large_text());
    folder.put("old", OLD);
    let names = folder.names();
    for out in ["old", "new"] {
        let ran = folder.shell(&format!("ulimit -f 1; \"$0\" network pack text {out}"));
        ran.fails(&format!("{out}: File too large"));
    }
    assert_eq!(folder.get("old"), OLD);
    assert_eq!(folder.names(), names);
    let ran = folder.shell("ulimit -f 1; \"$0\" network pack text - >file");
    assert_eq!((ran.status, ran.err.as_str()), (3, "pudeyan: standard output: File too large\n"));
    folder.shell("\"$0\" network pack text old").says(0, "places 64\nlinks 256\nlength 1541\n");
    assert_eq!(folder.get("old").len(), 1_541);
}

/// Owner and group stay where the system lets them, as it lets root.
#[test]
fn owners_stay() {
    let folder = Folder::new();
    folder.put("out", OLD);
    let mut command = Command::new(folder.program());
    command.args(["plan", "a.network", "4", "out"]).current_dir(folder.path(""));
    assert!(command.output().unwrap().status.success());
    is_a_plan(&folder.get("out"));
    let found = fs::metadata(folder.path("out")).unwrap();
    let myself = fs::metadata("/proc/self").unwrap();
    let owner = if is_root() { (NOBODY, NOBODY) } else { (myself.uid(), myself.gid()) };
    assert_eq!((found.uid(), found.gid()), owner);
}

/// No reader ever sees half a record: the name is moved to the new file.
#[test]
fn a_file_is_replaced_as_a_whole() {
    let folder = Folder::new();
    folder.put("out", OLD);
    fs::hard_link(folder.path("out"), folder.path("kept")).unwrap();
    assert_eq!(folder.run(&["plan", "a.network", "4", "out"]).status, 0);
    is_a_plan(&folder.get("out"));
    assert_eq!(folder.get("kept"), OLD);
}
