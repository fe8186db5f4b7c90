//! A folder for each test, the program run in it, and records to run it on.
#![allow(dead_code)]

use std::ffi::OsStr;
use std::fs;
use std::io::Write;
use std::os::unix::fs::{chown, MetadataExt, PermissionsExt};
use std::os::unix::process::CommandExt;
use std::path::{Path, PathBuf};
use std::process::{Command, Output, Stdio};
use std::sync::atomic::{AtomicU32, Ordering};

/// Whom the programs run as where the tests are run by root: someone who can
/// change nothing but the test's own folder. A wrong program that is handed a
/// device must not be able to replace it.
pub const NOBODY: u32 = 65_534;

pub fn is_root() -> bool {
    fs::metadata("/proc/self").unwrap().uid() == 0
}

/// The scope paper's network and plan.
pub const A: [u8; 24] = [4, 0, 3, 5, 0, 1, 2, 1, 1, 3, 1, 1, 1, 2, 1, 1, 2, 3, 1, 2, 0, 2, 1, 3];
pub const A_PLAN: [u8; 47] = [
    24, 4, 0, 3, 5, 0, 1, 2, 1, 1, 3, 1, 1, 1, 2, 1, 1, 2, 3, 1, 2, 0, 2, 1, 3, 4, 5, 0, 1, 2, 4, 2, 2, 0, 1, 2, 1, 0,
    3, 3, 0, 2, 3, 4, 1, 0, 1,
];
/// Where the plan's amount stands, behind the copy of A.
pub const A_AMOUNT: usize = 25;

/// One link of capacity 1 and transit 1, and the right plan for 1 block.
pub const LINK: [u8; 8] = [2, 0, 1, 1, 0, 1, 1, 1];
pub const LINK_PLAN: [u8; 20] = [8, 2, 0, 1, 1, 0, 1, 1, 1, 1, 2, 0, 1, 1, 1, 0, 1, 1, 0, 1];

pub const RIGHT: &str = "verdict 0: the plan is right and no shorter horizon will do\n";

pub fn root() -> PathBuf {
    Path::new(env!("CARGO_MANIFEST_DIR")).join("../..")
}

/// The octets of an example.
pub fn example(name: &str) -> Vec<u8> {
    let path = root().join("examples").join(name);
    fs::read(&path).unwrap_or_else(|e| panic!("{}: {e}", path.display()))
}

/// What a run left behind.
#[derive(Debug, PartialEq)]
pub struct Ran {
    pub status: i32,
    pub out: String,
    pub err: String,
}

impl Ran {
    pub fn of(done: Output) -> Ran {
        let text = |octets: Vec<u8>| String::from_utf8_lossy(&octets).into_owned();
        Ran {
            status: done.status.code().expect("no signal ends the program"),
            out: text(done.stdout),
            err: text(done.stderr),
        }
    }

    /// It printed that on standard output and nothing else.
    #[track_caller]
    pub fn says(&self, status: i32, out: &str) {
        assert_eq!((self.status, self.out.as_str(), self.err.as_str()), (status, out, ""));
    }

    /// It failed with that message, and printed nothing else.
    #[track_caller]
    pub fn fails(&self, message: &str) {
        let err = format!("pudeyan: {message}\n");
        assert_eq!((self.status, self.out.as_str(), self.err.as_str()), (3, "", err.as_str()));
    }
}

/// Copies a program by another process: one that this process has open for
/// writing while another test starts a child could not be run.
fn copy_program(from: &Path, to: &Path) {
    assert!(Command::new("cp").arg(from).arg(to).status().unwrap().success());
}

/// A folder that goes when the test ends, and beside it what is run in it.
pub struct Folder(PathBuf);

impl Folder {
    /// A folder with the records in it.
    pub fn new() -> Folder {
        static COUNT: AtomicU32 = AtomicU32::new(0);
        let name = format!("pudeyan-test-{}-{}", std::process::id(), COUNT.fetch_add(1, Ordering::Relaxed));
        let folder = Folder(std::env::temp_dir().join(name));
        fs::create_dir(&folder.0).unwrap();
        fs::set_permissions(&folder.0, fs::Permissions::from_mode(0o755)).unwrap();
        folder.make_folder("");
        copy_program(Path::new(env!("CARGO_BIN_EXE_pudeyan")), &folder.program());
        folder.put("a.network", A);
        folder.put("a.plan", A_PLAN);
        folder.put("link", LINK);
        folder
    }

    /// A copy that whoever runs it can reach.
    pub fn program(&self) -> PathBuf {
        self.0.join("pudeyan")
    }

    /// A copy of a program in Rattle: `list` or `sheet`.
    pub fn text_program(&self, name: &str) -> PathBuf {
        let program = root().join("target/bin").join(name);
        assert!(program.is_file(), "there is no {}: make texts makes it", program.display());
        let copy = self.0.join(name);
        copy_program(&program, &copy);
        copy
    }

    pub fn path(&self, name: impl AsRef<Path>) -> PathBuf {
        self.0.join("work").join(name)
    }

    /// Gives what stands there to whom the program runs as.
    pub fn hand_over(&self, name: impl AsRef<Path>) {
        if is_root() {
            chown(self.path(name), Some(NOBODY), Some(NOBODY)).unwrap();
        }
    }

    pub fn make_folder(&self, name: &str) {
        fs::create_dir(self.path(name)).unwrap();
        self.hand_over(name);
    }

    pub fn put(&self, name: impl AsRef<Path>, octets: impl AsRef<[u8]>) {
        fs::write(self.path(&name), octets).unwrap();
        self.hand_over(name);
    }

    pub fn get(&self, name: impl AsRef<Path>) -> Vec<u8> {
        fs::read(self.path(name)).unwrap()
    }

    /// Every name in the folder, in order: nothing was left beside.
    pub fn names(&self) -> Vec<String> {
        let entries = fs::read_dir(self.path("")).unwrap().map(|entry| entry.unwrap());
        let mut names: Vec<String> = entries.map(|entry| entry.file_name().to_string_lossy().into_owned()).collect();
        names.sort();
        names
    }

    /// A program in the folder, with nothing on standard input.
    pub fn start(&self, program: impl AsRef<OsStr>) -> Command {
        let mut command = Command::new(program);
        command.current_dir(self.path("")).stdin(Stdio::null());
        if is_root() {
            command.uid(NOBODY).gid(NOBODY);
        }
        command
    }

    pub fn command(&self, words: &[impl AsRef<OsStr>]) -> Command {
        let mut command = self.start(self.program());
        command.args(words);
        command
    }

    pub fn run(&self, words: &[impl AsRef<OsStr>]) -> Ran {
        Ran::of(self.command(words).output().unwrap())
    }

    /// Runs with octets on standard input, which is a pipe.
    pub fn feed(&self, words: &[impl AsRef<OsStr>], octets: &[u8]) -> Ran {
        self.feed_pieces(words, octets, usize::MAX)
    }

    /// The same, so many octets at a time.
    pub fn feed_pieces(&self, words: &[impl AsRef<OsStr>], octets: &[u8], size: usize) -> Ran {
        let mut command = self.command(words);
        let mut child = command.stdin(Stdio::piped()).stdout(Stdio::piped()).stderr(Stdio::piped()).spawn().unwrap();
        let mut input = child.stdin.take().unwrap();
        for piece in octets.chunks(size) {
            // The program may have read enough.
            if input.write_all(piece).is_err() {
                break;
            }
        }
        drop(input);
        Ran::of(child.wait_with_output().unwrap())
    }

    /// Runs a line of the shell in the folder; `$0` is the program.
    pub fn shell(&self, line: &str) -> Ran {
        Ran::of(self.start("sh").args(["-c", line]).arg(self.program()).output().unwrap())
    }
}

impl Drop for Folder {
    fn drop(&mut self) {
        let _ = fs::remove_dir_all(&self.0);
    }
}

/// The octets that are written in hexadecimal, spaces between.
pub fn hex(text: &str) -> Vec<u8> {
    text.split_whitespace().map(|word| u8::from_str_radix(word, 16).unwrap()).collect()
}
