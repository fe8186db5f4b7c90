//! Files: read up to a limit, and written so that a failure leaves what was
//! there.

use crate::failure::Failure;
use crate::system;
use std::ffi::OsStr;
use std::fmt;
use std::fs::{self, File, Metadata, OpenOptions};
use std::io::{self, ErrorKind, Read, Write};
use std::os::unix::fs::{fchown, MetadataExt};
use std::path::{Path, PathBuf};
use std::process;

/// A file by its name, or a standard stream.
#[derive(Clone, Debug)]
pub enum Name {
    Standard,
    Path(PathBuf),
}

impl Name {
    pub fn of(word: &OsStr) -> Name {
        if word == "-" {
            Name::Standard
        } else {
            Name::Path(word.into())
        }
    }

    /// The name in a message; `stream` says which standard stream is meant.
    fn told(&self, stream: &str) -> String {
        match self {
            Name::Standard => stream.into(),
            Name::Path(path) if path.as_os_str().is_empty() => "''".into(),
            Name::Path(path) => path.display().to_string(),
        }
    }
}

/// What was read, and from where.
pub struct Input {
    pub octets: Vec<u8>,
    name: Name,
    file: Option<Identity>,
}

impl fmt::Display for Input {
    fn fmt(&self, f: &mut fmt::Formatter<'_>) -> fmt::Result {
        f.write_str(&self.name.told("standard input"))
    }
}

/// Device and number of a regular file: two names of one file have them in
/// common. Terminals and pipes may well be read and written at once.
#[derive(Clone, Copy, PartialEq)]
struct Identity(u64, u64);

impl Identity {
    fn of(found: &Metadata) -> Option<Identity> {
        found.is_file().then(|| Identity(found.dev(), found.ino()))
    }
}

/// Reads a file from its start up to `most` octets; what is longer is cut.
pub fn read(name: &Name, most: u64) -> Result<Input, Failure> {
    let input = || -> io::Result<Input> {
        let file = match name {
            Name::Standard => system::standard_input()?,
            Name::Path(path) => File::open(path)?,
        };
        let identity = Identity::of(&file.metadata()?);
        let mut octets = Vec::new();
        file.take(most).read_to_end(&mut octets)?;
        Ok(Input { octets, name: name.clone(), file: identity })
    };
    input().map_err(|error| Failure::of(name.told("standard input"), &error))
}

/// Where a record goes.
pub struct Output {
    name: String,
    way: Way,
}

enum Way {
    /// Standard output, under whatever name.
    Standard,
    /// A device, a pipe, or a file that another process holds open.
    Straight(PathBuf),
    /// A regular file, or one that is not there yet: written under another
    /// name in the same folder, then renamed.
    Beside(PathBuf),
}

impl Output {
    /// Finds out how a file is to be written. One that an input was read from
    /// is turned down.
    pub fn choose(name: &Name, inputs: &[&Input]) -> Result<Output, Failure> {
        let told = name.told("standard output");
        let fails = |error: io::Error| Failure::of(&told, &error);
        let found = match name {
            Name::Standard => Some(system::standard_output().and_then(|file| file.metadata()).map_err(fails)?),
            Name::Path(path) => present(path).map_err(fails)?,
        };
        if let Some(identity) = found.as_ref().and_then(Identity::of) {
            if let Some(input) = inputs.iter().find(|input| input.file == Some(identity)) {
                return Err(Failure::new(format!("{told} is the file that {input} was read from: nothing is written")));
            }
        }
        let way = match name {
            Name::Standard => Way::Standard,
            Name::Path(path) => way(path, found).map_err(fails)?,
        };
        Ok(Output { name: told, way })
    }

    /// Whether the record goes to standard output, so that the words cannot.
    pub fn is_standard(&self) -> bool {
        matches!(self.way, Way::Standard)
    }

    pub fn write(&self, octets: &[u8]) -> Result<(), Failure> {
        let written = match &self.way {
            Way::Standard => system::standard_output().and_then(|mut file| file.write_all(octets)),
            Way::Straight(path) => write_straight(path, octets),
            Way::Beside(path) => write_beside(path, octets),
        };
        written.map_err(|error| Failure::of(&self.name, &error))
    }
}

/// What stands at a path, links followed; nothing if no file does.
fn present(path: &Path) -> io::Result<Option<Metadata>> {
    match fs::metadata(path) {
        Err(error) if error.kind() == ErrorKind::NotFound => Ok(None),
        found => found.map(Some),
    }
}

fn way(path: &Path, found: Option<Metadata>) -> io::Result<Way> {
    if let Some(found) = &found {
        if found.is_dir() {
            return Err(io::Error::from_raw_os_error(system::EISDIR));
        }
        if is_standard_output(found) {
            return Ok(Way::Standard);
        }
        if !found.is_file() {
            return Ok(Way::Straight(path.into()));
        }
    }
    Ok(match end_of_links(path)? {
        Some(end) => Way::Beside(end),
        None => Way::Straight(path.into()),
    })
}

fn is_standard_output(found: &Metadata) -> bool {
    let standard = system::standard_output().and_then(|file| file.metadata());
    standard.is_ok_and(|standard| (standard.dev(), standard.ino()) == (found.dev(), found.ino()))
}

/// Where the links end that a path may consist of: the file there is replaced,
/// and the links stay. None for a name under /proc, such as /dev/fd/3, which
/// stands for a file that is open already.
fn end_of_links(path: &Path) -> io::Result<Option<PathBuf>> {
    const MOST_LINKS: usize = 40;
    let mut path = path.to_path_buf();
    for _ in 0..MOST_LINKS {
        if fs::canonicalize(folder(&path))?.starts_with("/proc") {
            return Ok(None);
        }
        match fs::read_link(&path) {
            Ok(next) => path = folder(&path).join(next),
            Err(error) if matches!(error.kind(), ErrorKind::InvalidInput | ErrorKind::NotFound) => {
                return Ok(Some(path))
            }
            Err(error) => return Err(error),
        }
    }
    Err(io::Error::from_raw_os_error(system::ELOOP))
}

/// The folder in which a path's last name stands.
fn folder(path: &Path) -> &Path {
    match path.parent() {
        Some(folder) if folder.as_os_str().is_empty() => Path::new("."),
        Some(folder) => folder,
        None => path,
    }
}

fn write_straight(path: &Path, octets: &[u8]) -> io::Result<()> {
    let is_file = fs::metadata(path)?.is_file();
    OpenOptions::new().write(true).truncate(is_file).open(path)?.write_all(octets)
}

fn write_beside(path: &Path, octets: &[u8]) -> io::Result<()> {
    // A file that may not be written is not replaced either.
    let old = match OpenOptions::new().write(true).open(path) {
        Ok(file) => Some(file.metadata()?),
        Err(error) if error.kind() == ErrorKind::NotFound => None,
        Err(error) => return Err(error),
    };
    let (beside, file) = make_beside(path)?;
    let done = fill(file, old, octets).and_then(|()| fs::rename(&beside, path));
    if done.is_err() {
        let _ = fs::remove_file(&beside);
    }
    done
}

/// A new file in the folder of the one that is to be written.
fn make_beside(path: &Path) -> io::Result<(PathBuf, File)> {
    const MOST_TRIES: u32 = 1000;
    let mut tries = 0;
    loop {
        let beside = folder(path).join(format!(".{}-{}-{tries}", crate::PROGRAM, process::id()));
        match OpenOptions::new().write(true).create_new(true).open(&beside) {
            Err(error) if error.kind() == ErrorKind::AlreadyExists && tries < MOST_TRIES => tries += 1,
            made => return made.map(|file| (beside, file)),
        }
    }
}

/// Writes the octets, with the permissions of the file that is replaced.
fn fill(mut file: File, old: Option<Metadata>, octets: &[u8]) -> io::Result<()> {
    if let Some(old) = old {
        keep_permissions(&file, &old)?;
    }
    file.write_all(octets)?;
    // Some file systems tell only here that there was no room.
    match file.sync_all() {
        Err(error) if matches!(error.kind(), ErrorKind::InvalidInput | ErrorKind::Unsupported) => Ok(()),
        done => done,
    }
}

/// Permission bits stay; owner and group as far as the system lets them.
fn keep_permissions(file: &File, old: &Metadata) -> io::Result<()> {
    let new = file.metadata()?;
    if (new.uid(), new.gid()) != (old.uid(), old.gid()) {
        let _ = fchown(file, None, Some(old.gid()));
        let _ = fchown(file, Some(old.uid()), None);
    }
    if new.mode() != old.mode() {
        file.set_permissions(old.permissions())?;
    }
    Ok(())
}
