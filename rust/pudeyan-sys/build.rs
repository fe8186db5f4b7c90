//! Finds the proved library and has it linked.
//!
//! `PUDEYAN_LIBRARY` names it by an absolute path: an archive (`.a`) is linked
//! statically, a shared library (`libpudeyan.so`) dynamically. Where the
//! variable is not set, `make` in the repository's root has `rt` prove the
//! library and write the archive.
//!
//! Packages that depend on this one find the library's path in
//! `DEP_PUDEYAN_LIBRARY` when their own build scripts run.

use std::env;
use std::fs;
use std::path::{Path, PathBuf};
use std::process::{Command, Stdio};

/// Where `make` puts the archive.
const ARCHIVE: &str = "target/lib/libpudeyan.a";

fn main() {
    println!("cargo:rerun-if-env-changed=PUDEYAN_LIBRARY");
    println!("cargo:rerun-if-changed=build.rs");
    let library = match env::var_os("PUDEYAN_LIBRARY") {
        Some(path) => named(path.into()),
        None => proved(),
    };
    println!("cargo:rerun-if-changed={}", library.display());
    println!("cargo:library={}", library.display());
    match library.extension() {
        Some(kind) if kind == "so" => link_shared(&library),
        _ => link_archive(&library),
    }
}

/// The library that the variable names. Cargo runs this in the package's own
/// folder, so that a relative path would mean another file than it seems to.
fn named(path: PathBuf) -> PathBuf {
    assert!(path.is_absolute(), "PUDEYAN_LIBRARY is {}: no absolute path", path.display());
    assert!(path.is_file(), "PUDEYAN_LIBRARY is {}: there is no such file", path.display());
    path
}

/// The archive that `make` has `rt` prove and write.
fn proved() -> PathBuf {
    let package = PathBuf::from(env::var_os("CARGO_MANIFEST_DIR").expect("cargo sets it"));
    let root = package.join("../..");
    let root = fs::canonicalize(&root).unwrap_or_else(|e| panic!("{}: {e}", root.display()));
    println!("cargo:rerun-if-changed={}", root.join("crates.txt").display());
    for entry in fs::read_dir(root.join("crates")).expect("crates/ can be read").flatten() {
        // what rt leaves in out/ is left aside
        for part in ["src", "specs", "proofs"].map(|name| entry.path().join(name)) {
            if part.is_dir() {
                println!("cargo:rerun-if-changed={}", part.display());
            }
        }
    }
    let status = Command::new("make")
        .args(["-s", ARCHIVE])
        .current_dir(&root)
        .stdout(Stdio::from(std::io::stderr()))
        .status()
        .unwrap_or_else(|e| panic!("make cannot be run ({e}); PUDEYAN_LIBRARY may name a library"));
    assert!(status.success(), "make {ARCHIVE}, in {}: {status}", root.display());
    root.join(ARCHIVE)
}

/// The archive is linked under the library's own name, whatever its file is called.
fn link_archive(archive: &Path) {
    let folder = PathBuf::from(env::var_os("OUT_DIR").expect("cargo sets it"));
    fs::copy(archive, folder.join("libpudeyan.a")).unwrap_or_else(|e| panic!("{}: {e}", archive.display()));
    println!("cargo:rustc-link-search=native={}", folder.display());
    println!("cargo:rustc-link-lib=static=pudeyan");
}

fn link_shared(library: &Path) {
    let folder = library.parent().expect("a whole path has a folder");
    println!("cargo:rustc-link-search=native={}", folder.display());
    println!("cargo:rustc-link-lib=dylib=pudeyan");
}
