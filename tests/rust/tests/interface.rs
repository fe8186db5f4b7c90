//! The C side of the header, compiled as C and as C++, and run.

use std::path::{Path, PathBuf};
use std::process::Command;

const ARCHIVE: &str = env!("PUDEYAN_ARCHIVE");

fn root() -> &'static Path {
    Path::new(env!("PUDEYAN_ROOT"))
}

fn program(name: &str) -> PathBuf {
    Path::new(env!("CARGO_TARGET_TMPDIR")).join(name)
}

fn output(command: &mut Command) -> String {
    let done = command.output().unwrap_or_else(|e| panic!("{command:?}: {e}"));
    let text = String::from_utf8_lossy(&done.stdout).into_owned();
    assert!(done.status.success(), "{command:?}: {text}{}", String::from_utf8_lossy(&done.stderr));
    text
}

/// Compiles a C file against header and library, and answers what it prints.
fn run_c(compiler: &str, flags: &[&str], source: &str, name: &str) -> String {
    let program = program(name);
    output(
        Command::new(compiler)
            .args(["-O1", "-Wall", "-Wextra", "-Werror", "-pedantic"])
            .args(flags)
            .arg("-I")
            .arg(root().join("include"))
            .arg(root().join(source))
            .args(["-x", "none", ARCHIVE, "-o"])
            .arg(&program),
    );
    output(&mut Command::new(program))
}

#[test]
fn interface() {
    print!("counts C {}", run_c("cc", &["-std=c99"], "tests/c/interface.c", "interface_c"));
    print!("counts C++ {}", run_c("cc", &["-std=c++11", "-x", "c++"], "tests/c/interface.c", "interface_cpp"));
}
