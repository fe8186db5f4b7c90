//! The constants of `include/pudeyan.h`, as a C compiler has them.

use std::collections::{BTreeMap, BTreeSet};
use std::path::{Path, PathBuf};
use std::process::Command;
use std::sync::OnceLock;

/// The folder of the header: PUDEYAN_INCLUDE, else the repository's own.
pub fn folder() -> PathBuf {
    match std::env::var_os("PUDEYAN_INCLUDE") {
        Some(path) => PathBuf::from(path),
        None => Path::new(env!("PUDEYAN_ROOT")).join("include"),
    }
}

/// Every constant by its name.
pub fn constants() -> &'static BTreeMap<String, u64> {
    static CONSTANTS: OnceLock<BTreeMap<String, u64>> = OnceLock::new();
    CONSTANTS.get_or_init(compiled)
}

fn compiled() -> BTreeMap<String, u64> {
    let folder = folder();
    let header = std::fs::read_to_string(folder.join("pudeyan.h")).expect("the header can be read");
    let names = names(&header);
    assert!(!names.is_empty(), "the header has no constants");
    let work = std::env::temp_dir().join(format!("pudeyan-header-{}", std::process::id()));
    std::fs::create_dir_all(&work).expect("a folder for the program");
    let values = run(&folder, &work, &printing(&names));
    std::fs::remove_dir_all(&work).expect("the folder can be removed");
    values
}

/// Names in capitals that start with PUDEYAN_, comments left out; the header
/// has no others but its guard's and its version's, which tests/install compares.
fn names(header: &str) -> BTreeSet<String> {
    let mut text = String::new();
    let mut rest = header;
    while let Some(start) = rest.find("/*") {
        text.push_str(&rest[..start]);
        text.push(' ');
        let end = rest[start..].find("*/").expect("a comment ends");
        rest = &rest[start + end + 2..];
    }
    text.push_str(rest);
    assert!(!text.contains("//"), "the header's comments are those of C89");
    text.split(|c: char| !c.is_ascii_alphanumeric() && c != '_')
        .filter(|word| word.starts_with("PUDEYAN_") && *word != "PUDEYAN_H" && !word.starts_with("PUDEYAN_VERSION"))
        .map(String::from)
        .collect()
}

/// A C program that prints each constant's name and value, and uses each where C wants a constant.
fn printing(names: &BTreeSet<String>) -> String {
    let mut lines = vec!["#include \"pudeyan.h\"".to_string(), "#include <stdio.h>".to_string()];
    lines.push("int main(void) {".to_string());
    for name in names {
        lines.push(format!("enum {{ CONSTANT_{name} = {name} }};"));
        lines.push(format!("printf(\"{name} %lld\\n\", (long long){name});"));
    }
    lines.push("return 0; }".to_string());
    lines.join("\n")
}

fn run(folder: &Path, work: &Path, source: &str) -> BTreeMap<String, u64> {
    let (file, program) = (work.join("constants.c"), work.join("constants"));
    std::fs::write(&file, source).expect("the program can be written");
    let compiled = Command::new("cc")
        .args(["-std=c99", "-Wall", "-Wextra", "-Werror", "-pedantic", "-I"])
        .arg(folder)
        .arg(&file)
        .arg("-o")
        .arg(&program)
        .output()
        .expect("cc runs");
    assert!(compiled.status.success(), "{}", String::from_utf8_lossy(&compiled.stderr));
    let printed = Command::new(&program).output().expect("the program runs");
    assert!(printed.status.success());
    let text = String::from_utf8(printed.stdout).expect("it prints text");
    let value = |line: &str| {
        let (name, number) = line.split_once(' ').expect("a name and a number");
        (name.to_string(), number.parse().unwrap_or_else(|_| panic!("{line}: not a number from 0 on")))
    };
    text.lines().map(value).collect()
}
