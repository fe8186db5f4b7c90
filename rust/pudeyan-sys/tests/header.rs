//! The declarations beside the header's: the same constants with the same
//! values, the same functions with the same parameters, in the same order.

use std::fs;
use std::path::Path;

fn text(path: &str) -> String {
    let path = Path::new(env!("CARGO_MANIFEST_DIR")).join(path);
    fs::read_to_string(&path).unwrap_or_else(|e| panic!("{}: {e}", path.display()))
}

/// The text without what stands between `open` and `close`, both included.
fn without(text: &str, open: &str, close: &str) -> String {
    let mut kept = String::new();
    let mut rest = text;
    while let Some((before, after)) = rest.split_once(open) {
        kept.push_str(before);
        kept.push(' ');
        rest = after.split_once(close).map_or("", |(_, after)| after);
    }
    kept + rest
}

fn header() -> String {
    without(&text("../../include/pudeyan.h"), "/*", "*/")
}

fn declarations() -> String {
    without(&text("src/lib.rs"), "//", "\n")
}

/// Every `PUDEYAN_NAME` that is followed by `=` and a number.
fn constants(text: &str) -> Vec<(String, u64)> {
    let mut found = Vec::new();
    for part in text.split("PUDEYAN_").skip(1) {
        let Some((name, after)) = part.split_once('=') else { continue };
        let name = name.split(':').next().unwrap_or(name).trim();
        let digits: String =
            after.trim_start().chars().take_while(|c| c.is_ascii_digit() || *c == '_').filter(|c| *c != '_').collect();
        if name.chars().all(|c| c.is_ascii_uppercase() || c == '_') && !digits.is_empty() {
            found.push((name.to_string(), digits.parse().unwrap()));
        }
    }
    found
}

/// A function's name and its parameters, each as name and Rust type.
type Function = (String, Vec<(String, String)>);

/// The functions of a text: each name that starts with `pudeyan_` and has a
/// list of parameters, taken apart by `parameter`.
fn functions(text: &str, parameter: fn(&str) -> (String, String)) -> Vec<Function> {
    let mut found = Vec::new();
    for part in text.split("pudeyan_").skip(1) {
        let Some((name, after)) = part.split_once('(') else { continue };
        if !name.chars().all(|c| c.is_ascii_lowercase() || c == '_') {
            continue;
        }
        let (list, _) = after.split_once(')').expect("a list of parameters ends");
        let list = list.split(',').map(str::trim).filter(|p| !p.is_empty()).map(parameter).collect();
        found.push((name.to_string(), list));
    }
    found
}

/// `const uint8_t *record` or `uint32_t numbers[N]`.
fn c_parameter(text: &str) -> (String, String) {
    let pointer = text.contains('*') || text.contains('[');
    let text = text.split('[').next().unwrap().replace('*', " ");
    let mut words: Vec<&str> = text.split_whitespace().collect();
    let name = words.pop().unwrap().to_string();
    let is_const = words.first() == Some(&"const");
    let base = match *words.last().unwrap() {
        "uint8_t" => "u8",
        "uint32_t" => "u32",
        "uint64_t" => "u64",
        "size_t" => "usize",
        other => panic!("{other}: no type of the interface"),
    };
    let kind = match (pointer, is_const) {
        (false, _) => base.to_string(),
        (true, true) => format!("*const {base}"),
        (true, false) => format!("*mut {base}"),
    };
    (name, kind)
}

fn rust_parameter(text: &str) -> (String, String) {
    let (name, kind) = text.split_once(':').expect("name: type");
    (name.trim().to_string(), kind.trim().to_string())
}

#[test]
fn constants_are_the_headers() {
    let wanted: Vec<_> = constants(&header()).into_iter().filter(|(name, _)| !name.starts_with("VERSION")).collect();
    assert!(wanted.len() >= 38, "only {} constants were found in the header", wanted.len());
    assert_eq!(constants(&declarations()), wanted);
}

#[test]
fn functions_are_the_headers() {
    let header = header();
    let wanted = functions(&header, c_parameter);
    assert!(wanted.len() >= 5, "only {} functions were found in the header", wanted.len());
    assert_eq!(header.matches("uint32_t pudeyan_").count(), wanted.len(), "every function answers uint32_t");
    let declared = declarations();
    assert_eq!(functions(&declared, rust_parameter), wanted);
    assert_eq!(declared.matches(") -> u32;").count(), wanted.len(), "every declaration answers u32");
}
