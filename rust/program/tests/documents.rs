//! README, docs/FORMATS.md and the man page say what the program does.

mod support;

use std::fs;
use support::{example, hex, root, Folder, A, A_PLAN};

/// The part of docs/FORMATS.md under a heading.
fn section(heading: &str) -> String {
    let text = fs::read_to_string(root().join("docs/FORMATS.md")).unwrap();
    let (_, rest) = text.split_once(&format!("\n## {heading}\n")).expect("a heading");
    rest.split("\n## ").next().unwrap().to_string()
}

/// The octets in the first column of its tables, one row after another.
fn octets(section: &str) -> Vec<u8> {
    let rows = section.lines().filter_map(|line| line.strip_prefix("| `")?.split_once("` |"));
    hex(&rows.map(|(octets, _)| octets.to_string() + " ").collect::<String>())
}

/// The first lines that are indented.
fn indented(section: &str) -> String {
    let lines = section.lines().skip_while(|line| !line.starts_with("    "));
    let block = lines.take_while(|line| line.is_empty() || line.starts_with("    "));
    block.map(|line| line.trim_start().to_string() + "\n").collect::<String>().trim_end().to_string() + "\n"
}

#[test]
fn octets_of_the_examples() {
    assert_eq!(octets(&section("Network record")), A);
    assert_eq!(octets(&section("Plan record")), A_PLAN);
    assert_eq!(octets(&section("Link log")), example("a.log"));
    let folder = Folder::new();
    folder.run(&["show", "a.network", "a.plan"]).says(0, &indented(&section("Plan record")));
    folder.put("a.log", example("a.log"));
    folder.run(&["replay", "a.network", "a.log"]).says(0, &indented(&section("Link log")));
    folder.run(&["sheet", "a.network", "a.plan"]).says(0, &indented(&section("Campaign sheet")));
}

#[test]
fn the_text_is_read() {
    let folder = Folder::new();
    folder.put("text", indented(&section("Text form of a network")));
    folder.run(&["network", "pack", "text", "out"]).says(0, "places 4\nlinks 4\nlength 20\n");
    let page = fs::read_to_string(root().join("man/pudeyan.1")).unwrap();
    let (_, form) = page.split_once(".SH TEXT FORM OF A NETWORK\n.nf\n").unwrap();
    folder.put("text", form.split(".fi").next().unwrap());
    folder.run(&["network", "pack", "text", "out"]).says(0, "places 3\nlinks 2\nlength 12\n");
}

#[test]
fn numbers_have_the_octets_of_the_table() {
    let rows: Vec<(u32, Vec<u8>)> = section("Numbers in records")
        .lines()
        .filter_map(|line| line.strip_prefix("| ")?.strip_suffix("` |")?.split_once(" | `"))
        .map(|(number, octets)| (number.replace(',', "").parse().unwrap(), hex(octets)))
        .collect();
    assert!(rows.len() >= 8);
    for (number, octets) in rows {
        // Behind an empty copy, before a T of 1 and no rows.
        let plan = pudeyan::Plan::new([0u8; 0], number, 1, vec![], vec![]);
        assert_eq!(plan.record()[1..plan.record().len() - 2], octets, "{number}");
    }
}

#[test]
fn the_first_command_prints_what_the_readme_says() {
    let text = fs::read_to_string(root().join("README.md")).unwrap();
    let (_, printed) = text.split_once("It prints\n").expect("what the first command prints");
    let folder = Folder::new();
    folder.run(&["plan", "a.network", "4", "out"]).says(0, &indented(printed));
}
