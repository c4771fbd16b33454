//! The header, README.md and this crate say the same: version, limits, and what calls refuse with.

use lineage::{Ground, CHECK_LOTS, GROUNDS, MAX_EXPONENT, MAX_LOTS, MAX_PLACE, SMALL_LOTS, SMALL_PLACE};
use std::path::Path;

/// A file of the repository.
fn text(path: &str) -> String {
    let path = Path::new(env!("CARGO_MANIFEST_DIR")).join("../..").join(path);
    std::fs::read_to_string(&path).unwrap_or_else(|e| panic!("{}: {e}", path.display()))
}

/// What the header defines a name as.
fn defined(name: &str) -> String {
    let start = format!("#define LINEAGE_{name} ");
    let header = text("include/lineage.h");
    let line = header.lines().find_map(|line| line.strip_prefix(&start));
    line.unwrap_or_else(|| panic!("the header does not define LINEAGE_{name}")).to_string()
}

#[test]
fn versions() {
    let version = env!("CARGO_PKG_VERSION");
    assert_eq!(defined("VERSION"), format!("{version:?}"));
    let numbers = ["VERSION_MAJOR", "VERSION_MINOR", "VERSION_PATCH"].map(defined).join(".");
    assert_eq!(numbers, version);
}

#[test]
fn limits() {
    let named = ["MAX_LOTS", "CHECK_LOTS", "MAX_PLACE", "SMALL_LOTS", "SMALL_PLACE"];
    let header = named.map(|name| defined(name).parse::<u32>().unwrap());
    assert_eq!(header, [MAX_LOTS, CHECK_LOTS, MAX_PLACE, SMALL_LOTS, SMALL_PLACE]);
    assert_eq!(defined("MAX_EXPONENT"), MAX_EXPONENT.to_string());
}

#[test]
fn grounds_are_in_the_order_of_their_numbers() {
    let numbers = || GROUNDS.iter().map(|ground| ground.number);
    let right = (1..=17).filter(|&number| number != 13).chain(19..=22);
    assert!(numbers().filter(|&number| number != 18).eq(right));
    // 18, of a window, stands between the others
    assert!(numbers().is_sorted() && numbers().any(|number| number == 18));
}

/// Whoever meets the number 13 in an old reply finds what it was.
#[test]
fn the_number_that_was_a_ground() {
    let said = "13 is no longer given: up to version 0.3 it refused a direction from a lot to itself.";
    for path in ["include/refusals.txt", "include/lineage.h", "README.md", "rust/lineage/src/refusal.rs"] {
        assert!(text(path).contains(said), "{path}");
    }
}

/// The enum has each ground's number and name, and its words as the comment above.
#[test]
fn header_has_the_grounds() {
    let header = text("include/lineage.h");
    let body = header.split("enum lineage_refusal {\n").nth(1).and_then(|rest| rest.split("\n};").next());
    let lines: Vec<&str> = body.expect("the enum").lines().map(str::trim).collect();
    let entry = |g: &Ground| [format!("/* {} */", g.words), format!("LINEAGE_{} = {}", g.name, g.number)];
    let right: Vec<String> = GROUNDS.iter().flat_map(entry).collect();
    assert_eq!(lines.iter().map(|line| line.trim_end_matches(',')).collect::<Vec<_>>(), right);
}

/// The comment on replies says which grounds name a lot.
#[test]
fn header_says_which_grounds_name_a_lot() {
    let header = text("include/lineage.h").replace("\n *     ", " ");
    let said = ["smallest of which it is true with 5, 6, 7, 8 and 15", "asked for with 11, 12, 21 and 22"];
    assert!(said.iter().all(|words| header.contains(words)));
    let named: Vec<u32> = GROUNDS.iter().filter(|ground| ground.names_lot).map(|ground| ground.number).collect();
    assert_eq!(named, [5, 6, 7, 8, 11, 12, 15, 21, 22]);
}

#[test]
fn readme_has_the_grounds() {
    let readme = text("README.md");
    let table = readme.split("\n## Refusals\n").nth(1).and_then(|rest| rest.split("\n## ").next());
    let rows: Vec<&str> = table.expect("the table").lines().filter(|line| line.starts_with("| ")).skip(1).collect();
    let row = |g: &Ground| format!("| {} | {} | {} |", g.number, g.words, g.remedy);
    assert_eq!(rows, GROUNDS.iter().map(row).collect::<Vec<_>>());
}
