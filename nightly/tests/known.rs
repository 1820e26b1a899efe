//! Each line of known.txt names a row of docs/DIFFERENCES.md, by its parser and its class.

use std::fs;

const KNOWN: &str = concat!(env!("CARGO_MANIFEST_DIR"), "/known.txt");
const DIFFERENCES: &str = concat!(env!("CARGO_MANIFEST_DIR"), "/../docs/DIFFERENCES.md");

#[test]
fn every_known_class_is_a_row() {
    let known = fs::read_to_string(KNOWN).expect("known.txt");
    let differences = fs::read_to_string(DIFFERENCES).expect("docs/DIFFERENCES.md");
    for line in known.lines().filter(|line| !line.starts_with('#')) {
        let row = line.rsplit(" | ").next().expect("a row");
        let (parser, class) = row.split_once(": ").expect("parser: class");
        assert!(has_row(&differences, parser, class), "no row: {row}");
    }
}

/// A row with no parser is of the one above it.
fn has_row(differences: &str, parser: &str, class: &str) -> bool {
    let mut current = "";
    for line in differences.lines() {
        let mut fields = line.split('|').map(str::trim).skip(1);
        let (Some(name), Some(words)) = (fields.next(), fields.next()) else {
            continue;
        };
        current = if name.is_empty() { current } else { name };
        if current == parser && words.starts_with(class) {
            return true;
        }
    }
    false
}
