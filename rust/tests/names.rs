//! The names and numbers of refusals and kinds, and the limits, are the same in this crate, in the header and in
//! the definition.

use lorikvar::{Kind, MOST_BYTES, MOST_DEPTH, NO_PARENT, ROW_WORDS};
use std::collections::BTreeMap;
use std::fs;
use std::path::PathBuf;

/// Names by their numbers.
type Names = BTreeMap<u32, String>;

fn file(name: &str) -> String {
    let path = PathBuf::from(env!("CARGO_MANIFEST_DIR"))
        .join("..")
        .join(name);
    fs::read_to_string(&path).unwrap_or_else(|error| panic!("{}: {error}", path.display()))
}

/// `names_differ` and `NamesDiffer` as `NAMES_DIFFER`.
fn upper(name: &str) -> String {
    let mut text = String::new();
    for letter in name.chars() {
        if letter.is_ascii_uppercase() && !text.is_empty() {
            text.push('_');
        }
        text.push(letter.to_ascii_uppercase());
    }
    text
}

/// The lines `PREFIX_NAME = NUMBER` of the header.
fn of_header(prefix: &str) -> Names {
    let header = file("include/lorikvar.h");
    let pairs = header
        .lines()
        .filter_map(|line| line.trim().strip_prefix(prefix)?.split_once(" = "));
    pairs
        .map(|(name, number)| {
            (
                number.trim_end_matches(',').parse().unwrap(),
                name.to_string(),
            )
        })
        .collect()
}

/// The lines `name = NUMBER` of a page of definitions. One number is another page's, and is looked up there.
fn of_definition(page: &str) -> Names {
    let text = file(page).replace(
        "rules.end_of_input",
        &number_of("end_of_input", "crates/rules/specs/Parse.antt"),
    );
    let pairs = text.lines().filter_map(|line| line.split_once(" = "));
    pairs
        .filter_map(|(name, number)| Some((number.parse().ok()?, upper(name))))
        .collect()
}

fn number_of(name: &str, page: &str) -> String {
    let text = file(page);
    let start = format!("{name} = ");
    let found = text
        .lines()
        .find_map(|line| line.strip_prefix(start.as_str()));
    found
        .unwrap_or_else(|| panic!("no {name} in {page}"))
        .to_string()
}

/// The variants `Name { .. } => NUMBER` of the crate's own function, as they are written.
fn of_refusals() -> Names {
    let source = file("rust/src/refusal.rs");
    let pairs = source
        .lines()
        .filter_map(|line| line.trim().strip_prefix("Refusal::")?.split_once(" => "));
    let named = pairs.filter_map(|(left, number)| {
        let name = left.trim_end_matches(" { .. }");
        Some((number.trim_end_matches(',').parse().ok()?, upper(name)))
    });
    named.collect()
}

#[test]
fn refusals_have_the_definition_s_names() {
    let defined = of_definition("crates/jsx/specs/Refusal.antt");
    assert_eq!(defined.len(), 18);
    assert_eq!(of_header("LORIKVAR_REFUSAL_"), defined);
    assert_eq!(of_refusals(), defined);
}

#[test]
fn kinds_have_the_definition_s_names() {
    let defined = of_definition("crates/jsx/specs/Kind.antt");
    assert_eq!(defined.len(), 18);
    assert_eq!(of_header("LORIKVAR_KIND_"), defined);
    let own: Names = Kind::ALL
        .iter()
        .map(|kind| (kind.number(), upper(&format!("{kind:?}"))))
        .collect();
    assert_eq!(own, defined);
}

/// The number that a page defines by these words, right before it.
fn number_behind(words: &str, page: &str) -> usize {
    let text = file(page);
    let (_, rest) = text
        .split_once(words)
        .unwrap_or_else(|| panic!("no {words} in {page}"));
    let digits: String = rest
        .chars()
        .take_while(|c| c.is_ascii_digit() || *c == '_')
        .collect();
    digits.replace('_', "").parse().unwrap()
}

#[test]
fn limits_are_the_definition_s() {
    let reading = "crates/jsx/specs/Reading.antt";
    assert_eq!(MOST_BYTES, number_behind("record { bytes = ", reading));
    assert_eq!(MOST_DEPTH, number_behind("; depth = ", reading));
    assert_eq!(
        ROW_WORDS,
        number_behind("row_words = ", "crates/rules/specs/Record.antt")
    );
    assert_eq!(
        NO_PARENT as usize,
        number_behind("missing = ", "crates/jsx/specs/Table.antt")
    );
}

#[test]
fn limits_are_the_header_s() {
    let header = "include/lorikvar.h";
    assert_eq!(
        MOST_BYTES,
        number_behind("#define LORIKVAR_MOST_BYTES ", header)
    );
    assert_eq!(
        MOST_DEPTH,
        number_behind("#define LORIKVAR_MOST_DEPTH ", header)
    );
    assert_eq!(
        ROW_WORDS,
        number_behind("#define LORIKVAR_ROW_WORDS ", header)
    );
    assert_eq!(ROW_WORDS, of_header("LORIKVAR_WORD_").len());
    let no_parent = format!("#define LORIKVAR_NO_PARENT 0x{NO_PARENT:X}u");
    assert!(file(header).contains(&no_parent), "{no_parent}");
}
