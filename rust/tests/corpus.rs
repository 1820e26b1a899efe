//! The stored lists of items and answers of `crates/batch` and `crates/borders`, through this crate: every answer
//! is the stored one, and every table that is read has a tree's shape.

use lorikvar::{
    check_run, check_stage, read_run, read_stage, Refusal, Table, MOST_BYTES, NO_PARENT, ROW_WORDS,
};
use std::fs;
use std::path::PathBuf;

const RECORDS: usize = 131_072;

fn stored(list: &str, name: &str) -> Vec<u8> {
    let path = PathBuf::from(env!("CARGO_MANIFEST_DIR"))
        .join("../crates")
        .join(list)
        .join(name);
    fs::read(&path).unwrap_or_else(|error| panic!("{}: {error}", path.display()))
}

/// Items: a letter, a length in 4 bytes, low byte first, and the bytes.
fn items(mut bytes: &[u8]) -> Vec<(u8, &[u8])> {
    let mut all = Vec::new();
    while !bytes.is_empty() {
        let length = u32::from_le_bytes(bytes[1..5].try_into().unwrap()) as usize;
        all.push((bytes[0], &bytes[5..5 + length]));
        bytes = &bytes[5 + length..];
    }
    all
}

fn row(number: usize, row: &[u32]) -> String {
    let words: Vec<String> = row
        .iter()
        .enumerate()
        .map(|(place, word)| word_text(place, *word))
        .collect();
    format!("{number} {}\n", words.join(" "))
}

fn word_text(place: usize, word: u32) -> String {
    match (place, word) {
        (3, NO_PARENT) => "-".to_string(),
        _ => word.to_string(),
    }
}

/// An answer in the form that the programs print.
fn form(answer: &Result<Table<'_, '_>, Refusal>) -> String {
    match answer {
        Ok(table) => {
            let rows = table
                .words()
                .chunks(ROW_WORDS)
                .enumerate()
                .map(|(number, words)| row(number, words));
            format!("ok {}\n", table.len()) + &rows.collect::<String>()
        }
        Err(refusal) => {
            let [a, b] = refusal.places();
            format!(
                "no {} {} {} {} {}\n",
                refusal.number(),
                a.start,
                a.end,
                b.start,
                b.end
            )
        }
    }
}

#[test]
fn every_answer_is_the_stored_one() {
    answers_are_stored("batch");
}

#[test]
fn every_answer_at_the_borders_of_name_characters_is_the_stored_one() {
    answers_are_stored("borders");
}

fn answers_are_stored(list: &str) {
    let (input, answers) = (
        stored(list, "stdin"),
        String::from_utf8(stored(list, "stdout")).unwrap(),
    );
    let mut words = vec![0; RECORDS * ROW_WORDS];
    let mut rest = answers.as_str();
    for (place, (letter, item)) in items(&input).into_iter().enumerate() {
        let (check, answer) = match letter {
            b's' => (check_stage(item), read_stage(item, &mut words)),
            b'r' => (check_run(item), read_run(item, &mut words)),
            _ => panic!("item {place} is neither a stage nor a run"),
        };
        let text = form(&answer);
        rest = rest
            .strip_prefix(text.as_str())
            .unwrap_or_else(|| panic!("item {place}: {text}"));
        assert_eq!(
            answer.as_ref().map(Table::len).map_err(|refusal| *refusal),
            check,
            "item {place}"
        );
        if let Ok(table) = answer {
            is_a_tree(place, item, table);
        }
    }
    assert_eq!(rest, "");
}

/// The kept words are a table; each record's bytes and text are its span; a record's children and theirs are
/// all that it holds; a child is one deeper.
fn is_a_tree(place: usize, item: &[u8], table: Table<'_, '_>) {
    assert!(item.len() <= MOST_BYTES);
    assert!(
        Table::new(item, table.words(), table.len()).is_some(),
        "item {place}"
    );
    for record in table {
        assert_eq!(record.bytes(), &item[record.span().range()], "item {place}");
        assert_eq!(record.text().as_bytes(), record.bytes(), "item {place}");
        let inside: usize = record
            .children()
            .map(|child| 1 + child.descendants().len())
            .sum();
        assert_eq!(inside, record.descendants().len(), "item {place}");
        for child in record.children() {
            assert_eq!(child.parent(), Some(record), "item {place}");
            assert_eq!(child.depth(), record.depth() + 1, "item {place}");
        }
    }
    for record in table.outermost() {
        assert_eq!((record.parent(), record.depth()), (None, 0), "item {place}");
    }
}
