//! Where an answer differs from the port's, and the class of the difference: who differs and how, with no offset
//! or name of the input.

use crate::answer::{Answer, Refusal, Row, Word, WORDS};
use crate::item::Item;
use crate::plugin::Bound;

/// What two answers to one item are to each other.
#[derive(Clone, PartialEq, Eq, Debug)]
pub enum Held {
    Agree,
    Skipped,
    Differ(String),
}

/// Holds what a plug-in wrote against what the port wrote. What is compared whole agrees only letter for letter.
pub fn held(item: &Item, port: &[u8], other: &[u8], bound: Bound) -> Result<Held, String> {
    if port == other {
        return Ok(Held::Agree);
    }
    let (port, other) = (Answer::parsed(port)?, Answer::parsed(other)?);
    if other == Answer::Skip {
        return Ok(Held::Skipped);
    }
    Ok(match difference(item, &port, &other) {
        Some(class) => Held::Differ(class),
        None if bound == Bound::Whole => Held::Differ("the same, written otherwise".to_string()),
        None => Held::Agree,
    })
}

/// The class; nothing where the two agree, as far as the other answer tells. A plug-in that skips agrees with everything.
fn difference(item: &Item, port: &Answer, other: &Answer) -> Option<String> {
    match (port, other) {
        (_, Answer::Skip) | (Answer::Ok(_), Answer::Ok(None)) => None,
        (Answer::Ok(Some(one)), Answer::Ok(Some(other))) => {
            first_other(one, other).map(|what| format!("both accept, {what}"))
        }
        (Answer::Ok(one), Answer::No(refusal)) => {
            let spread = has_spread_child(one.as_deref().unwrap_or_default());
            let with = if spread { " a spread child" } else { "" };
            Some(format!("the port accepts{with}, it {}", said(refusal)))
        }
        (Answer::No(refusal), Answer::Ok(_)) => {
            Some(format!("the port {}, it accepts", at_byte(item, refusal)))
        }
        (Answer::No(one), Answer::No(other)) => refusals(one, other),
        _ => Some("the port's answer tells too little".to_string()),
    }
}

/// acorn-jsx knows no spread child: with one, its refusal says nothing about the rest.
fn has_spread_child(rows: &[Row]) -> bool {
    const SPREAD_CHILD: Word = Word::Is(13);
    rows.iter().any(|row| row[0] == SPREAD_CHILD)
}

/// A parser's words are no part of what is compared; told numbers and places are.
fn refusals(one: &Refusal, other: &Refusal) -> Option<String> {
    let (Refusal::Told(one, places), Refusal::Told(other, others)) = (one, other) else {
        return None;
    };
    if one != other {
        return Some(format!("the port refuses by {one}, it refuses by {other}"));
    }
    let at = (0..4).find(|at| places[*at] != others[*at])?;
    Some(format!("both refuse by {one}, place {} differs", at + 1))
}

/// The kinds of the first rows that differ, and the first word in which they do.
fn first_other(port: &[Row], other: &[Row]) -> Option<String> {
    for (one, other) in port.iter().zip(other) {
        let Some(at) = (0..WORDS.len()).find(|at| !one[*at].agrees(other[*at])) else {
            continue;
        };
        let kind = kind_word(one);
        return Some(format!("row of kind {kind}: {} differs", WORDS[at]));
    }
    match port.len().cmp(&other.len()) {
        std::cmp::Ordering::Less => Some("it has more rows".to_string()),
        std::cmp::Ordering::Equal => None,
        std::cmp::Ordering::Greater => Some("it has fewer rows".to_string()),
    }
}

fn kind_word(row: &Row) -> String {
    match row[0] {
        Word::Is(kind) => kind.to_string(),
        _ => "?".to_string(),
    }
}

fn said(refusal: &Refusal) -> String {
    match refusal {
        Refusal::Told(number, _) => format!("refuses by {number}"),
        Refusal::InWords(words) => format!("refuses: {}", in_general(words)),
    }
}

/// A 3 says little without the byte that it was given at. Characters beyond ASCII are of one class: another version of
/// Unicode makes a difference at thousands of them.
fn at_byte(item: &Item, refusal: &Refusal) -> String {
    if let Refusal::Told(3, [place, ..]) = refusal {
        let shown = match item.bytes.get(*place as usize) {
            None => "the end".to_string(),
            Some(byte) if byte.is_ascii() => byte.escape_ascii().to_string(),
            Some(_) => "a character beyond ASCII".to_string(),
        };
        return format!("refuses by 3 at {shown}");
    }
    said(refusal)
}

/// A message with its quoted words and characters beyond ASCII left out; quoted marks stay.
fn in_general(message: &str) -> String {
    let mut general = String::new();
    let mut rest = message;
    while let Some(start) = rest.find(['"', '\'', '`', '<']) {
        let open = rest[start..].chars().next().unwrap_or_default();
        let close = if open == '<' { '>' } else { open };
        let Some(length) = rest[start + 1..].find(close) else {
            break;
        };
        let quoted = &rest[start..start + length + 2];
        let is_word =
            quoted.contains(|c: char| c.is_ascii_alphanumeric() || c == '_' || !c.is_ascii());
        general.push_str(&rest[..start]);
        general.push_str(if is_word { ".." } else { quoted });
        rest = &rest[start + length + 2..];
    }
    general.push_str(rest);
    general.replace(['\t', '\n', '|'], " ")
}

#[cfg(test)]
mod tests {
    use super::*;
    use crate::item::Reading;

    const STAGE: &str = "ok 3\n0 1 0 4 - 3 0 0\n1 18 0 4 0 3 0 1\n2 4 1 2 1 3 0 2\n";

    fn differ(port: &str, other: &str) -> Option<String> {
        let item = Item {
            reading: Reading::Stage,
            bytes: b"<A/>".to_vec(),
        };
        let parsed = |text: &str| Answer::parsed(text.as_bytes()).expect("an answer");
        difference(&item, &parsed(port), &parsed(other))
    }

    #[test]
    fn the_same() {
        assert_eq!(differ(STAGE, STAGE), None);
        assert_eq!(differ("no 7 1 2 5 6\n", "no 7 1 2 5 6\n"), None);
        assert_eq!(differ("no 7 1 2 5 6\n", "no ? Expected\n"), None);
        assert_eq!(differ(STAGE, "ok ?\n"), None);
        for port in [STAGE, "no 2 0 0 0 0\n"] {
            assert_eq!(differ(port, "skip\n"), None);
        }
    }

    #[test]
    fn whole_answers_agree_letter_for_letter() {
        let item = Item {
            reading: Reading::Stage,
            bytes: b"<A/>".to_vec(),
        };
        let hold = |other: &str, bound| held(&item, STAGE.as_bytes(), other.as_bytes(), bound);
        let numbered = STAGE.replace("\n2 4", "\n3 4");
        let differ = Held::Differ("the same, written otherwise".to_string());
        assert_eq!(hold(STAGE, Bound::Whole), Ok(Held::Agree));
        assert_eq!(hold(&numbered, Bound::Whole), Ok(differ));
        assert_eq!(hold(&numbered, Bound::Domain), Ok(Held::Agree));
        assert_eq!(hold("skip\n", Bound::Whole), Ok(Held::Skipped));
        assert!(hold("bad item 0\n", Bound::Whole).is_err());
    }

    #[test]
    fn each_word_of_a_row_counts_where_it_is_told() {
        let words = STAGE.trim_end().lines().nth(2).unwrap();
        for (at, name) in (1..).zip(WORDS) {
            let mut changed: Vec<&str> = words.split(' ').collect();
            changed[at] = "99";
            let told = STAGE.replace(words, &changed.join(" "));
            let class = differ(STAGE, &told).expect("a difference");
            assert_eq!(
                class,
                format!("both accept, row of kind 18: {name} differs")
            );
            changed[at] = "?";
            assert_eq!(
                differ(STAGE, &STAGE.replace(words, &changed.join(" "))),
                None
            );
        }
    }

    #[test]
    fn more_and_fewer_rows() {
        let fewer = "ok 2\n0 1 0 4 - 3 0 0\n1 18 0 4 0 3 0 1\n";
        assert_eq!(
            differ(STAGE, fewer).unwrap(),
            "both accept, it has fewer rows"
        );
        assert_eq!(
            differ(fewer, STAGE).unwrap(),
            "both accept, it has more rows"
        );
    }

    #[test]
    fn one_accepts_and_the_other_refuses() {
        let class = differ(STAGE, "no ? Expected \">\" but found \"if\"\n");
        assert_eq!(
            class.unwrap(),
            "the port accepts, it refuses: Expected \">\" but found .."
        );
        let class = differ("no 3 2 2 0 0\n", "ok ?\n");
        assert_eq!(class.unwrap(), "the port refuses by 3 at /, it accepts");
        let class = differ("no 6 3 3 0 0\n", STAGE);
        assert_eq!(class.unwrap(), "the port refuses by 6, it accepts");
    }

    #[test]
    fn characters_beyond_ascii_are_of_one_class() {
        let class = |character: &str| {
            let said = format!("no ? Unexpected character '{character}'.\n");
            differ(STAGE, &said).expect("a difference")
        };
        for character in ["𐐀", "\u{30FB}", "\u{1ACF}", "\u{FFFD}"] {
            let expected = "the port accepts, it refuses: Unexpected character ...";
            assert_eq!(class(character), expected);
        }
        let item = Item {
            reading: Reading::Stage,
            bytes: "<\u{3D000}/>".as_bytes().to_vec(),
        };
        let refusal = Refusal::Told(3, [1, 1, 0, 0]);
        let expected = "refuses by 3 at a character beyond ASCII";
        assert_eq!(at_byte(&item, &refusal), expected);
    }

    #[test]
    fn numbers_and_places_of_refusals() {
        let class = differ("no 3 2 2 0 0\n", "no 4 2 2 0 0\n");
        assert_eq!(class.unwrap(), "the port refuses by 3, it refuses by 4");
        let class = differ("no 7 1 2 5 6\n", "no 7 1 2 5 7\n");
        assert_eq!(class.unwrap(), "both refuse by 7, place 4 differs");
    }
}
