//! Request 7: what holds for each character in a name part, and for names beyond ASCII.

use oracle::Reading::{self, Run, Stage};
use oracle::{cases, corpus, read, Answer, Limits};
use std::ops::RangeInclusive;

const ID_START: &str = include_str!("../../../unicode/id_start.txt");
const ID_CONTINUE: &str = include_str!("../../../unicode/id_continue.txt");

fn answer(reading: Reading, input: &str) -> Answer {
    read(input.as_bytes(), reading, Limits::default())
}

fn refused(number: u32, offset: usize) -> Answer {
    let places = [offset, offset, 0, 0];
    Answer::Refused { number, places }
}

/// Kind, start, end and extra of each record, where it is accepted.
fn rows(input: &str) -> Option<Vec<[u32; 4]>> {
    match answer(Stage, input) {
        Answer::Accepted(records) => {
            let row = |r: &oracle::Record| [r.kind, r.start, r.end, r.extra];
            Some(records.iter().map(row).collect())
        }
        Answer::Refused { .. } => None,
    }
}

/// The kind of a stage's name, and its extra word.
fn kind(input: &str) -> [u32; 2] {
    let rows = rows(input).expect(input);
    [rows[2][0], rows[2][3]]
}

fn ranges(lines: &str) -> Vec<RangeInclusive<u32>> {
    let code = |word: &str| u32::from_str_radix(word, 16).unwrap();
    let range = |line: &str| {
        let mut codes = line.split(' ').map(code);
        codes.next().unwrap()..=codes.next().unwrap()
    };
    lines.lines().map(range).collect()
}

/// Those of all characters that stand in one of the ranges, and those named beside them.
fn with(lines: &str, others: &str) -> Vec<char> {
    let mut all: Vec<char> = others.chars().collect();
    all.extend(
        ranges(lines)
            .into_iter()
            .flatten()
            .filter_map(char::from_u32),
    );
    all.sort();
    all.dedup();
    all
}

/// Exactly these, of all characters, are what the question takes.
fn are_exactly(wanted: &[char], asked: impl Fn(char) -> bool, frame: &str) {
    let wrong = |c: &char| asked(*c) != wanted.binary_search(c).is_ok();
    let found: Vec<char> = ('\0'..=char::MAX).filter(wrong).take(5).collect();
    assert!(found.is_empty(), "{frame} {found:?}");
}

/// 7.1, 7.2, 7.5: of all characters exactly these begin a part, and exactly these go on with one.
#[test]
fn the_characters_of_a_part() {
    let first = with(ID_START, "$_");
    for frame in ["<@:b/>", "<a.@/>", "<a:@/>", "<a b=''@=''/>"] {
        let good = |c: char| rows(&frame.replace('@', &c.to_string())).is_some();
        are_exactly(&first, good, frame);
    }
    // A part with a dash behind a dot is refused from its start to its end.
    let later = with(ID_CONTINUE, "$-\u{200C}\u{200D}");
    for beginning in ["<a.b", "<a.é", "<a.𐐀"] {
        let good = |c: char| {
            let input = format!("{beginning}{c}-");
            let places = [3, input.len(), 0, 0];
            answer(Stage, &input) == Answer::Refused { number: 10, places }
        };
        are_exactly(&later, good, beginning);
    }
}

/// 7.3: 3 stands at the first byte of what is no name character, wherever a part may begin or go on.
#[test]
fn what_is_in_no_name_is_refused_at_its_first_byte() {
    for character in "×\u{378}\u{2010}－：．\u{E000}😀\u{10FFFF}".chars() {
        for beginning in [
            "<", "<a", "<é", "<a ", "<a b", "<a.", "<a:", "<a></", "<a></a", "<a b=''",
        ] {
            let input = format!("{beginning}{character}/>");
            assert_eq!(
                answer(Stage, &input),
                refused(3, beginning.len()),
                "{input}"
            );
        }
    }
}

/// 7.7: by the first character and the dash.
#[test]
fn kinds_of_one_part_names() {
    for (name, expected) in [
        ("한", [4, 0]),
        ("é", [4, 0]),
        ("𐐀a", [4, 0]),
        ("ﬁ", [4, 0]),
        ("é-", [3, 1]),
        ("한국-어", [3, 1]),
        ("aé", [3, 0]),
        ("a-é", [3, 1]),
        ("Aé", [4, 0]),
        ("_é", [4, 0]),
        ("$\u{200D}", [4, 0]),
        ("Aé-", [3, 1]),
        ("this", [5, 0]),
        ("thisé", [3, 0]),
        ("this\u{200D}", [3, 0]),
        ("this\u{301}", [3, 0]),
        ("ｔｈｉｓ", [4, 0]),
    ] {
        assert_eq!(kind(&format!("<{name}/>")), expected, "{name}");
    }
}

/// 7.9: objects and parts of members, parts of namespaced names.
#[test]
fn names_of_several_parts() {
    let tail = |input: &str| rows(input).expect(input)[2..].to_vec();
    assert_eq!(tail("<é.b/>"), [[7, 1, 5, 0], [4, 1, 3, 0], [16, 4, 5, 0]]);
    assert_eq!(
        tail("<é-.한/>"),
        [[7, 1, 8, 0], [4, 1, 4, 1], [16, 5, 8, 0]]
    );
    assert_eq!(
        tail("<é:한-/>"),
        [[6, 1, 8, 0], [16, 1, 3, 0], [16, 4, 8, 1]]
    );
    assert_eq!(
        tail("<this\u{301}.b/>"),
        [[7, 1, 9, 0], [4, 1, 7, 0], [16, 8, 9, 0]]
    );
    assert_eq!(tail("<this.é/>")[1], [5, 1, 5, 0]);
    let attribute = tail("<a é:λ=''/>");
    assert_eq!(
        attribute[1..],
        [
            [8, 3, 11, 0],
            [6, 3, 8, 0],
            [16, 3, 5, 0],
            [16, 6, 8, 0],
            [10, 9, 11, 0]
        ]
    );
}

/// 7.10: byte for byte.
#[test]
fn closing_names_are_equal_byte_for_byte() {
    let pairs = [
        ("é", "e\u{301}"),
        ("Å", "\u{212B}"),
        ("a", "a\u{200D}"),
        ("é", "É"),
        ("ﬁ", "fi"),
    ];
    for (one, other) in pairs {
        for (one, other) in [(one, other), (other, one)] {
            let input = format!("<{one}></{other}>");
            let close = one.len() + 4;
            let places = [1, 1 + one.len(), close, close + other.len()];
            let expected = Answer::Refused { number: 7, places };
            assert_eq!(answer(Stage, &input), expected, "{input}");
            assert!(rows(&format!("<{one}></{one}>")).is_some());
            assert!(rows(&format!("<{one}.b></{one} . b>")).is_some());
            assert!(rows(&format!("<a:{one}></a : {one}>")).is_some());
            assert!(rows(&format!("<a.{one}></a.{other}>")).is_none());
        }
    }
}

/// 7.11, 7.12: no character beyond ASCII stands in a name of an expression; a number or a word ends before it.
#[test]
fn names_in_braces_stay_ascii() {
    for character in "éλ한𐐀\u{301}\u{200C}\u{200D}·".chars() {
        for (beginning, place) in [
            ("{", 1),
            ("{a", 2),
            ("{a.", 3),
            ("{a.b", 4),
            ("{1", 2),
            ("{1.5", 4),
            ("{this", 5),
            ("{if", 1),
            ("{<é b={", 8),
        ] {
            let input = format!("{beginning}{character}}}");
            assert_eq!(answer(Run, &input), refused(3, place), "{input}");
        }
    }
}

/// 7.14: the 65th level is known by a first character.
#[test]
fn depth_is_tested_at_a_first_character() {
    let opened = "<é>".repeat(64);
    let place = opened.len();
    for character in "éλ한𐐀".chars() {
        let input = format!("{opened}<{character}");
        assert_eq!(answer(Stage, &input), refused(14, place));
    }
    for character in "\u{301}·\u{200D}×😀".chars() {
        let input = format!("{opened}<{character}");
        assert_eq!(answer(Stage, &input), refused(3, place + 1));
    }
}

/// All of the lab's cases of request 7, by its own answers.
#[test]
fn the_lab_s_cases() {
    let held = cases::hold(corpus::LAB_CASES);
    assert_eq!(held.cases, 729);
    assert!(held.differences.is_empty(), "{:#?}", held.differences);
}
