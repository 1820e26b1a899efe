//! Request 2: what ends or breaks a plain stretch, at each place of it, and that nothing else does.

use oracle::Reading::{self, Run, Stage};
use oracle::{kind, read, Answer, Limits};

/// Three blocks of eight bytes and one byte more.
const PLACES: std::ops::RangeInclusive<usize> = 0..=24;

/// All characters of one or two bytes.
fn short_characters() -> impl Iterator<Item = char> {
    '\0'..='\u{7FF}'
}

fn plain(length: usize) -> String {
    "abcdefghijklmnopqrstuvwxyz"
        .chars()
        .cycle()
        .take(length)
        .collect()
}

fn answer(reading: Reading, input: &str) -> Answer {
    read(input.as_bytes(), reading, Limits::default())
}

fn refused(number: u32, offset: usize) -> Answer {
    refused_over(number, offset, offset)
}

fn refused_over(number: u32, start: usize, end: usize) -> Answer {
    let places = [start, end, 0, 0];
    Answer::Refused { number, places }
}

/// The spans of the records of a kind, where it is accepted.
fn spans(reading: Reading, input: &str, kind: u32) -> Vec<(usize, usize)> {
    let Answer::Accepted(records) = answer(reading, input) else {
        return Vec::new();
    };
    let of_kind = records.iter().filter(|record| record.kind == kind);
    of_kind
        .map(|record| (record.start as usize, record.end as usize))
        .collect()
}

/// D2: "Its answer, the place of refusal 2 included, is the same as today."; D: "offset where no good sequence begins".
#[test]
fn a_bad_byte_is_refused_at_its_place() {
    let bad: [&[u8]; 8] = [
        b"\x80",
        b"\xBF",
        b"\xC0",
        b"\xFF",
        b"\xC3",
        b"\xE2\x82",
        b"\xF0\x9F\x98",
        b"\xFFx\x80",
    ];
    for place in 0..=70 {
        for bytes in bad {
            for begin in ["", "é", "한", "😀"] {
                for behind in [0, 1, 7, 8, 9, 40] {
                    let (before, behind) = (plain(place), plain(behind));
                    let whole = [
                        begin.as_bytes(),
                        before.as_bytes(),
                        bytes,
                        behind.as_bytes(),
                    ];
                    let expected = refused(2, begin.len() + place);
                    for reading in [Stage, Run] {
                        let answer = read(&whole.concat(), reading, Limits::default());
                        assert_eq!(answer, expected, "{bytes:?} at {place}");
                    }
                }
            }
        }
    }
}

#[test]
fn a_good_sequence_may_stand_at_each_place() {
    for place in 0..=40 {
        for sequence in ["é", "한", "😀", "\u{80}", "\u{10FFFF}"] {
            for behind in [0, 1, 8, 40] {
                let text = plain(place) + sequence + &plain(behind);
                assert_eq!(spans(Run, &text, kind::TEXT), [(0, text.len())]);
                let element = format!("<a>{text}</a>");
                let expected = [(3, 3 + text.len())];
                assert_eq!(spans(Stage, &element, kind::TEXT), expected);
            }
        }
    }
}

#[test]
fn a_text_of_each_length() {
    assert_eq!(answer(Run, ""), Answer::Accepted(Vec::new()));
    for length in 1..=200 {
        let text = plain(length);
        assert_eq!(spans(Run, &text, kind::TEXT), [(0, length)]);
        assert_eq!(answer(Stage, &format!("<a>{text}")), refused(4, 3 + length));
    }
}

/// D: "the longest nonempty run without `<` `>` `{` `}`".
#[test]
fn four_bytes_end_a_text() {
    for place in PLACES {
        for character in short_characters().filter(|c| !"<>{}".contains(*c)) {
            let text = format!("{}{character}{}", plain(place), plain(9));
            assert_eq!(spans(Run, &text, kind::TEXT), [(0, text.len())], "{text:?}");
        }
        let before = plain(place);
        assert_eq!(
            answer(Run, &format!("{before}>abcdefgh")),
            refused(6, place)
        );
        assert_eq!(answer(Run, &format!("{before}}}=<>{{a")), refused(6, place));
        assert_eq!(answer(Run, &format!("{before}</a>abcd")), refused(3, place));
        assert_eq!(
            answer(Run, &format!("{before}{{,}}<a/>")),
            refused(3, place + 1)
        );
        let texts = match place {
            0 => vec![(2, 3)],
            _ => vec![(0, place), (place + 2, place + 3)],
        };
        assert_eq!(spans(Run, &format!("{before}{{}}="), kind::TEXT), texts);
    }
}

/// D: "A quoted attribute string ends at the first same quote."
#[test]
fn the_same_quote_ends_a_quoted_string() {
    for quote in ['"', '\''] {
        for place in PLACES {
            for character in short_characters().filter(|&c| c != quote) {
                let inside = format!("{}{character}{}", plain(place), plain(9));
                let input = format!("<a b={quote}{inside}{quote}/>");
                let expected = [(5, 7 + inside.len())];
                assert_eq!(
                    spans(Stage, &input, kind::QUOTED_STRING),
                    expected,
                    "{input:?}"
                );
            }
            let open = format!("<a b={quote}{}", plain(place));
            assert_eq!(answer(Stage, &open), refused(5, 5));
            assert_eq!(
                answer(Stage, &format!("{open}{quote}")),
                refused(4, 7 + place)
            );
            let closed_twice = format!("{open}{quote}~{quote}abcdefgh");
            assert_eq!(answer(Stage, &closed_twice), refused(3, 7 + place));
        }
    }
}

/// D: "Strings: no backslash, LF or CR."; D2: "from its quote to the line end, still as 3"; "18 an open string".
#[test]
fn a_string_in_braces_ends_or_breaks() {
    for quote in ['"', '\''] {
        for place in PLACES {
            let open = format!("{{{quote}{}", plain(place));
            for character in short_characters() {
                let input = format!("{open}{character}{}{quote}}}", plain(9));
                let expected = match character {
                    '\\' => refused(3, 2 + place),
                    '\n' | '\r' => refused_over(3, 1, 2 + place),
                    // A name behind a string is no token that is allowed there.
                    _ if character == quote => refused(3, 3 + place),
                    _ => {
                        let string = [(1, input.len() - 1)];
                        assert_eq!(spans(Run, &input, kind::EXPRESSION), string, "{input:?}");
                        continue;
                    }
                };
                assert_eq!(answer(Run, &input), expected, "{input:?}");
            }
            assert_eq!(answer(Run, &open), refused(18, 1));
            assert_eq!(
                answer(Run, &format!("{open}{quote}")),
                refused(4, 3 + place)
            );
        }
    }
}

/// D: "`/*` to the next `*/`"; D2: "17 is an open comment".
#[test]
fn a_star_and_a_slash_end_a_comment() {
    let some = "*/+).-0j\"\n\u{AA}\u{AF}é";
    for (opened_by, reading, first) in [("<a/*", Stage, 2), ("{/*", Run, 1)] {
        for place in PLACES {
            let open = format!("{opened_by}{}", plain(place));
            for one in some.chars() {
                for other in some.chars().filter(|&other| (one, other) != ('*', '/')) {
                    let inside = format!("{open}{one}{other}abc");
                    assert_eq!(answer(reading, &inside), refused(17, first), "{inside:?}");
                    let closed = format!("{inside}*/~*/");
                    let expected = refused(3, inside.len() + 2);
                    assert_eq!(answer(reading, &closed), expected, "{closed:?}");
                }
            }
            assert_eq!(answer(reading, &open), refused(17, first));
            assert_eq!(answer(reading, &format!("{open}*")), refused(17, first));
            let stars = format!("{open}***/~*/");
            assert_eq!(answer(reading, &stars), refused(3, open.len() + 4));
        }
    }
}

/// D2: "All four terminators end a `//` comment."; D: ".. or the end of input".
#[test]
fn four_characters_end_a_line_comment() {
    let others = ["\u{928}", "\u{6028}", "\u{A028}", "\u{80028}"];
    let near = '\u{1000}'..='\u{3100}';
    let characters = short_characters().chain(near).map(String::from);
    let characters: Vec<String> = characters.chain(others.map(String::from)).collect();
    for place in PLACES {
        let open = format!("<a//{}", plain(place));
        assert_eq!(answer(Stage, &open), refused(4, open.len()));
        for character in &characters {
            let input = format!("{open}{character}~bcdefghi");
            let ends = ["\n", "\r", "\u{2028}", "\u{2029}"].contains(&character.as_str());
            let expected = match ends {
                true => refused(3, open.len() + character.len()),
                false => refused(4, input.len()),
            };
            assert_eq!(answer(Stage, &input), expected, "{input:?}");
        }
    }
}
