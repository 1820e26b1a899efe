//! Request 1: what holds for each of the 25 blank characters, for those that nearly are, and for the ends of `//`
//! comments.

use oracle::Reading::{self, Run, Stage};
use oracle::{read, Answer, Limits, Record};

/// 1.1: "25: tab, LF, VT, FF, CR, space; U+00A0, U+1680, U+2000 to U+200A, U+202F, U+205F, U+3000, U+FEFF; U+2028,
/// U+2029".
fn blanks() -> Vec<char> {
    let mut all: Vec<char> = "\t\n\u{B}\u{C}\r \u{A0}\u{1680}".chars().collect();
    all.extend('\u{2000}'..='\u{200A}');
    all.extend("\u{202F}\u{205F}\u{3000}\u{FEFF}\u{2028}\u{2029}".chars());
    assert_eq!(all.len(), 25);
    all
}

/// 1.2, 1.16; but for U+200C and U+200D, which belong to a name that they stand behind (7.5).
const NO_BLANKS: &str = "\u{85}\u{180E}\u{200B}\u{200E}\u{200F}\u{2060}\u{AD}";

const LINE_TERMINATORS: [char; 4] = ['\n', '\r', '\u{2028}', '\u{2029}'];

/// Every character that there is.
fn characters() -> impl Iterator<Item = char> {
    '\0'..=char::MAX
}

fn answer(reading: Reading, input: &str) -> Answer {
    read(input.as_bytes(), reading, Limits::default())
}

fn refused(number: u32, offset: usize) -> Answer {
    let places = [offset, offset, 0, 0];
    Answer::Refused { number, places }
}

/// The kinds of the records, where it is accepted.
fn kinds(reading: Reading, input: &str) -> Option<Vec<u32>> {
    match answer(reading, input) {
        Answer::Accepted(records) => Some(records.iter().map(|record| record.kind).collect()),
        Answer::Refused { .. } => None,
    }
}

/// Stages and runs in which every space is a blank between two tokens, but for those in comments.
#[rustfmt::skip]
const SPACED: [(Reading, &str); 16] = [
    (Stage, " < a / > "),
    (Stage, " < >< / > "),
    (Stage, " < a . b . c >< / a . b . c > "),
    (Stage, "< a : b >< / a : b >"),
    (Stage, "< a b c = '' d : e = { f } { ... g } h = < i / > j = < >< / > / >"),
    (Run, "{ }"),
    (Run, "{ b }{ ... b }"),
    (Run, "{ b || c && d + e - f * g }"),
    (Run, "{ b ? c : d ? e : f }"),
    (Run, "{ b [ c ] . d ( ) ( e , f ) [ g ] }"),
    (Run, "{ ( b ) + ( < a / > ) }"),
    (Run, "{ ! - b - - c }"),
    (Run, "{ 1 . b + 1.5 . c + 'd' . e }"),
    (Run, "{ < a >< / a > }< a / >"),
    (Stage, "<a /* */ b /**/ / >"),
    (Stage, "< a \n // x\n b / >"),
];

/// An offset of the input with spaces, where a character that is so much longer stands in place of some of them.
fn moved(replaced: &[usize], longer: usize, offset: u32) -> u32 {
    let before = replaced.iter().filter(|&&at| at < offset as usize);
    offset + (before.count() * longer) as u32
}

/// The places of the spaces that are blanks: those in comments are not.
fn blank_spaces(spaced: &str) -> Vec<usize> {
    let comment = |at: usize| {
        let before = &spaced[..at];
        let open = |opener: &str, closer: &str| before.rfind(opener) > before.rfind(closer);
        open("/*", "*/") || open("//", "x\n")
    };
    let spaces = spaced.match_indices(' ').map(|(at, _)| at);
    spaces.filter(|&at| !comment(at)).collect()
}

/// The input with the character at each of the places.
fn with(spaced: &str, places: &[usize], character: char) -> String {
    let of = |(at, byte)| {
        if places.contains(&at) {
            character
        } else {
            byte
        }
    };
    spaced.char_indices().map(of).collect()
}

/// Each blank, in place of one space and in place of all, gives the table of the spaces, moved by what it is longer.
#[test]
fn a_blank_is_read_as_a_space_is() {
    for (reading, spaced) in SPACED {
        let Answer::Accepted(plain) = answer(reading, spaced) else {
            panic!("{spaced}");
        };
        let all = blank_spaces(spaced);
        let each = all.iter().map(|&at| vec![at]);
        for places in each.chain([all.clone()]) {
            for blank in blanks() {
                let longer = blank.len_utf8() - 1;
                let offset = |offset: u32| moved(&places, longer, offset);
                let further = |record: &Record| Record {
                    start: offset(record.start),
                    end: offset(record.end),
                    ..*record
                };
                let expected = Answer::Accepted(plain.iter().map(further).collect());
                let input = with(spaced, &places, blank);
                assert_eq!(answer(reading, &input), expected, "{input:?}");
            }
        }
    }
}

/// 1.2: a near miss in place of a blank is refused there: by 3, behind a stage by 13.
#[test]
fn a_near_miss_is_refused_where_it_stands() {
    for (reading, spaced) in SPACED {
        for at in blank_spaces(spaced) {
            let behind = reading == Stage && kinds(Stage, &spaced[..at]).is_some();
            let expected = refused(if behind { 13 } else { 3 }, at);
            for character in NO_BLANKS.chars() {
                let input = with(spaced, &[at], character);
                assert_eq!(answer(reading, &input), expected, "{input:?}");
            }
        }
    }
}

/// Of all characters exactly the 25 may stand between `/` and `>`.
#[test]
fn no_other_character_is_a_blank() {
    let between = |&c: &char| kinds(Stage, &format!("<a/{c}>")).is_some();
    let mut all: Vec<char> = characters().filter(between).collect();
    let mut expected = blanks();
    all.sort();
    expected.sort();
    assert_eq!(all, expected);
}

/// 1.6, 1.7: of all characters exactly the four end a `//` comment, in tags, in braces, before and behind a stage.
#[test]
fn the_line_terminators_end_a_line_comment() {
    let ends = |frame: &str| -> Vec<char> {
        let ends = |c: &char| kinds(Stage, &frame.replace('@', &c.to_string())).is_some();
        characters().filter(ends).collect()
    };
    for frame in ["<a//@/>", "<a>{//x}@}</a>", "//@<a/>"] {
        assert_eq!(ends(frame), LINE_TERMINATORS, "{frame}");
    }
    for character in blanks() {
        let input = format!("<a/>//{character}b");
        let expected = 6 + character.len_utf8();
        let ended = answer(Stage, &input) == refused(13, expected);
        assert_eq!(ended, LINE_TERMINATORS.contains(&character), "{input:?}");
    }
}

/// 1.6: the comment ends before the terminator, and what stands behind it is read: an attribute at its place.
#[test]
fn what_stands_behind_a_line_comment_is_read() {
    for terminator in LINE_TERMINATORS {
        let input = format!("<a//x{terminator}b/>");
        let Answer::Accepted(records) = answer(Stage, &input) else {
            panic!("{input:?}");
        };
        let start = 5 + terminator.len_utf8() as u32;
        let attribute = (records[3].kind, records[3].start, records[3].end);
        assert_eq!(attribute, (8, start, start + 1));
        let whole = input.len() as u32;
        assert_eq!((records[0].start, records[0].end), (0, whole));
    }
}

/// 1.3: a BOM at the very start is a blank as any other: it isn't taken off, its bytes count.
#[test]
fn a_byte_order_mark_at_the_start() {
    let Answer::Accepted(records) = answer(Stage, "\u{FEFF}<a/>") else {
        panic!("a BOM is a blank");
    };
    let spans: Vec<_> = records.iter().map(|r| (r.kind, r.start, r.end)).collect();
    assert_eq!(spans, [(1, 3, 7), (18, 3, 7), (3, 4, 5)]);
    assert_eq!(answer(Stage, "\u{FEFF}"), refused(4, 3));
    assert_eq!(kinds(Run, "\u{FEFF}"), Some(vec![14]));
    assert_eq!(answer(Stage, "\u{FEFF}\u{FEFF}x"), refused(3, 6));
}

/// 1.5, 1.8: in texts, quoted strings, strings in braces and `/* */` all 25 are content, but for LF and CR in a string
/// in braces.
#[test]
fn content_stays_content() {
    for character in blanks().into_iter().chain(NO_BLANKS.chars()) {
        let text = format!("x{character}y");
        assert_eq!(kinds(Run, &text), Some(vec![14]), "{text:?}");
        let alone = character.to_string();
        assert_eq!(kinds(Run, &alone), Some(vec![14]), "{alone:?}");
        let quoted = format!("<a b='{character}'/>");
        let expected = vec![1, 18, 3, 8, 16, 10];
        assert_eq!(kinds(Stage, &quoted), Some(expected), "{quoted:?}");
        let string = format!("{{'{character}'}}");
        let broken = matches!(character, '\n' | '\r');
        let expected = (!broken).then(|| vec![11, 15]);
        assert_eq!(kinds(Run, &string), expected, "{string:?}");
        let comment = format!("<a/*{character}*//>");
        assert_eq!(kinds(Stage, &comment), Some(vec![1, 18, 3]), "{comment:?}");
    }
}

/// 1.13: a blank cut in its bytes is 2 at its first byte, whatever the reading would say before it.
#[test]
fn a_blank_cut_in_its_bytes() {
    for blank in blanks() {
        let bytes = blank.to_string().into_bytes();
        for cut in 1..bytes.len() {
            for (before, behind) in [("<a", ""), ("<a", "/>"), ("<<", ">"), ("<a>", "</a>")] {
                let input = [before.as_bytes(), &bytes[..cut], behind.as_bytes()].concat();
                let expected = refused(2, before.len());
                for reading in [Stage, Run] {
                    let answer = read(&input, reading, Limits::default());
                    assert_eq!(answer, expected, "{}", input.escape_ascii());
                }
            }
        }
    }
}
