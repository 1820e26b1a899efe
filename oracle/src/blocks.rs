//! Inputs for request 2: plain stretches, which may be looked over eight or more bytes at once. What ends or breaks one
//! stands at each place of a block, and so does what nearly does. The answer to each is known by how it is made.

use crate::random::Random;
use crate::table::{kind, records, Node};
use crate::Reading::{self, Run, Stage};
use crate::{Answer, Refusal};
use Bytes::{Again, Near, Nothing, Plain};
use Place::{At, Behind, From};

/// An input and what the documents say to it.
pub(crate) struct Known {
    pub class: &'static str,
    pub reading: Reading,
    pub input: Vec<u8>,
    pub answer: Answer,
}

/// Good sequences of 2, 3 and 4 bytes.
const SEQUENCES: [&str; 3] = ["é", "한", "😀"];

/// What isn't UTF-8 in front of an ASCII byte: a byte that leads nothing, and sequences that lack their last byte.
const BAD: [&[u8]; 7] = [
    b"\x80",
    b"\xBF",
    b"\xC0",
    b"\xFF",
    b"\xC3",
    b"\xE2\x82",
    b"\xF0\x9F\x98",
];

/// Sequences cut by the end of input.
const CUT: [&[u8]; 6] = [
    b"\xC3",
    b"\xE2",
    b"\xE2\x82",
    b"\xF0",
    b"\xF0\x9F",
    b"\xF0\x9F\x98",
];

/// Two that aren't good in one stretch: the first counts, whatever stands between.
const TWICE_BAD: [[&[u8]; 2]; 3] = [
    [b"\xFF", b"\x80"],
    [b"\x80", b"\xFF"],
    [b"\xE2\x82", b"\xC0"],
];

/// Across the borders of blocks of 8, 16 and 32 bytes.
const LAST_PLACE: usize = 40;
const LONGEST: usize = 70;
/// Places of an end: three blocks of eight, and the first byte of a fourth.
const LAST_PLACE_OF_AN_END: usize = 24;
/// Places at borders of blocks of eight and in front of them, so that sequences lie across.
const PLACES_AT_BORDERS: [usize; 12] = [5, 6, 7, 8, 13, 14, 15, 16, 29, 30, 31, 32];
/// Lengths at and next to the ends of blocks.
const LENGTHS_AT_BORDERS: [usize; 9] = [31, 32, 33, 39, 40, 41, 63, 64, 65];
/// As much as stands behind an end where more stands there: two blocks of eight and one byte more.
const MORE: usize = 17;

/// A text, a string or a comment: the bytes that open it, pieces that may stand in it and nearly end it, bytes that
/// would end it once more, behind an end, and bytes that close it and all else, so that it is accepted.
struct Content {
    class: &'static str,
    reading: Reading,
    opened_by: &'static str,
    near: fn() -> Vec<String>,
    again: &'static str,
    closed_by: &'static str,
}

const TEXT: Content = Content {
    class: "block-text",
    reading: Run,
    opened_by: "",
    near: || with(neighbours(b"<>{}"), &["\0", "\u{BB}", "\u{BD}"]),
    again: "a}{<>",
    closed_by: "",
};
const TEXT_OF_AN_ELEMENT: Content = Content {
    reading: Stage,
    opened_by: "<a>",
    closed_by: "</a>",
    ..TEXT
};
const QUOTED: Content = Content {
    class: "block-quote",
    reading: Stage,
    opened_by: "<a b=\"",
    near: || with(neighbours(b"\""), &["'", "\\", "\n", "\0", ">"]),
    again: "a\"",
    closed_by: "\"/>",
};
const QUOTED_ONCE: Content = Content {
    opened_by: "<a b='",
    near: || with(neighbours(b"'"), &["\"", "\\", "\r", "\0", "}"]),
    again: "a'",
    closed_by: "'/>",
    ..QUOTED
};
const STRING: Content = Content {
    class: "block-string",
    reading: Run,
    opened_by: "{\"",
    near: || with(neighbours(b"\"\\\n\r"), &["'", "\u{2028}", "\0"]),
    again: "a\"\r\n\\",
    closed_by: "\"}",
};
const STRING_QUOTED_ONCE: Content = Content {
    opened_by: "{'",
    near: || with(neighbours(b"'\\\n\r"), &["\"", "\u{2029}", "\0"]),
    again: "a'\\\n\r",
    closed_by: "'}",
    ..STRING
};
const COMMENT: Content = Content {
    class: "block-comment",
    reading: Stage,
    opened_by: "<a/*",
    near: near_comment_ends,
    again: "a*/",
    closed_by: "*//>",
};
const COMMENT_IN_BRACES: Content = Content {
    reading: Run,
    opened_by: "{/*",
    closed_by: "*/}",
    ..COMMENT
};
const LINE: Content = Content {
    class: "block-line",
    reading: Stage,
    opened_by: "<a//",
    near: || with(neighbours(b"\n\r"), &NEAR_LINE_ENDS),
    again: "a\n\r\u{2029}",
    closed_by: "\u{2028}/>",
};
const LINE_IN_BRACES: Content = Content {
    reading: Run,
    opened_by: "{//",
    closed_by: "\r}",
    ..LINE
};

/// U+2028 and U+2029 are E2 80 A8 and E2 80 A9: characters that share two of these bytes, or the last one behind a
/// first byte near E2.
#[rustfmt::skip]
const NEAR_LINE_ENDS: [&str; 15] = [
    "\u{2027}", "\u{202A}", "\u{20A8}", "\u{2068}", "\u{20A9}", "\u{2128}", "\u{A8}", "\u{A9}",
    "\u{928}", "\u{1028}", "\u{3029}", "\u{6028}", "\u{A029}", "\u{80028}", "*/",
];

/// A byte next to a star and a slash, and a star and a byte next to a slash.
fn near_comment_ends() -> Vec<String> {
    let (stars, slashes) = (neighbours(b"*"), neighbours(b"/"));
    let near_a_star = stars.iter().map(|star| format!("{star}/"));
    let near_a_slash = slashes.iter().map(|slash| format!("*{slash}"));
    with(
        near_a_star.chain(near_a_slash).collect(),
        &["/", "**)", "* /"],
    )
}

fn with(mut pieces: Vec<String>, others: &[&str]) -> Vec<String> {
    pieces.extend(others.iter().map(|other| other.to_string()));
    pieces
}

/// Bytes one bit away from one of these or one more or less, and none of these; each as it can stand in UTF-8.
fn neighbours(ends: &[u8]) -> Vec<String> {
    let mut all = Vec::new();
    for end in ends {
        let bits = (0..8).map(|bit| end ^ 1 << bit);
        let near = bits.chain([end - 1, end + 1]);
        for byte in near.filter(|byte| !ends.contains(byte)) {
            match with_byte(byte) {
                Some(piece) if !all.contains(&piece) => all.push(piece),
                _ => {}
            }
        }
    }
    all
}

/// A character that is this byte, ends with it, or begins with it and has two.
fn with_byte(byte: u8) -> Option<String> {
    let bytes = match byte {
        0x00..=0x7F => vec![byte],
        0x80..=0xBF => vec![0xC2, byte],
        _ => vec![byte, 0x80],
    };
    String::from_utf8(bytes).ok()
}

/// What ends a content or is refused in it, with what is refused behind it; the refusal's number and its place.
type End = (&'static str, u32, Place);

enum Place {
    /// So many bytes behind the content.
    Behind(usize),
    /// Where the string or the comment begins.
    At(usize),
    /// From the string's quote to the content's end.
    From(usize),
}

/// Contents with their ends, at every place.
struct Row {
    ended: &'static [(Content, End)],
    /// At each place one of them in its turn; else each.
    in_turns: bool,
    inside: Bytes,
    behind: Bytes,
}

#[derive(Clone, Copy)]
enum Bytes {
    Plain,
    /// Pieces that nearly end the content.
    Near,
    /// What would end it once more, and letters.
    Again,
    Nothing,
}

const fn each(ended: &'static [(Content, End)], inside: Bytes, behind: Bytes) -> Row {
    Row {
        ended,
        in_turns: false,
        inside,
        behind,
    }
}

const fn in_turns(ended: &'static [(Content, End)], inside: Bytes, behind: Bytes) -> Row {
    Row {
        in_turns: true,
        ..each(ended, inside, behind)
    }
}

#[rustfmt::skip]
const ROWS: [Row; 29] = [
    // `</` outermost in a run is 3 at the `<`; no expression begins with `,`.
    each(&[
        (TEXT, ("</", 3, Behind(0))),
        (TEXT, (">", 6, Behind(0))),
        (TEXT, ("{,", 3, Behind(1))),
        (TEXT, ("}", 6, Behind(0))),
    ], Plain, Again),
    each(&[
        (TEXT, ("<=", 3, Behind(1))),
        (TEXT, (">?", 6, Behind(0))),
        (TEXT, ("{|~", 3, Behind(1))),
        (TEXT, ("}~", 6, Behind(0))),
    ], Near, Near),
    in_turns(&[
        (TEXT, ("<", 4, Behind(1))),
        (TEXT, (">", 6, Behind(0))),
        (TEXT, ("{", 4, Behind(1))),
        (TEXT, ("}", 6, Behind(0))),
    ], Plain, Nothing),
    in_turns(&[
        (TEXT_OF_AN_ELEMENT, ("<;", 3, Behind(1))),
        (TEXT_OF_AN_ELEMENT, (">=", 6, Behind(0))),
        (TEXT_OF_AN_ELEMENT, ("{?", 3, Behind(1))),
        (TEXT_OF_AN_ELEMENT, ("}|", 6, Behind(0))),
    ], Near, Again),
    each(&[(QUOTED, ("\"~", 3, Behind(1))), (QUOTED_ONCE, ("'~", 3, Behind(1)))], Plain, Again),
    each(&[(QUOTED, ("\"#", 3, Behind(1))), (QUOTED_ONCE, ("'(", 3, Behind(1)))], Near, Near),
    in_turns(&[(QUOTED, ("\"", 4, Behind(1))), (QUOTED_ONCE, ("'", 4, Behind(1)))], Plain, Nothing),
    in_turns(&[(QUOTED, ("", 5, At(5))), (QUOTED_ONCE, ("", 5, At(5)))], Plain, Nothing),
    in_turns(&[(QUOTED_ONCE, ("", 5, At(5))), (QUOTED, ("", 5, At(5)))], Near, Nothing),
    each(&[(STRING, ("\"~", 3, Behind(1))), (STRING_QUOTED_ONCE, ("'~", 3, Behind(1)))], Plain, Again),
    in_turns(&[(STRING, ("\"#", 3, Behind(1))), (STRING_QUOTED_ONCE, ("'&#", 3, Behind(1)))], Near, Near),
    each(&[
        (STRING, ("\\", 3, Behind(0))),
        (STRING_QUOTED_ONCE, ("\n", 3, From(1))),
        (STRING, ("\r", 3, From(1))),
    ], Plain, Again),
    in_turns(&[
        (STRING_QUOTED_ONCE, ("\\]", 3, Behind(0))),
        (STRING, ("\n\x0B", 3, From(1))),
        (STRING_QUOTED_ONCE, ("\r\x0E", 3, From(1))),
    ], Near, Near),
    in_turns(&[
        (STRING, ("\"", 4, Behind(1))),
        (STRING_QUOTED_ONCE, ("\\", 3, Behind(0))),
        (STRING_QUOTED_ONCE, ("'", 4, Behind(1))),
        (STRING, ("\n", 3, From(1))),
    ], Plain, Nothing),
    in_turns(&[(STRING, ("", 18, At(1))), (STRING_QUOTED_ONCE, ("", 18, At(1)))], Plain, Nothing),
    in_turns(&[(STRING_QUOTED_ONCE, ("", 18, At(1))), (STRING, ("", 18, At(1)))], Near, Nothing),
    each(&[(COMMENT, ("*/~", 3, Behind(2)))], Plain, Again),
    each(&[(COMMENT, ("*/~", 3, Behind(2)))], Near, Near),
    in_turns(&[
        (COMMENT_IN_BRACES, ("*/~", 3, Behind(2))),
        (COMMENT_IN_BRACES, ("****/~", 3, Behind(5))),
    ], Near, Again),
    // A star with no slash behind it, a slash with no star before it, about a block of eight before the end.
    each(&[
        (COMMENT, ("*abcdefg*/~", 3, Behind(10))),
        (COMMENT, ("**/~", 3, Behind(3))),
    ], Plain, Again),
    in_turns(&[
        (COMMENT, ("/abcdefg*/~", 3, Behind(10))),
        (COMMENT, ("*\u{AF}abcdef*/~", 3, Behind(11))),
        (COMMENT, ("\u{AA}/abcdef*/~", 3, Behind(11))),
        (COMMENT, ("*a/bcdefg*/~", 3, Behind(11))),
    ], Plain, Again),
    in_turns(&[(COMMENT, ("*", 17, At(2))), (COMMENT_IN_BRACES, ("*", 17, At(1)))], Plain, Nothing),
    in_turns(&[(COMMENT, ("", 17, At(2))), (COMMENT_IN_BRACES, ("", 17, At(1)))], Plain, Nothing),
    in_turns(&[(COMMENT_IN_BRACES, ("", 17, At(1))), (COMMENT, ("", 17, At(2)))], Near, Nothing),
    each(&[
        (LINE, ("\n~", 3, Behind(1))),
        (LINE, ("\r~", 3, Behind(1))),
        (LINE, ("\u{2028}~", 3, Behind(3))),
        (LINE, ("\u{2029}~", 3, Behind(3))),
    ], Plain, Again),
    in_turns(&[
        (LINE, ("\u{2028}~", 3, Behind(3))),
        (LINE, ("\n~", 3, Behind(1))),
        (LINE, ("\u{2029}~", 3, Behind(3))),
        (LINE, ("\r~", 3, Behind(1))),
    ], Near, Near),
    in_turns(&[
        (LINE_IN_BRACES, ("\n~", 3, Behind(1))),
        (LINE_IN_BRACES, ("\u{2029}~", 3, Behind(3))),
        (LINE_IN_BRACES, ("\x0E\r~", 3, Behind(2))),
        (LINE_IN_BRACES, ("\u{2028}~", 3, Behind(3))),
    ], Near, Nothing),
    each(&[(LINE, ("", 4, Behind(0)))], Plain, Nothing),
    each(&[(LINE_IN_BRACES, ("", 4, Behind(0)))], Near, Nothing),
];

pub(crate) fn inputs() -> Vec<Known> {
    let mut all = Vec::new();
    bad_bytes(&mut all);
    bad_bytes_behind_sequences(&mut all);
    bad_ends(&mut all);
    sequences(&mut all);
    lengths_of_texts(&mut all);
    other_lengths(&mut all);
    texts_that_nearly_end(&mut all);
    ends_at_places(&mut all);
    all
}

/// So many letters.
fn plain(length: usize) -> Vec<u8> {
    (b'a'..=b'z').cycle().take(length).collect()
}

/// So many bytes of the pieces, from one of them on in their order, round and round; letters before them where the last
/// piece would be too long.
fn of_pieces(pieces: &[String], first: usize, length: usize) -> Vec<u8> {
    let mut bytes = Vec::new();
    for piece in pieces.iter().cycle().skip(first % pieces.len()) {
        if bytes.len() + piece.len() > length {
            break;
        }
        bytes.extend_from_slice(piece.as_bytes());
    }
    [plain(length - bytes.len()), bytes].concat()
}

/// Whose turn it is at a place: the next one's at each byte, and one further in each block of eight, so that they take
/// turns at each byte of a block too.
fn turn(place: usize, how_many: usize) -> usize {
    (place % 8 + place / 8) % how_many
}

pub(crate) fn refused(refusal: Refusal) -> Answer {
    let Refusal { number, places } = refusal;
    Answer::Refused { number, places }
}

/// D: "2 | not UTF-8 | offset where no good sequence begins": the offset is the length of the good beginning.
fn bad(good: Vec<u8>, rest: &[u8]) -> Known {
    Known {
        class: "block-bad",
        reading: Run,
        answer: refused(Refusal::at(2, good.len())),
        input: [&good, rest].concat(),
    }
}

/// At each place of a stretch from the input's start, each that isn't good; and two of them.
fn bad_bytes(all: &mut Vec<Known>) {
    for place in 0..=LAST_PLACE {
        let behind = plain(LAST_PLACE + 8 - place);
        for bytes in BAD {
            all.push(bad(plain(place), &[bytes, &behind].concat()));
        }
        let [first, second] = TWICE_BAD[turn(place, 3)];
        let between = plain([0, 1, 6, 7, 8, 15, 31][turn(place, 7)]);
        let rest = [first, &between, second, &behind].concat();
        all.push(bad(plain(place), &rest));
    }
}

/// Blocks may begin anew behind a sequence: at each place of a stretch behind one that begins the input, and near one
/// that stands at each place.
fn bad_bytes_behind_sequences(all: &mut Vec<Known>) {
    for place in 0..=LAST_PLACE {
        for (number, sequence) in SEQUENCES.iter().enumerate() {
            let good = [sequence.as_bytes(), &plain(place)].concat();
            let bytes = BAD[(turn(place, 7) + number) % 7];
            all.push(bad(good, &[bytes, &plain(MORE)].concat()));
        }
        let sequence = SEQUENCES[turn(place, 3)].as_bytes();
        let between = plain(place * 3 % 8);
        let bytes = BAD[(turn(place, 7) + 3) % 7];
        let good = [&plain(place), sequence, &between].concat();
        all.push(bad(good, &[bytes, &plain(MORE)].concat()));
    }
}

/// As the last bytes of the input.
fn bad_ends(all: &mut Vec<Known>) {
    for place in 0..LONGEST {
        all.push(bad(plain(place), b"\x80"));
    }
    for place in 0..=LAST_PLACE {
        all.push(bad(plain(place), CUT[turn(place, 6)]));
    }
}

/// In a text that ends by a byte refused there, and in one of an element, near borders: 6 stands behind what was read.
fn sequences(all: &mut Vec<Known>) {
    let known = |reading, read: Vec<u8>, end: &str| Known {
        class: "block-sequence",
        reading,
        answer: refused(Refusal::at(6, read.len())),
        input: [&read, end.as_bytes()].concat(),
    };
    for place in 0..=LAST_PLACE {
        for sequence in SEQUENCES {
            let text = [&plain(place), sequence.as_bytes(), &plain(MORE)].concat();
            all.push(known(Run, text, ">"));
        }
    }
    for place in PLACES_AT_BORDERS {
        let sequence = SEQUENCES[place % 3].as_bytes();
        let text = [b"<a>", &plain(place)[..], sequence, &plain(place % 8)].concat();
        all.push(known(Stage, text, "}"));
    }
}

/// A run of so many letters is one text; in an element, with a sequence as its last bytes, its closing tag is missing.
fn lengths_of_texts(all: &mut Vec<Known>) {
    for length in 0..=LONGEST {
        let text = Node::leaf(kind::TEXT, 0, length);
        let texts = if length == 0 { vec![] } else { vec![text] };
        all.push(Known {
            class: "block-length",
            reading: Run,
            input: plain(length),
            answer: Answer::Accepted(records(&texts)),
        });
        let sequence = SEQUENCES[turn(length, 3)].as_bytes();
        let input = [b"<a>", &plain(length)[..], sequence].concat();
        all.push(Known {
            class: "block-length",
            reading: Stage,
            answer: refused(Refusal::at(4, input.len())),
            input,
        });
    }
}

/// Strings and comments that are longer than those at the places of an end.
fn other_lengths(all: &mut Vec<Known>) {
    let known = |content, length, end| Known {
        class: "block-length",
        ..ended(content, plain(length), end, &plain(length % 9))
    };
    for length in LAST_PLACE_OF_AN_END + 1..=LONGEST {
        all.push(known(&QUOTED, length, &("\"~", 3, Behind(1))));
        all.push(known(&COMMENT, length, &("*/~", 3, Behind(2))));
    }
    for length in LENGTHS_AT_BORDERS {
        let string = &STRING_QUOTED_ONCE;
        all.push(known(string, length, &("'~", 3, Behind(1))));
        all.push(known(&LINE, length, &("\u{2028}~", 3, Behind(3))));
    }
}

/// What nearly ends a text, at each byte of a block: it is one text. (A refusal behind it would be the same if it were
/// two.)
fn texts_that_nearly_end(all: &mut Vec<Known>) {
    let near = (TEXT.near)().concat().into_bytes();
    for place in 0..8 {
        let text = [&plain(place)[..], &near, &plain(MORE)].concat();
        let node = Node::leaf(kind::TEXT, 0, text.len());
        all.push(Known {
            class: TEXT.class,
            reading: Run,
            input: text,
            answer: Answer::Accepted(records(&[node])),
        });
        all.push(near_miss_before_braces(place));
    }
}

/// The last byte of a text is one more than the one that ends it; blanks in the braces fill the block.
fn near_miss_before_braces(place: usize) -> Known {
    let text = [&plain(place)[..], b"|"].concat();
    let inside = text.len() + 1;
    let close = inside + MORE;
    let empty = Node::leaf(kind::EMPTY_EXPRESSION, inside, close);
    let nodes = [
        Node::leaf(kind::TEXT, 0, text.len()),
        Node::holding(kind::CONTAINER, text.len(), close + 1, vec![empty]),
    ];
    Known {
        class: TEXT.class,
        reading: Run,
        input: [&text, &b"{"[..], &[b' '; MORE], b"}"].concat(),
        answer: Answer::Accepted(records(&nodes)),
    }
}

fn ended(content: &Content, inside: Vec<u8>, end: &End, behind: &[u8]) -> Known {
    let (bytes, number, place) = end;
    let stop = content.opened_by.len() + inside.len();
    let refusal = match *place {
        Behind(further) => Refusal::at(*number, stop + further),
        At(opener) => Refusal::at(*number, opener),
        From(quote) => Refusal::over(*number, (quote, stop)),
    };
    let opened_by = content.opened_by.as_bytes();
    Known {
        class: content.class,
        reading: content.reading,
        input: [opened_by, &inside, bytes.as_bytes(), behind].concat(),
        answer: refused(refusal),
    }
}

impl Bytes {
    /// So many, of the pieces from one of them on.
    fn of_length(self, content: &Content, first: usize, length: usize) -> Vec<u8> {
        match self {
            Plain => plain(length),
            Near => of_pieces(&(content.near)(), first, length),
            Again => [content.again.as_bytes(), &plain(length)].concat(),
            Nothing => Vec::new(),
        }
    }
}

fn ends_at_places(all: &mut Vec<Known>) {
    for row in &ROWS {
        for place in 0..=LAST_PLACE_OF_AN_END {
            let numbers = match row.in_turns {
                true => vec![turn(place, row.ended.len())],
                false => (0..row.ended.len()).collect(),
            };
            for number in numbers {
                let (content, end) = &row.ended[number];
                let first = place + 5 * number;
                let inside = row.inside.of_length(content, first, place);
                let behind = row.behind.of_length(content, first + 1, MORE);
                all.push(ended(content, inside, end, &behind));
            }
        }
    }
}

/// A content of at most 70 bytes, closed, ended or neither; once in three a sequence or bad bytes stand somewhere.
pub(crate) fn drawn(random: &mut Random) -> (Reading, Vec<u8>) {
    let row = &ROWS[random.below(ROWS.len())];
    let (content, (end, ..)) = &row.ended[random.below(row.ended.len())];
    let bytes = if random.once_in(2) { Plain } else { Near };
    let length = random.below(LONGEST + 1);
    let inside = bytes.of_length(content, random.below(40), length);
    let behind = plain(random.below(MORE));
    let rest = match random.below(5) {
        0 => &b""[..],
        1 | 2 => content.closed_by.as_bytes(),
        _ => &[end.as_bytes(), &behind].concat(),
    };
    let input = [content.opened_by.as_bytes(), &inside, rest].concat();
    (content.reading, perhaps_broken(random, input))
}

/// At most 70 letters, once in three with a sequence or bad bytes among them.
pub(crate) fn drawn_stretch(random: &mut Random) -> Vec<u8> {
    let stretch = plain(random.below(LONGEST + 1));
    perhaps_broken(random, stretch)
}

fn perhaps_broken(random: &mut Random, bytes: Vec<u8>) -> Vec<u8> {
    let new = match random.below(6) {
        0 => random.one_of(&SEQUENCES).as_bytes(),
        1 => random.one_of(&BAD),
        _ => return bytes,
    };
    let at = random.below(bytes.len() + 1);
    [&bytes[..at], new, &bytes[at..]].concat()
}
