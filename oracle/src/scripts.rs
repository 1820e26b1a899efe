//! Inputs for request 7: names in tags of all scripts. Of most the answer is known by how they are made.

use crate::blanks;
use crate::blocks::{refused, Known};
use crate::characters::{id_continue, id_start, Property};
use crate::random::Random;
use crate::Reading::{self, Run, Stage};
use crate::Refusal;

/// Characters that no name part has, and that are no blanks: signs that look like a dash, a colon or a dot (7.6), and
/// others (7.3).
pub(crate) const IN_NO_NAME: [&str; 14] = [
    "×",
    "\u{AD}",
    "\u{2010}",
    "\u{2011}",
    "−",
    "－",
    "：",
    "．",
    "\u{2E2F}",
    "\u{378}",
    "\u{E000}",
    "\u{10FFFF}",
    "😀",
    "€",
];

/// May begin a name part: of two, three and four bytes.
const LETTERS: [&str; 7] = ["é", "λ", "ª", "한", "℘", "𐐀", "𠀀"];

/// May stand in a name part, but not begin it.
const LATER_ONLY: [&str; 8] = [
    "\u{301}",
    "·",
    "٣",
    "\u{200C}",
    "\u{200D}",
    "\u{203F}",
    "\u{30FB}",
    "\u{1D165}",
];

/// Names of several widths, of which each cut is asked about.
const CUT: [&str; 9] = [
    "é",
    "λόγος",
    "aé",
    "한국어",
    "a한_b",
    "𐐀𐐁",
    "x𠀀",
    "é한𐐀a",
    "k\u{301}\u{200D}",
];

/// Letters of 1, 2, 3 and 4 bytes.
const BY_WIDTH: [[char; 5]; 4] = [
    ['a', 'Z', '_', '$', 'q'],
    ['é', 'λ', 'Я', 'ש', 'ü'],
    ['한', 'ก', 'あ', 'ꙮ', '中'],
    ['𐐀', '𝒳', '𠀀', '𓀀', '𞤀'],
];

/// In no name: of two, three and four bytes, and of one.
const STOPS: [&str; 4] = ["×", "\u{2010}", "😀", "!"];

/// Names that a reader might take for the same one (7.10): composed and not, one sign twice in Unicode, in another
/// case, with and without a character that isn't shown, in another order, by the low seven bits.
#[rustfmt::skip]
const LIKE_EACH_OTHER: [(&str, &str); 26] = [
    ("é", "e\u{301}"), ("Å", "\u{212B}"), ("Å", "A\u{30A}"), ("Ω", "\u{2126}"), ("K", "\u{212A}"),
    ("한", "\u{1112}\u{1161}\u{11AB}"), ("が", "か\u{3099}"), ("神", "\u{FA19}"),
    ("a", "a\u{200D}"), ("a", "a\u{200C}"), ("a\u{200C}", "a\u{200D}"), ("a\u{200D}b", "ab"),
    ("क\u{94D}ष", "क\u{94D}\u{200D}ष"), ("a", "a\u{FE0F}"), ("a", "a\u{E0100}"),
    ("é", "É"), ("ς", "σ"), ("ß", "ss"), ("ı", "i"), ("𐐀", "𐐨"),
    ("ａ", "a"), ("ﬁ", "fi"), ("ο", "o"), ("q\u{323}\u{307}", "q\u{307}\u{323}"),
    ("ä", "C$"), ("ð", "C0"),
];

/// An opening and a closing tag with these two names, `1` and `2`, and what is refused behind them where they are
/// equal.
const CLOSED_BY: [&str; 9] = [
    "<1></2>x",
    "<2></1>x",
    "<1></1>x",
    "<2></2>x",
    "<a.1></ a . 2>x",
    "<1.b></2 .b>x",
    "<a:1></a: 2>x",
    "<1 : b></ 2:b>x",
    "<a.1.b></a .1. b>x",
];

/// Frames with a hole, `@`, for a character; their class and reading; what is refused behind those that are good.
type Places = (&'static str, Reading, &'static [&'static str], &'static str);

const PLACES: [Places; 4] = [
    ("name-tag", Stage, TAGS, "x"),
    ("name-closing", Stage, CLOSING_TAGS, "x"),
    ("name-braces", Run, BRACES, "}"),
    ("name-around", Run, AROUND, ""),
];

/// Where a name part of an opening tag may begin, go on or end.
#[rustfmt::skip]
const TAGS: &[&str] = &[
    "<@/>", "< @/>", "<@a/>", "<@@/>", "<a@/>", "<A@/>", "<_@/>", "<$@/>", "<1@/>", "<-@/>", "<a@b/>", "<a @/>",
    "<a-@/>", "<@-/>", "<a@-/>", "<a--@/>", "<this@/>", "<@this/>", "<thi@s/>", "<this@.b/>", "<@.b/>", "<@-.b/>",
    "<a.@/>", "<a.@-/>", "<a.b@/>", "<a.b@-/>", "<a.@b/>", "<a.-@/>", "<a@.b/>", "<a.b.@/>", "<a. @ .b/>", "<this.@/>",
    "<@:b/>", "<a@:b/>", "<a:@/>", "<a:b@/>", "<a:@-/>", "<a:b-@/>", "<a: @/>", "<a:b.@/>", "<a:b@c/>", "<@:@/>",
    "<a b@/>", "<a @b/>", "<a b@c/>", "<a b-@/>", "<a @=''/>", "<a b@=''/>", "<a @:c/>", "<a b:@/>", "<a b:c@/>",
    "<a b: @={c}/>", "<a b.@/>", "<a b=@/>", "<a b=''@/>", "<a b=''@=''/>", "<a b={c}@/>", "<a b=<c/>@/>",
    "<a b=<@/>/>", "<a {...b}@/>", "<a{...b}@=''/>", "<a/@>", "<@", "<a@", "<a @", "<a.@", "<a:@", "<a b='@'/>",
];

/// The same of a closing tag.
#[rustfmt::skip]
const CLOSING_TAGS: &[&str] = &[
    "<@></@>", "<@></ @ >", "<a></@>", "<@></a>", "<a></a@>", "<a@></a>", "<a@></a@>", "<></@>", "<@></>",
    "<a.@></a.@>", "<a.@></a . @>", "<@.b></@.b>", "<@.b></@:b>", "<a.b></a.b@>", "<a.b></a.@b>", "<a.b></a.b-@>",
    "<a:@></a:@>", "<@:b></@ : b>", "<a:b></a:b@>", "<a:b></a:@>", "<a-@></a-@>", "<this@></this>", "<a></@", "<a></a@",
    "<a><@/></a>", "<a>@<@></@></a>",
];

/// Names in braces stay ASCII (7.11, 7.12); tags that stand in braces are tags.
#[rustfmt::skip]
const BRACES: &[&str] = &[
    "{@}", "{a@}", "{@a}", "{a.@}", "{a.b@}", "{a.@b}", "{1@}", "{1.5@}", "{0@}", "{1.@}", "{if@}", "{let@}",
    "{this@}", "{a[@]}", "{a(@)}", "{(@)}", "{!@}", "{-@}", "{a?@:b}", "{a+@}", "{a@+b}", "{'@'}", "{...@}",
    "{<@/>}", "{<a@/>}", "{<@ @={b}/>}", "{<@></@>}", "{<a b={@}/>}", "{<a b={<@/>}/>}", "{a&&<@/>||b}",
    "{<a {...@}/>}",
];

/// Where no name stands.
const AROUND: &[&str] = &[
    "@",
    "a@b",
    "<a>@</a>",
    "<a/>@<b/>",
    "{}@{}",
    "</@",
    "//@",
    "{/*@*/}",
    "{//@\n}",
];

/// Blanks between name characters beyond ASCII (7.17).
const SPACED: [&str; 14] = [
    "<@é/>x",
    "<é@/>x",
    "<é@한/>x",
    "<é@.한/>x",
    "<é.@한/>x",
    "<é@:한/>x",
    "<é:@한/>x",
    "<é 한@𐐀/>x",
    "<é 한@=''/>x",
    "<é><@/é>x",
    "<é></@é>x",
    "<é></é@>x",
    "<é.한></é@.@한>x",
    "<é한@\u{301}/>x",
];

pub(crate) fn inputs() -> Vec<Known> {
    let mut all = Vec::new();
    changes_of_width(&mut all);
    alternating_widths(&mut all);
    stops(&mut all);
    cuts(&mut all);
    other_closing_names(&mut all);
    drawn_names(&mut all);
    all
}

/// An input whose answer the reader alone gives: its class, its reading and its bytes.
pub(crate) type Asked = (&'static str, Reading, Vec<u8>);

pub(crate) fn others() -> Vec<Asked> {
    let mut all = Vec::new();
    characters_in_places(&mut all);
    for (one, other) in LIKE_EACH_OTHER {
        for frame in CLOSED_BY {
            let input = frame.replace('1', one).replace('2', other);
            all.push(("name-like", Stage, input.into_bytes()));
        }
    }
    for frame in SPACED {
        for blank in blanks::characters() {
            all.push(("name-spaced", Stage, blanks::filled(frame, blank)));
        }
    }
    deep_names(&mut all);
    for number in 0..DRAWN {
        let mut random = Random::seeded(11_000_000 + number);
        let input = drawn_tag(&mut random);
        all.push(("name-hurt", Stage, one_byte_changed(&mut random, input)));
    }
    all
}

/// Letters and later characters of each width, and what is in no name.
pub(crate) fn characters() -> Vec<&'static str> {
    [&LETTERS[..], &LATER_ONLY[..], &IN_NO_NAME[..]].concat()
}

/// Each character in each frame; and each frame as it stands, with no refusal behind it, the characters taking turns.
fn characters_in_places(all: &mut Vec<Asked>) {
    let characters = characters();
    let mut letters = LETTERS.iter().chain(&LATER_ONLY).cycle();
    for (class, reading, frames, end) in PLACES {
        for frame in frames {
            for character in &characters {
                let input = blanks::filled(&[frame, end].concat(), character);
                all.push((class, reading, input));
            }
            for _ in 0..2 {
                let letter = letters.next().expect("a turn");
                all.push(("name-whole", reading, blanks::filled(frame, letter)));
            }
        }
    }
}

/// 7.14: what may be the 65th level, and what nearly is.
fn deep_names(all: &mut Vec<Asked>) {
    let openers = ["<é>", "<한.λ>", "<a-𐐀>", "<>"];
    let tails = ["<@", "<@>", "<\u{A0}@", "</@", "<a @={", "{<@", "<@ b=<@"];
    let mut turns = openers.iter().cycle();
    for character in characters() {
        for tail in tails {
            let opener = turns.next().expect("a turn");
            for depth in [63, 64] {
                let input = [opener.repeat(depth), tail.replace('@', character)].concat();
                all.push(("name-deep", Stage, input.into_bytes()));
            }
        }
    }
}

/// So many letters of a width, from one of them on.
fn letters(width: usize, from: usize, count: usize) -> String {
    let all = BY_WIDTH[width].iter().cycle();
    all.skip(from % 5).take(count).collect()
}

/// Longer than a block of 32 bytes where each letter has one.
const LONGEST: usize = 40;

/// Beginnings behind which a name part stands.
const BEGINNINGS: [&str; 6] = ["<", "<a ", "<a.", "<a:", "<a></", "<a b='c'"];

/// A name part behind a beginning, and a byte behind it that is refused by 3: there it ended.
fn ended(class: &'static str, beginning: &str, part: &str, stop: &str) -> Known {
    let read = [beginning, part].concat();
    Known {
        class,
        reading: Stage,
        answer: refused(Refusal::at(3, read.len())),
        input: [&read, stop].concat().into_bytes(),
    }
}

/// The input ends behind the part.
fn unended(class: &'static str, beginning: &str, part: &str) -> Known {
    let input = [beginning, part].concat().into_bytes();
    Known {
        class,
        reading: Stage,
        answer: refused(Refusal::at(4, input.len())),
        input,
    }
}

/// From one width to another at each place.
fn changes_of_width(all: &mut Vec<Known>) {
    for place in 1..=LONGEST {
        for one in 0..4 {
            for other in (0..4).filter(|&other| other != one) {
                let behind = letters(other, place, 1 + place % 4);
                let part = [letters(one, place, place), behind].concat();
                let beginning = BEGINNINGS[(place + one + 3 * other) % BEGINNINGS.len()];
                all.push(ended("name-widths", beginning, &part, "!"));
            }
        }
    }
}

/// Letters of two widths, or of all four, by turns, to each length.
fn alternating_widths(all: &mut Vec<Known>) {
    #[rustfmt::skip]
    let turns: [&[usize]; 9] = [
        &[0, 1], &[0, 2], &[0, 3], &[1, 2], &[1, 3], &[2, 3], &[0, 1, 2, 3], &[3, 0, 2, 0, 1, 0], &[0, 0, 0, 1],
    ];
    for length in 1..=LONGEST {
        for (number, widths) in turns.iter().enumerate() {
            let widths = widths.iter().cycle().skip(length % widths.len());
            let part = widths.take(length).enumerate();
            let part: String = part.map(|(at, &width)| letters(width, at, 1)).collect();
            let beginning = BEGINNINGS[(length + number) % BEGINNINGS.len()];
            all.push(unended("name-widths", beginning, &part));
        }
    }
}

/// What is in no name, at each place of one.
fn stops(all: &mut Vec<Known>) {
    for place in 1..=LONGEST {
        for width in 0..4 {
            for stop in STOPS {
                let stop = [stop, "a"].concat();
                let beginning = BEGINNINGS[(place + width) % BEGINNINGS.len()];
                let part = letters(width, place, place);
                all.push(ended("name-stops", beginning, &part, &stop));
            }
        }
    }
}

/// 7.16: between characters 4, inside one 2.
fn cuts(all: &mut Vec<Known>) {
    for name in CUT {
        for beginning in BEGINNINGS {
            for cut in 1..=name.len() {
                let whole = (0..=cut).rev().find(|&at| name.is_char_boundary(at));
                let whole = whole.unwrap_or(0);
                let number = if whole == cut { 4 } else { 2 };
                all.push(Known {
                    class: "name-cut",
                    reading: Stage,
                    answer: refused(Refusal::at(number, beginning.len() + whole)),
                    input: [beginning.as_bytes(), &name.as_bytes()[..cut]].concat(),
                });
            }
        }
    }
}

/// Another letter of the width, at one place; or the name with a letter less or more.
fn other_closing_names(all: &mut Vec<Known>) {
    for place in 0..LONGEST {
        for width in 0..4 {
            let name = letters(width, place, LONGEST);
            let mut other: Vec<char> = name.chars().collect();
            other[place] = next_letter(other[place]);
            all.push(closed_by(&name, &other.iter().collect::<String>()));
            let name = letters(width, place, place + 1);
            let longer = [&name[..], BY_WIDTH[place % 4][0].to_string().as_str()].concat();
            all.push(closed_by(&name, &longer));
            all.push(closed_by(&longer, &name));
        }
    }
}

/// Another letter of the width: one bit away in its last byte or in one before it, by turns, else any.
fn next_letter(letter: char) -> char {
    let code = u32::from(letter);
    let near = [1, 2, 4, 0x40, 0x80, 0x1000].map(|bit| char::from_u32(code ^ bit));
    let turns = near.iter().cycle().skip(code as usize % near.len());
    let others = BY_WIDTH[letter.len_utf8() - 1];
    let mut letters = turns.take(near.len()).flatten().chain(&others);
    let other =
        letters.find(|&&c| id_start().has(c) && c.len_utf8() == letter.len_utf8() && c != letter);
    *other.expect("there are other letters")
}

/// D: "7 | closing name differs | opening name; closing name".
fn closed_by(name: &str, other: &str) -> Known {
    let closing = 1 + name.len() + 3;
    let places = ((1, 1 + name.len()), (closing, closing + other.len()));
    Known {
        class: "name-other",
        reading: Stage,
        answer: refused(Refusal::two(7, places.0, places.1)),
        input: format!("<{name}></{other}>").into_bytes(),
    }
}

/// So many names of any script are drawn, and as many tags that are hurt.
const DRAWN: u64 = 600;

fn drawn_names(all: &mut Vec<Known>) {
    for number in 0..DRAWN {
        let mut random = Random::seeded(10_000_000 + number);
        let part = drawn_part(&mut random).replace('-', "_");
        let beginning = BEGINNINGS[random.below(BEGINNINGS.len())];
        let stop = random.one_of(&STOPS);
        all.push(ended("name-drawn", beginning, &part, stop));
    }
}

/// A name part: mostly short, of one script's range or of any, with a dash, U+200C or U+200D now and then.
pub(crate) fn drawn_part(random: &mut Random) -> String {
    let longest = [1, 3, 8, LONGEST][random.below(4)];
    let mut part = String::new();
    part.push(match random.below(4) {
        0 => BY_WIDTH[0][random.below(5)],
        _ => drawn_of(random, id_start()),
    });
    for _ in 0..random.below(longest) {
        part.push(match random.below(12) {
            0 => '-',
            1 => ['\u{200C}', '\u{200D}', '\u{301}', '·'][random.below(4)],
            2..=5 => BY_WIDTH[random.below(4)][random.below(5)],
            6 => char::from(b'0' + random.below(10) as u8),
            _ => drawn_of(random, id_continue()),
        });
    }
    part
}

/// Any character of any range, as often at an end of it.
fn drawn_of(random: &mut Random, property: &Property) -> char {
    let (first, last) = property.ranges[random.below(property.ranges.len())];
    let code = match random.below(4) {
        0 => first,
        1 => last,
        _ => first + random.below((last - first + 1) as usize) as u32,
    };
    char::from_u32(code).expect("no range has surrogates")
}

/// A stage of one tag or two, with names of any script.
fn drawn_tag(random: &mut Random) -> Vec<u8> {
    let [one, other] = [(); 2].map(|()| drawn_part(random));
    let plain = other.replace('-', "_");
    let tag = match random.below(6) {
        0 => format!("<{one}/>"),
        1 => format!("<{one} {other}=''/>"),
        2 => format!("<{one}:{other}/>"),
        3 => format!("<{one}.{plain}/>"),
        4 => format!("<{one}></{one}>"),
        _ => format!("<{one}.{plain}></{one}.{plain}>"),
    };
    tag.into_bytes()
}

fn one_byte_changed(random: &mut Random, mut bytes: Vec<u8>) -> Vec<u8> {
    let at = random.below(bytes.len());
    bytes[at] = match random.below(3) {
        0 => bytes[at] ^ 1 << random.below(8),
        1 => b"<>/ .:-=a"[random.below(9)],
        _ => 0x80 + random.below(0x80) as u8,
    };
    bytes
}

/// A character of a name, or of any, becomes one at a border of the ranges; or one is put in.
pub(crate) fn renamed(random: &mut Random, bytes: &[u8]) -> Vec<u8> {
    let text = String::from_utf8_lossy(bytes);
    let mut characters: Vec<char> = text.chars().collect();
    let is_part = |at: &usize| crate::characters::continues_a_part(characters[*at]);
    let places: Vec<usize> = (0..characters.len()).filter(is_part).collect();
    let at = match places[..] {
        [] => random.below(characters.len() + 1),
        _ => places[random.below(places.len())],
    };
    let new = match random.below(4) {
        0 => random.one_of(&characters_of_any_kind()).chars().next(),
        _ => char::from_u32(border(random)),
    };
    let taken = usize::from(random.once_in(2) && at < characters.len());
    characters.splice(at..at + taken, new);
    characters.into_iter().collect::<String>().into_bytes()
}

fn characters_of_any_kind() -> Vec<&'static str> {
    [&characters()[..], &blanks::characters()].concat()
}

/// An end of a range, or the code next to it.
fn border(random: &mut Random) -> u32 {
    let property = if random.once_in(2) {
        id_start()
    } else {
        id_continue()
    };
    let (first, last) = property.ranges[random.below(property.ranges.len())];
    [first - 1, first, last, last + 1][random.below(4)]
}

/// Name characters, others and tokens behind a beginning.
pub(crate) fn drawn_pieces(random: &mut Random) -> Vec<u8> {
    let tokens = [
        "/", ">", ".", ":", "-", " ", "=", "''", "{a}", "a", "<", "\u{A0}",
    ];
    let pieces = [&characters()[..], &LETTERS, &tokens].concat();
    let mut text = random
        .one_of(&["<", "<a", "<a ", "<a.", "<a:", "<é></", "<a>{<"])
        .to_string();
    for _ in 0..random.below(10) {
        text += random.one_of(&pieces);
    }
    text.into_bytes()
}

#[cfg(test)]
mod tests {
    use super::*;
    use crate::bytes::is_blank;
    use crate::characters::{begins_a_part, continues_a_part};

    #[test]
    fn characters_are_of_their_kind() {
        let first = |text: &str| text.chars().next().unwrap();
        let of = |all: &[&str], class: fn(char) -> bool| all.iter().all(|text| class(first(text)));
        assert!(of(&LETTERS, |c| begins_a_part(c) && continues_a_part(c)));
        assert!(of(&LATER_ONLY, |c| !begins_a_part(c) && continues_a_part(c)));
        assert!(of(&IN_NO_NAME, |c| !continues_a_part(c) && !is_blank(c)));
        for (width, letters) in BY_WIDTH.iter().enumerate() {
            let good = |&c: &char| begins_a_part(c) && c.len_utf8() == width + 1;
            assert!(letters.iter().all(good));
        }
    }

    #[test]
    fn names_like_each_other_are_two() {
        assert!(LIKE_EACH_OTHER.iter().all(|(one, other)| one != other));
    }
}
