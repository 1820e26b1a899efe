//! Inputs for request 7: characters at the borders of the ranges of ID_Start and ID_Continue. Each end of each range,
//! and each neighbour of an end, is asked about as the first and as a later character of a name part, so that a table
//! in which any one end is off by one gives another answer.

use crate::blocks::{refused, Known};
use crate::bytes::is_blank;
use crate::characters::{begins_a_part, continues_a_part, id_continue, id_start, Range};
use crate::scripts::Asked;
use crate::Reading::Stage;
use crate::Refusal;
use std::collections::BTreeSet;

/// Beginnings behind which a name part may begin.
const BEFORE_A_PART: [&str; 13] = [
    "<a ",
    "<a.",
    "<a:",
    "<a></",
    "< ",
    "<a b='c'",
    "<a b={c}",
    "<a {...b}",
    "<a b:",
    "<a b=<",
    "<a>{<",
    "<><",
    "<a.b></a.",
];

/// Beginnings that end inside a name part.
const INSIDE_A_PART: [&str; 14] = [
    "<a",
    "<a-",
    "<a b",
    "<a b:c",
    "<a.b",
    "<a:b",
    "<a></a",
    "<é",
    "<한",
    "<𐐀",
    "<this",
    "<a b='c'd",
    "<a\u{200D}",
    "<aé1",
];

/// Stages that are accepted with a letter in place of each hole, `@`.
const WHOLE: [&str; 16] = [
    "<@/>",
    "<@-/>",
    "<a@/>",
    "<A@/>",
    "<@.b/>",
    "<@-.b/>",
    "<a.@/>",
    "<@:b/>",
    "<a:@/>",
    "<a @/>",
    "<a @:b/>",
    "<a b:@/>",
    "<@></@>",
    "<a.@></a.@>",
    "<a b=''@/>",
    "<a-@:@-/>",
];

/// What tells the versions of Unicode apart: the first and the last character of what came with 15.1, 16.0, 17.0 and
/// 18.0, and others that came with these. Those of 18.0 are refused.
#[rustfmt::skip]
const OF_VERSIONS: [u32; 66] = [
    0x2EBEF, 0x2EBF0, 0x2EE5D, 0x2EE5E, 0x30FB, 0xFF65, 0x200C, 0x200D,
    0x1C89, 0x1C8A, 0x1C8B, 0x1345F, 0x13460, 0x143FA, 0x143FB,
    0x88F, 0x890, 0x323AF, 0x323B0, 0x33479, 0x3347A,
    0x558, 0x58B, 0x58C, 0x208F, 0x209D, 0x209F, 0xA7DD, 0xA7E2, 0xAB6C, 0xAB6D, 0x107BB, 0x107BF, 0x10ED9, 0x10EEE,
    0x11B0A, 0x11DF1, 0x1246F, 0x12475, 0x12550, 0x12686, 0x18CD6, 0x18D1F, 0x18E00, 0x19191, 0x191A0, 0x1B123, 0x1B168,
    0x1D6A6, 0x1DF1F, 0x1DF2B, 0x1DF90, 0x1DFCD, 0x1DFFF, 0x2B81E, 0x3D000, 0x3FC3F,
    0x5C8, 0xB53, 0x1ADE, 0x1AEC, 0x10ECB, 0x10EF0, 0x11DF0, 0x1D127, 0x1D280,
];

pub(crate) fn inputs() -> Vec<Known> {
    let mut all = Vec::new();
    for character in points().into_iter().filter(|c| !c.is_ascii()) {
        all.push(first("border-first", "<", character));
        all.push(later_in_a_member("border-later", character));
        if is_blank(character) {
            all.push(blank_in_a_member(character));
        }
    }
    for character in OF_VERSIONS.map(character) {
        all.push(first("border-version", "<", character));
        all.push(later_in_a_member("border-version", character));
    }
    for (number, character) in turns().into_iter().enumerate() {
        let beginning = BEFORE_A_PART[number % BEFORE_A_PART.len()];
        all.push(first("border-place", beginning, character));
        let beginning = INSIDE_A_PART[number % INSIDE_A_PART.len()];
        all.push(later("border-place", beginning, character));
    }
    all
}

pub(crate) fn others() -> Vec<Asked> {
    let mut all = Vec::new();
    for character in '\0'..='\x7F' {
        for beginning in ["<", "<a", "<é", "<a ", "<a.é"] {
            all.push((
                "border-ascii",
                Stage,
                format!("{beginning}{character}").into_bytes(),
            ));
        }
    }
    for (number, &range) in beyond_ascii(&id_start().ranges).iter().enumerate() {
        let (first, last) = range;
        let letter = character(if number % 2 == 0 { first } else { last });
        let frame = WHOLE[number % WHOLE.len()];
        all.push((
            "border-whole",
            Stage,
            frame.replace('@', &letter.to_string()).into_bytes(),
        ));
    }
    all
}

fn character(code: u32) -> char {
    char::from_u32(code).expect("no surrogate is at a border")
}

fn beyond_ascii(ranges: &[Range]) -> Vec<Range> {
    let beyond = ranges.iter().filter(|(first, _)| *first >= 0x80);
    beyond.copied().collect()
}

/// Both ends of each range, the codes next to them, and one in the middle of each range and of each gap before one.
fn points() -> BTreeSet<char> {
    let mut codes = BTreeSet::new();
    for property in [id_start(), id_continue()] {
        let mut before = 0;
        for &(first, last) in &property.ranges {
            codes.extend([first - 1, first, last, last + 1]);
            codes.extend([(first + last) / 2, (before + first) / 2]);
            before = last;
        }
    }
    codes.into_iter().map(character).collect()
}

/// Of each range one of the four at its ends, by turns.
fn turns() -> Vec<char> {
    let mut all = Vec::new();
    for property in [id_start(), id_continue()] {
        for (number, &(first, last)) in beyond_ascii(&property.ranges).iter().enumerate() {
            let four = [first, last + 1, last, first - 1];
            all.push(character(four[(number + number / 4) % 4]));
        }
    }
    all
}

/// The input ends behind the character: 4 where it is read, else 3 at it.
fn known(class: &'static str, beginning: &str, character: char, is_read: bool) -> Known {
    let input = format!("{beginning}{character}").into_bytes();
    let refusal = match is_read {
        true => Refusal::at(4, input.len()),
        false => Refusal::at(3, beginning.len()),
    };
    Known {
        class,
        reading: Stage,
        input,
        answer: refused(refusal),
    }
}

fn first(class: &'static str, beginning: &str, character: char) -> Known {
    let is_read = begins_a_part(character) || is_blank(character);
    known(class, beginning, character, is_read)
}

fn later(class: &'static str, beginning: &str, character: char) -> Known {
    let is_read = continues_a_part(character) || is_blank(character);
    known(class, beginning, character, is_read)
}

/// A part behind a dot that holds a dash is 10, from its start to its end: what ends the part tells from what is in it,
/// also where it begins an attribute or is a blank.
fn later_in_a_member(class: &'static str, character: char) -> Known {
    let input = format!("<a.b{character}-").into_bytes();
    let refusal = if continues_a_part(character) {
        Refusal::over(10, (3, input.len()))
    } else if is_blank(character) {
        Refusal::at(3, input.len() - 1)
    } else {
        Refusal::at(3, 4)
    };
    Known {
        class,
        reading: Stage,
        input,
        answer: refused(refusal),
    }
}

/// The same of a first character: the dash behind a blank is 3.
fn blank_in_a_member(blank: char) -> Known {
    let input = format!("<a.{blank}-").into_bytes();
    Known {
        class: "border-blank",
        reading: Stage,
        answer: refused(Refusal::at(3, input.len() - 1)),
        input,
    }
}
