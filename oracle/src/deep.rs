//! Inputs whose depth is known: level upon level of every thing that counts.

use crate::random::Random;
use crate::Refusal;

/// Where the next level stands.
#[derive(Clone, Copy, PartialEq, Eq)]
enum Place {
    /// Where a child may stand.
    Child,
    /// Where an element or fragment is needed.
    Markup,
    /// In a tag, after its name.
    Attributes,
    /// Where an expression is needed.
    Expression,
    /// Where the operand of a prefix operator is needed.
    Operand,
}
use Place::{Attributes, Child, Expression, Markup, Operand};

/// One level: what opens it, where in that the first thing begins that counts (`f()` before `[0]` is
/// as deep as the bracket after it), what closes it, the place inside.
type Level = (&'static str, usize, &'static str, Place);

const MARKUP: [Level; 5] = [
    ("<a>", 0, "</a>", Child),
    ("< a.b >", 0, "< / a . b>", Child),
    ("<\u{A0}a\u{3000}>", 0, "<\u{FEFF}/a//\u{2028}>", Child),
    ("<>", 0, "</>", Child),
    ("<a ", 0, "/>", Attributes),
];
const CHILD: [Level; 3] = [
    ("{", 0, "}", Expression),
    ("{...", 0, "}", Expression),
    ("hi{ ", 2, " }", Expression),
];
const ATTRIBUTES: [Level; 5] = [
    ("b={", 2, "}", Expression),
    ("{...", 0, "}", Expression),
    ("b=<a>", 2, "</a>", Child),
    ("b=<>", 2, "</>", Child),
    ("b=<a ", 2, "/>", Attributes),
];
const OPERAND: [Level; 8] = [
    ("(", 0, ")", Expression),
    ("f(", 1, ")", Expression),
    ("f(b,", 1, ",c)", Expression),
    ("f()[0](", 1, ")", Expression),
    ("b[", 1, "]", Expression),
    ("!", 0, "", Operand),
    ("- ", 0, "", Operand),
    ("(b)(", 0, ")", Expression),
];
const EXPRESSION: [Level; 4] = [
    ("c?", 1, ":d", Expression),
    ("c?d:", 1, "", Expression),
    ("b+", 0, "", Operand),
    ("b||", 0, "", Operand),
];

/// What may stand at the 64th level and try the 65th.
const CHILD_TAILS: [&str; 20] = [
    "<",
    "< ",
    "<\u{A0}",
    "<\u{2028}b",
    "<\u{200B}b",
    "<//\u{2029}>",
    "<!",
    "<f.b-",
    "<f:",
    "<>",
    "{",
    "{}",
    "</*",
    "<b/>",
    "x",
    "}",
    "{/*",
    "{\"",
    "{//\u{2028}",
    "{ @",
];
#[rustfmt::skip]
const EXPRESSION_TAILS: [&str; 31] = [
    "-", "--", "!", "b?", "b??", "b?.", "b(", "b[", "(", "<", "<!", "<b", "<>", "b..c", "f()()",
    "if", "1.", "-/*", "b?/*", "b(/*", "(/*", "b[/*", "!@", "</*", "'", "(\"", "'x\n",
    "b\u{A0}?", "b\u{FEFF}(", "\u{3000}!", "-\u{2028}-",
];
#[rustfmt::skip]
const ATTRIBUTE_TAILS: [&str; 14] = [
    "b={", "b={}", "{", "{.", "b=<", "b=<c", "b=<>", "b='", "b={/*", "{/*", "b=</*",
    "\u{A0}b\u{202F}=\u{3000}{", "b=<\u{1680}", "b=<\u{2029}c",
];

pub(crate) struct Deep {
    pub bytes: Vec<u8>,
    /// The refusal that must follow, if one must.
    pub refusal: Option<Refusal>,
}

struct Opened {
    bytes: String,
    closers: Vec<&'static str>,
    place: Place,
    /// The first byte of each thing that counts.
    firsts: Vec<usize>,
}

/// A whole stage that is `depth` deep.
pub(crate) fn whole(random: &mut Random, depth: usize) -> Deep {
    let mut opened = open(random, depth);
    let inside = match opened.place {
        Expression | Operand => "b",
        _ => "",
    };
    opened.bytes += inside;
    for closer in opened.closers.iter().rev() {
        opened.bytes += closer;
    }
    Deep {
        refusal: opened.firsts.get(64).map(|&first| Refusal::at(14, first)),
        bytes: opened.bytes.into_bytes(),
    }
}

/// A stage open to the 63rd or 64th level, ended by a tail that may or may not be a level more.
pub(crate) fn tail(random: &mut Random) -> Vec<u8> {
    let depth = 63 + random.below(2);
    let mut opened = open(random, depth);
    let tails = match opened.place {
        Child => &CHILD_TAILS[..],
        Attributes => &ATTRIBUTE_TAILS[..],
        _ => &EXPRESSION_TAILS[..],
    };
    opened.bytes += random.one_of(tails);
    opened.bytes.into_bytes()
}

fn open(random: &mut Random, depth: usize) -> Opened {
    let mut opened = Opened {
        bytes: String::new(),
        closers: Vec::new(),
        place: Markup,
        firsts: Vec::new(),
    };
    while opened.firsts.len() < depth {
        open_one(random, &mut opened);
    }
    opened
}

fn open_one(random: &mut Random, opened: &mut Opened) {
    let levels = levels_at(opened.place);
    let (opener, first, closer, place) = levels[random.below(levels.len())];
    if !JOINS.contains(&opener) {
        opened.firsts.push(opened.bytes.len() + first);
    }
    opened.bytes += opener;
    opened.closers.push(closer);
    opened.place = place;
}

/// These count nothing themselves.
const JOINS: [&str; 2] = ["b+", "b||"];

fn levels_at(place: Place) -> Vec<Level> {
    match place {
        Markup => MARKUP.to_vec(),
        Child => [&MARKUP[..], &CHILD[..]].concat(),
        Attributes => ATTRIBUTES.to_vec(),
        Operand => [&MARKUP[..], &OPERAND[..]].concat(),
        Expression => [&MARKUP[..], &OPERAND[..], &EXPRESSION[..]].concat(),
    }
}
