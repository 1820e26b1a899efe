//! Inputs for request 1: blank characters beyond ASCII, and characters next to them that are none, wherever a blank may
//! stand and where nothing is one. Each stands for the hole, `@`, of a frame.

use crate::Reading::{self, Run, Stage};
use std::collections::BTreeSet;

/// 1.1: 19 of the 25 blank characters.
pub(crate) const BLANKS_BEYOND_ASCII: [&str; 19] = [
    "\u{A0}", "\u{1680}", "\u{2000}", "\u{2001}", "\u{2002}", "\u{2003}", "\u{2004}", "\u{2005}",
    "\u{2006}", "\u{2007}", "\u{2008}", "\u{2009}", "\u{200A}", "\u{2028}", "\u{2029}", "\u{202F}",
    "\u{205F}", "\u{3000}", "\u{FEFF}",
];

/// 1.16: those that a reader might take for blanks.
pub(crate) const NEAR_MISSES: [&str; 4] = ["\u{85}", "\u{180E}", "\u{200B}", "\u{2060}"];

/// Places of one kind: the class, the reading, the frames, and what is put behind a frame that would be accepted, to be
/// refused there: the answer then tells in one line that all before it was read.
type Places = (&'static str, Reading, &'static [&'static str], &'static str);

pub(crate) const PLACES: [Places; 7] = [
    ("blank-tag", Stage, TAGS, "x"),
    ("blank-closing", Stage, CLOSING_TAGS, "x"),
    ("blank-braces", Run, BRACES, "}"),
    ("blank-operator", Run, OPERATORS, "}"),
    ("blank-comment", Stage, COMMENTS, "x"),
    ("blank-around", Stage, AROUND, ""),
    ("blank-none", Run, NO_BLANKS, "}"),
];

/// Around every token of an opening tag or of one that closes itself, and of each form of attribute.
#[rustfmt::skip]
const TAGS: &[&str] = &[
    "<@a/>", "<a@/>", "<a/@>", "<a@></a>", "<@></>", "< @a/>", "<a@ />",
    "<a@:b/>", "<a:@b/>", "<a:b@/>", "<a@.b/>", "<a.@b/>", "<a.b@/>", "<a.b@.c/>", "<a.b.@c/>",
    "<a@b/>", "<a b@/>", "<a b@c/>", "<a b@:c/>", "<a b:@c/>", "<a b:c@/>", "<a b:c@d/>",
    "<a b@=''/>", "<a b=@''/>", "<a b=@'\\\n'/>", "<a b=@{c}/>", "<a b=@<c/>/>", "<a b=@<></>/>", "<a b:c@=@''/>",
    "<a b=''@/>", "<a b=''@c/>", "<a b={c}@/>", "<a b={c}@d/>", "<a b=<c/>@/>", "<a b=<c/>@d/>", "<a b=<></>@/>",
    "<a b=<@c/>/>", "<a b=<c/@>/>", "<a b={@c}/>", "<a b={c@}/>", "<a b={@}/>",
    "<a@{...b}/>", "<a{@...b}/>", "<a{...@b}/>", "<a{...b@}/>", "<a{...b}@/>", "<a{...b}@c/>", "<a{@}/>",
];

/// Around every token of a closing tag, and behind a child's `<`.
#[rustfmt::skip]
const CLOSING_TAGS: &[&str] = &[
    "<a><@/a>", "<a></@a>", "<a></a@>", "<><@/>", "<></@>", "<></@a>", "<a></@>", "<a></@b>",
    "<a.b></a@.b>", "<a.b></a.@b>", "<a.b></a.b@>", "<a:b></a@:b>", "<a:b></a:@b>", "<a@.b></a.@b>", "<a.b></a@.b-",
    "<><@a/></>", "<><@></></>", "<>x<@/>", "<>{b}<@/>", "<><a/><@/>", "<a b=<c><@/c>/>",
];

/// Inside braces that are children, around their dots and their expression, and around an element in them.
#[rustfmt::skip]
const BRACES: &[&str] = &[
    "{@}", "{@b}", "{b@}", "{@...b}", "{...@b}", "{...b@}", "{@'b'}", "{'b'@}", "{@1}", "{1@}", "{1.5@}", "{b@,",
    "{...b@,", "{@<a/>}", "{<a/>@}", "{<@a/>}", "{<a/@>}", "{<a><@/a>}", "{<a></a@>}", "{<a/>@<b/>}", "{<a/>@<=",
    "{...@<a/>}", "{...<a/>@}", "{@", "{...@",
];

/// Around every operator, point, bracket, parenthesis and comma of an expression.
#[rustfmt::skip]
const OPERATORS: &[&str] = &[
    "{b@||c}", "{b||@c}", "{b@&&c}", "{b&&@c}", "{b@+c}", "{b+@c}", "{b@-c}", "{b-@c}", "{b@*c}", "{b*@c}",
    "{b-@-c}", "{!@b}", "{@!b}", "{-@b}", "{@-b}", "{-@-b}", "{!@<a/>}", "{<a/>@+b}", "{b+@<a/>}",
    "{b@?c:d}", "{b?@c:d}", "{b?c@:d}", "{b?c:@d}", "{b?c:d@}",
    "{b@.c}", "{b.@c}", "{b.c@}", "{b.c@.d}", "{1@.b}", "{1.5@.b}", "{'b'@.c}",
    "{b@[c]}", "{b[@c]}", "{b[c@]}", "{b[c]@.d}", "{b[@]}",
    "{b@()}", "{b(@)}", "{b()@}", "{b(@c)}", "{b(c@)}", "{b(c@,d)}", "{b(c,@d)}", "{b(c,@)}", "{b()@[c]}",
    "{(@b)}", "{(b@)}", "{(b)@}", "{(b)@(c)}", "{(@<a/>@)}",
];

/// Inside comments, before and behind them. A line terminator in the hole ends a `//` comment.
#[rustfmt::skip]
const COMMENTS: &[&str] = &[
    "<a/*@*//>", "<a@/**//>", "<a/**/@/>", "<a/*@", "<a/*x*@/>",
    "<a//@\n/>", "<a@//\n/>", "<a//\n@/>", "<a//@\r/>", "<a//@b/>", "<a//x@b/>", "<a//x@/>", "<a//@//@/>",
    "<a b=//@''/>",
    "//@<a/>", "//x@<a/>", "<//@a/>", "<a/>//@", "<a/>//@y", "<a/>//@<b/>", "<a/>//@/*", "<a>{//@}</a>",
    "<a>{//}@b}</a>", "<a>{b//@}</a>", "<a>{b//@,c}</a>", "<a>{b//@+c}</a>", "<a>{f(b//@,c)}</a>", "<a><//@/a>",
];

/// Before and behind a stage.
#[rustfmt::skip]
const AROUND: &[&str] = &[
    "@", "@@", "@<a/>", " @<a/>", "@x", "@<", "@</>", "<a/>@", "<a/>@@", "<a/>@ ", "<a/>@x", "<a/>@<b/>", "<a/>@<",
    "<a/>@<=", "<a/>@>", "<></>@", "<a></a>@x", "@<a/>@x", "<a@", "<@", "<a b=@",
];

/// In texts and strings, in names and words, and inside tokens of several bytes.
#[rustfmt::skip]
const NO_BLANKS: &[&str] = &[
    "@", "x@y", "<a>@</a>", "<a/>@<b/>", "{b}@{c}", "<@/a>", "//@x", "/*@*/",
    "<a b='@'/>", "<a b=\"@\"/>", "<a b='@", "{'@'}", "{\"@\"}", "{'@", "{'@\n", "{'@\\",
    "<a></a@b>", "{b@c}", "{b.c@d}", "{i@f}", "{if@}", "{this@}", "{1@2}", "{1.@5}", "{1@.5}", "{1.@b}",
    "{b|@|c}", "{b&@&c}", "{b+@+c}", "{b*@*c}", "{b?@.c:d}", "{b?@?c:d}", "{.@..b}", "{..@.b}", "<a{.@..b}/>",
    "<a{..@.b}/>", "<a/@*", "<a/@/", "{b/@*", "{b/@/", "{<a/><@=b}", "{<a/><@<b}",
];

/// All characters that stand for a hole.
pub(crate) fn characters() -> Vec<&'static str> {
    [&BLANKS_BEYOND_ASCII[..], &NEAR_MISSES[..]].concat()
}

pub(crate) fn filled(frame: &str, character: &str) -> Vec<u8> {
    frame.replace('@', character).into_bytes()
}

/// Characters one byte away from a blank: any last byte in place of its own, or a byte before it one more or less.
pub(crate) fn near_blanks() -> BTreeSet<String> {
    let mut all = BTreeSet::new();
    for blank in BLANKS_BEYOND_ASCII.map(str::as_bytes) {
        let last = blank.len() - 1;
        let ends = (0x80..=0xBF).map(|byte| (last, byte));
        let others = (0..last).flat_map(|at| [(at, blank[at] - 1), (at, blank[at] + 1)]);
        for (at, byte) in ends.chain(others) {
            let mut near = blank.to_vec();
            near[at] = byte;
            all.extend(String::from_utf8(near));
        }
    }
    all
}

/// Each character cut behind its first bytes, or without its first one, at places where it would be read.
pub(crate) fn cut() -> Vec<Vec<u8>> {
    let mut all = Vec::new();
    for character in characters().into_iter().map(str::as_bytes) {
        for at in 1..character.len() {
            let (first, rest) = character.split_at(at);
            all.push([b"<a", first].concat());
            all.push([b"<a", first, b"b/>"].concat());
            all.push([b"<a//", first, b"\n/>"].concat());
            all.push([b"<a>", character, rest].concat());
        }
    }
    all
}
