//! Every input that document 01 or a page of readings names, with the answer derived by hand.
//!
//! An answer is the first line that the program would print: `ok N`, or `no n a b c d`.

use crate::Reading::{self, Run, Stage};

pub struct Named {
    /// The sentence or reading that it comes from.
    pub source: &'static str,
    pub reading: Reading,
    pub input: Vec<u8>,
    pub expected: String,
}

type Row = (&'static str, Reading, &'static [u8], &'static str);

pub fn named() -> Vec<Named> {
    let tables: [&[Row]; 9] = [
        MARKED,
        MARKUP,
        BRACES,
        BYTES,
        READINGS,
        SMALLER_READINGS,
        REQUEST_5,
        REQUEST_3,
        REQUEST_1,
    ];
    let mut all: Vec<Named> = tables.into_iter().flatten().map(of_row).collect();
    all.extend(words());
    all.extend(deep());
    all.push(greatest_word());
    all
}

fn of_row(row: &Row) -> Named {
    let &(source, reading, input, expected) = row;
    Named {
        source,
        reading,
        input: input.to_vec(),
        expected: expected.to_string(),
    }
}

/// D: "Marked inputs", "The two readings", "Easy slips".
#[rustfmt::skip]
const MARKED: &[Row] = &[
    ("marked", Stage, b"<a/>", "ok 3"),
    ("marked", Stage, b"<v>hi</v>", "ok 6"),
    ("marked", Stage, b"<a-b.c/>", "ok 5"),
    ("marked", Stage, b"<a>{}</a>", "ok 7"),
    ("marked", Stage, b"<v></w>", "no 7 1 2 5 6"),
    ("marked", Stage, b"<></a>", "no 8 0 2 4 5"),
    ("marked", Stage, b"<a></>", "no 9 1 2 3 6"),
    ("marked", Stage, b"<f.b-/>", "no 10 3 5 0 0"),
    ("marked", Stage, b"<a b={}/>", "no 11 5 7 0 0"),
    ("marked", Stage, b"<a/><b/>", "no 12 4 5 0 0"),
    ("marked", Stage, b"<a/> x", "no 13 5 5 0 0"),
    ("marked", Stage, b"<a>}</a>", "no 6 3 3 0 0"),
    ("marked", Stage, b"", "no 4 0 0 0 0"),
    ("marked", Stage, b"<a>x", "no 4 4 4 0 0"),
    ("marked", Stage, b"<x>{a, b}</x>", "no 16 5 6 0 0"),
    ("marked", Stage, b"<a b=\"\\\"/>", "ok 6"),
    ("marked", Run, b"hi", "ok 1"),
    ("marked", Run, b"yo", "ok 1"),
    ("marked", Run, b"hiyo", "ok 1"),
    ("run", Run, b"", "ok 0"),
    ("run", Run, b"</>", "no 3 0 0 0 0"),
    ("run", Run, b"< /a>", "no 3 0 0 0 0"),
    ("run", Run, b"a</b>", "no 3 1 1 0 0"),
    ("run", Run, b"</>+<>", "no 3 0 0 0 0"),
    ("run", Run, b"<a/><b/>", "ok 6"),
    ("run", Run, b"<a/> x", "ok 4"),
    ("run", Run, b"<", "no 4 1 1 0 0"),
    ("stage", Stage, b" <a/> ", "ok 3"),
    ("stage", Stage, b"<></>", "ok 3"),
    ("stage", Stage, b"x", "no 3 0 0 0 0"),
    ("stage", Stage, b"{}", "no 3 0 0 0 0"),
    ("slips", Stage, b"<a b='\\'/>", "ok 6"),
    ("slips", Stage, b"<v></w", "no 4 6 6 0 0"),
    ("slips", Stage, b"<foo.bar/>", "ok 5"),
];

/// D: "Markup", and the numbers of its faults.
#[rustfmt::skip]
const MARKUP: &[Row] = &[
    ("blanks in a tag", Stage, b"< a . b / >", "ok 5"),
    ("name part", Stage, b"<if/>", "ok 3"),
    ("name part", Stage, b"<a-/>", "ok 3"),
    ("name part", Stage, b"<a--1/>", "ok 3"),
    ("name part", Stage, b"<_1$-/>", "ok 3"),
    ("name part", Stage, b"<1a/>", "no 3 1 1 0 0"),
    ("name part", Stage, b"<-a/>", "no 3 1 1 0 0"),
    ("element name", Stage, b"<a:b/>", "ok 5"),
    ("element name", Stage, b"<a-b:c-d/>", "ok 5"),
    ("element name", Stage, b"<a.b.c/>", "ok 6"),
    ("element name", Stage, b"<a:b.c/>", "no 3 4 4 0 0"),
    ("element name", Stage, b"<a.b:c/>", "no 3 4 4 0 0"),
    ("element name", Stage, b"<a:b:c/>", "no 3 4 4 0 0"),
    ("element name", Stage, b"<a.", "no 4 3 3 0 0"),
    ("element name", Stage, b"<a:", "no 4 3 3 0 0"),
    ("10 at the end", Stage, b"<f.b-", "no 10 3 5 0 0"),
    ("10 at the end", Stage, b"<f.b-c", "no 10 3 6 0 0"),
    ("10 with blanks", Stage, b"<f. b-c .d/>", "no 10 4 7 0 0"),
    ("10 in a closing tag", Stage, b"<f.b></f.b-", "no 10 9 11 0 0"),
    ("one-part names", Stage, b"<this/>", "ok 3"),
    ("one-part names", Stage, b"<This/>", "ok 3"),
    ("one-part names", Stage, b"<_a-b/>", "ok 3"),
    ("attributes", Stage, b"<a b c='d'e={f}g/>", "ok 14"),
    ("attributes", Stage, b"<a b b/>", "ok 7"),
    ("attributes", Stage, b"<a b : c = 'd'/>", "ok 8"),
    ("attributes", Stage, b"<a{...b}c/>", "ok 7"),
    ("attributes", Stage, b"<a b=<c/>/>", "ok 8"),
    ("attributes", Stage, b"<a b=<></>/>", "ok 8"),
    ("attributes", Stage, b"<a b=c/>", "no 3 5 5 0 0"),
    ("attributes", Stage, b"<a b.c/>", "no 3 4 4 0 0"),
    ("attributes", Stage, b"<a b:c:d/>", "no 3 6 6 0 0"),
    ("attributes", Stage, b"<a b=", "no 4 5 5 0 0"),
    ("quoted strings", Stage, b"<a b=\"x\ny\"/>", "ok 6"),
    ("quoted strings", Stage, b"<a b=\"x'y\"/>", "ok 6"),
    ("quoted strings", Stage, b"<a b=\"x", "no 5 5 5 0 0"),
    ("quoted strings", Stage, b"<a b= '", "no 5 6 6 0 0"),
    ("children", Stage, b"<a>{...b}</a>", "ok 7"),
    ("children", Stage, b"<a>{ /* x */ }</a>", "ok 7"),
    ("children", Stage, b"<a>></a>", "no 6 3 3 0 0"),
    ("children", Stage, b"<a>x>y</a>", "no 6 4 4 0 0"),
    ("children", Stage, b"<a>&amp;</a>", "ok 6"),
    ("children", Run, b"}", "no 6 0 0 0 0"),
    ("no comment in child position", Stage, b"<a>// x</a>", "ok 6"),
    ("no comment in child position", Stage, b"<a>/*</a>", "ok 6"),
    ("closing names", Stage, b"<a . b></ a./**/b >", "ok 9"),
    ("closing names", Stage, b"<a.b></a:b>", "no 7 1 4 7 10"),
    ("closing names", Stage, b"<a.b></a>", "no 7 1 4 7 8"),
    ("closing names", Stage, b"<a></A>", "no 7 1 2 5 6"),
    ("closing names", Stage, b"<v></w >", "no 7 1 2 5 6"),
    ("closing names", Stage, b"<v></w x>", "no 3 7 7 0 0"),
    ("closing names", Stage, b"<v></w/>", "no 3 6 6 0 0"),
    ("closing names", Stage, b"<></", "no 4 4 4 0 0"),
    ("closing names", Stage, b"<></a", "no 4 5 5 0 0"),
    ("self-closed", Stage, b"<a/ b>", "no 3 4 4 0 0"),
    ("self-closed", Stage, b"<a//>", "no 4 5 5 0 0"),
    ("self-closed", Stage, b"<a/*c*//>", "ok 3"),
    ("11 with blanks", Stage, b"<a b={ /**/ }/>", "no 11 5 13 0 0"),
    ("11 not closed", Stage, b"<a b={", "no 4 6 6 0 0"),
    ("13", Stage, b"<a/>/", "no 13 4 4 0 0"),
    ("13", Stage, b"<a/>\xC3\xA9", "no 13 4 4 0 0"),
    ("12 with blanks", Stage, b"<a/> <b/>", "no 12 5 6 0 0"),
    ("12 with blanks", Stage, b"<a/></a>", "no 12 4 5 0 0"),
    ("12 in an attribute", Stage, b"<a b=<c/><d/>/>", "no 12 9 10 0 0"),
    ("12 in braces", Stage, b"<a>{<b/><c/>}</a>", "no 12 8 9 0 0"),
    ("12 in braces", Stage, b"<a>{<b/> < c}</a>", "no 12 9 10 0 0"),
    ("12 after a fragment", Stage, b"<></><b/>", "no 12 5 6 0 0"),
    ("12 not after `)`", Stage, b"<a>{(<b/>)<c/>}</a>", "no 3 10 10 0 0"),
];

/// D: "Inside braces".
#[rustfmt::skip]
const BRACES: &[Row] = &[
    ("conditional", Stage, b"<a>{b?c:d}</a>", "ok 7"),
    ("conditional", Stage, b"<a>{b?c:d?e:f}</a>", "ok 7"),
    ("conditional", Stage, b"<a>{b?c}</a>", "no 3 7 7 0 0"),
    ("conditional", Stage, b"<a>{b?c", "no 4 7 7 0 0"),
    ("conditional", Stage, b"<a>{b?:c}</a>", "no 3 6 6 0 0"),
    ("conditional", Stage, b"<a>{b:c}</a>", "no 3 5 5 0 0"),
    ("joined", Stage, b"<a>{b||c&&d+e*f-g}</a>", "ok 7"),
    ("joined", Stage, b"<a>{b && <c/> || <d/>}</a>", "ok 13"),
    ("unary", Stage, b"<a>{!b}</a>", "ok 7"),
    ("unary", Stage, b"<a>{- -!b}</a>", "ok 7"),
    ("unary", Stage, b"<a>{b- -c}</a>", "ok 7"),
    ("unary", Stage, b"<a>{+b}</a>", "no 3 4 4 0 0"),
    ("unary", Stage, b"<a>{b+ +c}</a>", "no 3 7 7 0 0"),
    ("unary", Stage, b"<a>{-", "no 4 5 5 0 0"),
    ("unary", Stage, b"<a>{!<b/>}</a>", "ok 10"),
    ("postfix", Stage, b"<a>{b[c](d, e).f}</a>", "ok 7"),
    ("postfix", Stage, b"<a>{b()}</a>", "ok 7"),
    ("postfix", Stage, b"<a>{b[]}</a>", "no 3 6 6 0 0"),
    ("postfix", Stage, b"<a>{b(,c)}</a>", "no 3 6 6 0 0"),
    ("postfix", Stage, b"<a>{b(c d)}</a>", "no 3 8 8 0 0"),
    ("postfix", Stage, b"<a>{b.", "no 4 6 6 0 0"),
    ("primary", Stage, b"<a>{(<b/>)}</a>", "ok 10"),
    ("primary", Stage, b"<a>{()}</a>", "no 3 5 5 0 0"),
    ("primary", Stage, b"<a>{[b]}</a>", "no 3 4 4 0 0"),
    ("primary", Stage, b"<a>{`b`}</a>", "no 3 4 4 0 0"),
    ("no postfix after an element", Stage, b"<a>{<b/>.c}</a>", "no 3 8 8 0 0"),
    ("no postfix after an element", Stage, b"<a>{<b/>()}</a>", "no 3 8 8 0 0"),
    ("as a child the dot is text", Stage, b"<a><b/>.c</a>", "ok 9"),
    ("an expression may hold an element", Stage, b"<a>{<b c={<d/>}/>}</a>", "ok 17"),
    ("numbers", Stage, b"<a>{0}</a>", "ok 7"),
    ("numbers", Stage, b"<a>{0.5}</a>", "ok 7"),
    ("numbers", Stage, b"<a>{10.05}</a>", "ok 7"),
    ("numbers", Stage, b"<a>{01}</a>", "no 3 4 4 0 0"),
    ("numbers", Stage, b"<a>{00}</a>", "no 3 4 4 0 0"),
    ("numbers", Stage, b"<a>{1b}</a>", "no 3 4 4 0 0"),
    ("numbers", Stage, b"<a>{1_0}</a>", "no 3 4 4 0 0"),
    ("numbers", Stage, b"<a>{1.5$}</a>", "no 3 4 4 0 0"),
    ("numbers", Stage, b"<a>{1.a}</a>", "no 3 4 4 0 0"),
    ("numbers", Stage, b"<a>{1 .a}</a>", "ok 7"),
    ("numbers", Stage, b"<a>{1.}</a>", "no 3 4 4 0 0"),
    ("numbers", Stage, b"<a>{1.", "no 3 4 4 0 0"),
    ("numbers", Stage, b"<a>{1", "no 4 5 5 0 0"),
    ("numbers", Stage, b"<a>{1.5", "no 4 7 7 0 0"),
    ("numbers", Stage, b"<a>{1.5.", "no 4 8 8 0 0"),
    ("strings", Stage, b"<a>{\"x\" + 'y'}</a>", "ok 7"),
    ("strings", Stage, b"<a>{'b\\'}</a>", "no 3 6 6 0 0"),
    ("strings", Stage, b"<a>{'b\rc'}</a>", "no 3 4 6 0 0"),
    ("strings", Stage, b"<a>{'b", "no 18 4 4 0 0"),
    ("`++`", Stage, b"<a>{b++}</a>", "no 3 5 5 0 0"),
    ("`++`", Stage, b"<a>{++b}</a>", "no 3 4 4 0 0"),
    ("`++` at the end", Stage, b"<a>{b++", "no 3 5 5 0 0"),
    ("`--`", Stage, b"<a>{b--}</a>", "no 3 5 5 0 0"),
    ("`--`", Stage, b"<a>{--b}</a>", "no 3 4 4 0 0"),
    ("`--` at the end", Stage, b"<a>{--", "no 3 4 4 0 0"),
    ("`**`", Stage, b"<a>{b**c}</a>", "no 3 5 5 0 0"),
    ("`**` at the end", Stage, b"<a>{b**", "no 3 5 5 0 0"),
    ("`?.`", Stage, b"<a>{b?.c}</a>", "no 3 5 5 0 0"),
    ("`?.` at the end", Stage, b"<a>{b?.", "no 3 5 5 0 0"),
    ("`??`", Stage, b"<a>{b??c}</a>", "no 3 5 5 0 0"),
    ("`??` at the end", Stage, b"<a>{b??", "no 3 5 5 0 0"),
    ("`|` alone", Stage, b"<a>{b|c}</a>", "no 3 5 5 0 0"),
    ("`|` at the end", Stage, b"<a>{b|", "no 3 5 5 0 0"),
    ("`|` after `||`", Stage, b"<a>{b|||c}</a>", "no 3 7 7 0 0"),
    ("`&` alone", Stage, b"<a>{b&c}</a>", "no 3 5 5 0 0"),
    ("`&` at the end", Stage, b"<a>{b&", "no 3 5 5 0 0"),
    ("`/`", Stage, b"<a>{b/c}</a>", "no 3 5 5 0 0"),
    ("`/` at the end", Stage, b"<a>{b/", "no 3 5 5 0 0"),
    ("one dot", Stage, b"<a>{.", "no 3 4 4 0 0"),
    ("one dot", Stage, b"<a {.", "no 3 4 4 0 0"),
    ("two dots", Stage, b"<a>{..", "no 3 4 4 0 0"),
    ("two dots", Stage, b"<a {..b}/>", "no 3 4 4 0 0"),
    ("three dots", Stage, b"<a>{...", "no 4 7 7 0 0"),
    ("three dots", Stage, b"<a {...}/>", "no 3 7 7 0 0"),
    ("three dots", Stage, b"<a b={...c}/>", "no 3 6 6 0 0"),
    ("four dots", Stage, b"<a>{....b}</a>", "no 3 7 7 0 0"),
    ("`+=`", Stage, b"<a>{b+=1}</a>", "no 3 6 6 0 0"),
    ("`!=`", Stage, b"<a>{b!=1}</a>", "no 3 5 5 0 0"),
    ("`<` after a name", Stage, b"<a>{b<c}</a>", "no 3 5 5 0 0"),
    ("`=>`", Stage, b"<a>{b=>c}</a>", "no 3 5 5 0 0"),
    ("two words", Stage, b"<a>{b in c}</a>", "no 3 6 6 0 0"),
    ("16", Stage, b"<a>{b,", "no 16 5 6 0 0"),
    ("16", Stage, b"<a>{b?c:d ,e}</a>", "no 16 10 11 0 0"),
    ("16", Stage, b"<a>{<b/>,c}</a>", "no 16 8 9 0 0"),
    ("16 needs an expression", Stage, b"<a>{,b}</a>", "no 3 4 4 0 0"),
    ("closed", Stage, b"<a>{b", "no 4 5 5 0 0"),
    ("closed", Stage, b"<a>{b)}</a>", "no 3 5 5 0 0"),
    ("closed", Stage, b"<a>{//}</a>", "no 4 11 11 0 0"),
];

/// D: "Bytes, blanks, comments".
#[rustfmt::skip]
const BYTES: &[Row] = &[
    ("blanks", Stage, b"\t\n\x0B\x0C\r <a/>\t\n\x0B\x0C\r ", "ok 3"),
    ("blanks", Stage, b"\xC2\xA0<a/>", "ok 3"),
    ("blanks", Stage, b"\xEF\xBB\xBF<a/>", "ok 3"),
    ("comments", Stage, b"/*c*/<a/>/*d*/", "ok 3"),
    ("comments", Stage, b"//c\n<a/>//d", "ok 3"),
    ("comments", Stage, b"//c\r<a/>", "ok 3"),
    ("comments", Stage, b"/* never", "no 17 0 0 0 0"),
    ("comments", Stage, b"<a>{/*}</a>", "no 17 4 4 0 0"),
    ("U+2028", Stage, b"<a/>//\xE2\x80\xA8", "ok 3"),
    ("U+2029", Stage, b"<a/>//\xE2\x80\xA9", "ok 3"),
    ("U+202A", Stage, b"<a/>//\xE2\x80\xAA", "ok 3"),
    ("UTF-8", Stage, b"\xFF", "no 2 0 0 0 0"),
    ("UTF-8", Stage, b"<a>\x80</a>", "no 2 3 3 0 0"),
    ("UTF-8", Stage, b"<a>\xC0\x80</a>", "no 2 3 3 0 0"),
    ("UTF-8", Stage, b"<a>\xC1\xBF</a>", "no 2 3 3 0 0"),
    ("UTF-8", Stage, b"<a>\xC2\x80</a>", "ok 6"),
    ("UTF-8", Stage, b"<a>\xDF\xBF</a>", "ok 6"),
    ("UTF-8", Stage, b"<a>\xE0\x9F\xBF</a>", "no 2 3 3 0 0"),
    ("UTF-8", Stage, b"<a>\xE0\xA0\x80</a>", "ok 6"),
    ("UTF-8", Stage, b"<a>\xED\x9F\xBF</a>", "ok 6"),
    ("UTF-8", Stage, b"<a>\xED\xA0\x80</a>", "no 2 3 3 0 0"),
    ("UTF-8", Stage, b"<a>\xEE\x80\x80</a>", "ok 6"),
    ("UTF-8", Stage, b"<a>\xF0\x8F\xBF\xBF</a>", "no 2 3 3 0 0"),
    ("UTF-8", Stage, b"<a>\xF0\x90\x80\x80</a>", "ok 6"),
    ("UTF-8", Stage, b"<a>\xF4\x8F\xBF\xBF</a>", "ok 6"),
    ("UTF-8", Stage, b"<a>\xF4\x90\x80\x80</a>", "no 2 3 3 0 0"),
    ("UTF-8", Stage, b"<a>\xF5\x80\x80\x80</a>", "no 2 3 3 0 0"),
    ("UTF-8", Stage, b"<a>\xE2\x82", "no 2 3 3 0 0"),
    ("2 before the reading", Stage, b"<<\xFF", "no 2 2 2 0 0"),
];

/// A1 to A11.
#[rustfmt::skip]
const READINGS: &[Row] = &[
    ("A1", Stage, b"<a \"x", "no 3 3 3 0 0"),
    ("A1", Stage, b"<a>{b 'x", "no 3 6 6 0 0"),
    ("A1", Stage, b"<a b\"x", "no 3 4 4 0 0"),
    ("A1", Stage, b"<a/>\"x", "no 13 4 4 0 0"),
    ("A1", Stage, b"<a /*", "no 17 3 3 0 0"),
    ("A5", Stage, b"<a>{b..c}</a>", "no 3 6 6 0 0"),
    ("A5", Stage, b"<a>{b...c}</a>", "no 3 6 6 0 0"),
    ("A5", Stage, b"<a>{1 ...c}</a>", "no 3 7 7 0 0"),
    ("A5", Stage, b"<f..b/>", "no 3 3 3 0 0"),
    ("A6", Stage, b"<a>{i", "no 4 5 5 0 0"),
    ("A6", Stage, b"<a>{if", "no 3 4 4 0 0"),
    ("A6", Stage, b"<a>{iff", "no 4 7 7 0 0"),
    ("A7", Stage, b"<a>{1\xC3\xA9}</a>", "no 3 5 5 0 0"),
    ("A7, 7.7", Stage, b"<a\xC3\xA9/>", "ok 3"),
    ("A7", Stage, b"<a>{b\xC3\xA9}</a>", "no 3 5 5 0 0"),
    ("A8", Stage, b"<a>{\"b\\", "no 3 6 6 0 0"),
    ("A8", Stage, b"<a>{\"b\n", "no 3 4 6 0 0"),
    ("A9", Stage, b"/", "no 3 0 0 0 0"),
    ("A9", Stage, b"<a b=/", "no 3 5 5 0 0"),
    ("A9", Stage, b"<a:/", "no 3 3 3 0 0"),
    ("A9", Stage, b"</", "no 3 1 1 0 0"),
    ("A9", Stage, b"<a/", "no 4 3 3 0 0"),
    ("A9", Stage, b"<a></", "no 4 5 5 0 0"),
    ("A9", Run, b"</", "no 3 0 0 0 0"),
    ("A9", Run, b"x</", "no 3 1 1 0 0"),
    ("A10", Stage, b"<a/>/*/", "no 17 4 4 0 0"),
    ("A11", Stage, b"</a>", "no 3 1 1 0 0"),
    ("A11", Stage, b"<a b=</a>", "no 3 6 6 0 0"),
    ("A11", Stage, b"<a>{</a>}", "no 3 5 5 0 0"),
];

/// A12 to A28.
#[rustfmt::skip]
const SMALLER_READINGS: &[Row] = &[
    ("A12", Stage, b"<a b={c,d}/>", "no 16 7 8 0 0"),
    ("A12", Stage, b"<a>{...b,c}</a>", "no 3 8 8 0 0"),
    ("A12", Stage, b"<a {...b,c}/>", "no 3 8 8 0 0"),
    ("A12", Stage, b"<a>{(b,c)}</a>", "no 3 6 6 0 0"),
    ("A12", Stage, b"<a>{b[c,d]}</a>", "no 3 7 7 0 0"),
    ("A12", Stage, b"<a>{b?c,d:e}</a>", "no 3 7 7 0 0"),
    ("A13", Stage, b"<a {}/>", "no 3 4 4 0 0"),
    ("A14", Stage, b"<a>{f(b,)}</a>", "no 3 8 8 0 0"),
    ("A15", Stage, b"<a>{1.5.c}</a>", "ok 7"),
    ("A15", Stage, b"<a>{1.5.5}</a>", "no 3 8 8 0 0"),
    ("A15", Stage, b"<a>{1..c}</a>", "no 3 4 4 0 0"),
    ("A16", Stage, b"<a>{.5}</a>", "no 3 4 4 0 0"),
    ("A16", Stage, b"<a>{a?.5:1}</a>", "no 3 5 5 0 0"),
    ("A17", Stage, b"<a>{// \xE2\x80\xA8 \n}</a>", "ok 7"),
    ("A17", Stage, b"<a>{/* \xE2\x80\xA8 */}</a>", "ok 7"),
    ("A17", Stage, b"<a>\xE2\x80\xA8</a>", "ok 6"),
    ("A17", Stage, b"<a b='\xE2\x80\xA9'/>", "ok 6"),
    ("A17", Stage, b"<a>{'\xE2\x80\xA9'}</a>", "ok 7"),
    ("A18", Stage, b"\x41\xE2\x28\xA1", "no 2 1 1 0 0"),
    ("A19", Stage, b"< ></a>", "no 8 0 3 5 6"),
    ("A19", Stage, b"< a . b ></ c : d >", "no 7 2 7 12 17"),
    ("A19", Stage, b"<a . b>< / >", "no 9 1 6 7 12"),
    ("A20", Stage, b"<a b={c}/>", "ok 7"),
    ("A22", Stage, b"<a>{!a?b:c}</a>", "ok 7"),
    ("A22", Stage, b"<a>{!a()}</a>", "ok 7"),
    ("A23", Stage, b"<a/>/*", "no 17 4 4 0 0"),
    ("A23", Run, b"</*", "no 17 1 1 0 0"),
    ("A23", Stage, b"<a/>//\xE2\x80\xA8\n<b/>", "no 12 10 11 0 0"),
    ("A24", Stage, b"<a/><", "no 12 4 5 0 0"),
    ("A24", Stage, b"<a/><<", "no 13 4 4 0 0"),
    ("A24", Stage, b"<a/><=", "no 13 4 4 0 0"),
    ("A24", Stage, b"<a/>< =", "no 12 4 5 0 0"),
    ("A24", Stage, b"<a b=<c/><=", "no 3 9 9 0 0"),
    ("A24", Stage, b"<a b=<c/><<", "no 3 9 9 0 0"),
    ("A24", Stage, b"<a b=<c/><", "no 12 9 10 0 0"),
    ("A24", Stage, b"<a>{<b/><=c}</a>", "no 3 8 8 0 0"),
    ("A24", Stage, b"<a>{<b/><", "no 12 8 9 0 0"),
    ("A27", Run, b"{<a @/>}", "no 3 4 4 0 0"),
    ("A28", Run, b"{a", "no 4 2 2 0 0"),
    ("A28", Stage, b"<>{a</>", "no 3 4 4 0 0"),
];

/// 5.1 and 5.2, where they name an input that is not above. The words themselves stand in tests/all/depths.rs.
#[rustfmt::skip]
const REQUEST_5: &[Row] = &[
    ("5.1", Run, b"x<a/>", "ok 4"),
    ("5.2", Stage, b"<a>{((<b/>))}</a>", "ok 10"),
];

/// 3.1 to 3.12, where they name an input that is not above.
#[rustfmt::skip]
const REQUEST_3: &[Row] = &[
    ("3.1", Stage, b"<a>{\"b\n\"}</a>", "no 3 4 6 0 0"),
    ("3.1", Stage, b"<a>{'\n", "no 3 4 5 0 0"),
    ("3.2", Stage, b"<a>{\"b\r\n\"}</a>", "no 3 4 6 0 0"),
    ("3.3", Stage, b"<a>{\"b\\\"}</a>", "no 3 6 6 0 0"),
    ("3.4", Stage, b"<a>{\"b\\\n", "no 3 6 6 0 0"),
    ("3.4", Stage, b"<a>{\"b\n\\", "no 3 4 6 0 0"),
    ("3.4", Stage, b"<a>{\"b", "no 18 4 4 0 0"),
    ("3.5", Stage, b"<a>{\"\xE2\x80\xA8\"}</a>", "ok 7"),
    ("3.5", Stage, b"<a>{\"\xE2\x80\xA8", "no 18 4 4 0 0"),
    ("3.5", Stage, b"<a>{\"\xE2\x80\xA9\n", "no 3 4 8 0 0"),
    ("3.6", Stage, b"<a b={\"x", "no 18 6 6 0 0"),
    ("3.6", Stage, b"<a {...\"x", "no 18 7 7 0 0"),
    ("3.6", Stage, b"<a>{...'x", "no 18 7 7 0 0"),
    ("3.6", Stage, b"<a>{f(\"x", "no 18 6 6 0 0"),
    ("3.6", Run, b"{\"x", "no 18 1 1 0 0"),
    ("3.7", Stage, b"<a>{<b c=\"x", "no 5 9 9 0 0"),
    ("3.7", Stage, b"<a>{<b c={'x", "no 18 10 10 0 0"),
    ("3.7", Stage, b"<a b='x\n", "no 5 5 5 0 0"),
    ("3.8", Stage, b"/*", "no 17 0 0 0 0"),
    ("3.8", Stage, b"<a>{b/*", "no 17 5 5 0 0"),
    ("3.9", Stage, b"<a //x", "no 4 6 6 0 0"),
    ("3.10", Stage, b"<a>/*", "no 4 5 5 0 0"),
    ("3.10", Stage, b"<a>/*{\"", "no 18 6 6 0 0"),
    ("3.11", Stage, b"<a>{b \"x\n", "no 3 6 6 0 0"),
    ("3.11", Stage, b"\"", "no 3 0 0 0 0"),
    ("3.11", Stage, b"<a/>\"", "no 13 4 4 0 0"),
    ("3.12", Stage, b"<a>{'/*", "no 18 4 4 0 0"),
    ("3.12", Stage, b"<a>{/*'", "no 17 4 4 0 0"),
    ("3.12", Stage, b"<a>{\"'", "no 18 4 4 0 0"),
];

/// 1.1 to 1.13 and 1.16, where they name an input that is not above. U+00A0 is C2 A0, U+FEFF EF BB BF, U+2028 E2 80 A8,
/// U+2029 E2 80 A9.
#[rustfmt::skip]
const REQUEST_1: &[Row] = &[
    ("1.1", Stage, b"<a\xC2\xA0b/>", "ok 5"),
    ("1.1", Stage, b"<a\xE1\x9A\x80:\xE2\x80\xAFb\xE2\x81\x9F/>", "ok 5"),
    ("1.2: U+200B", Stage, b"<a\xE2\x80\x8B/>", "no 3 2 2 0 0"),
    ("1.2: U+180E", Stage, b"<a\xE1\xA0\x8E/>", "no 3 2 2 0 0"),
    ("1.2, 1.16: U+0085", Stage, b"<a\xC2\x85/>", "no 3 2 2 0 0"),
    ("1.2, 7.5: U+200C", Stage, b"<a\xE2\x80\x8C/>", "ok 3"),
    ("1.2, 7.5: U+200D", Stage, b"<a\xE2\x80\x8D/>", "ok 3"),
    ("1.2: U+200E", Stage, b"<a\xE2\x80\x8E/>", "no 3 2 2 0 0"),
    ("1.2: U+200F", Stage, b"<a\xE2\x80\x8F/>", "no 3 2 2 0 0"),
    ("1.2: U+2060", Stage, b"<a\xE2\x81\xA0/>", "no 3 2 2 0 0"),
    ("1.2: U+00AD", Stage, b"<a\xC2\xAD/>", "no 3 2 2 0 0"),
    ("1.2: U+2060", Stage, b"<\xE2\x81\xA0a/>", "no 3 1 1 0 0"),
    ("1.2: U+200B", Stage, b"<a/>\xE2\x80\x8B", "no 13 4 4 0 0"),
    ("1.3", Stage, b"\xEF\xBB\xBF", "no 4 3 3 0 0"),
    ("1.3", Run, b"\xEF\xBB\xBF", "ok 1"),
    ("1.4", Stage, b"<a/>\xEF\xBB\xBF", "ok 3"),
    ("1.4", Stage, b"<a/>\xC2\xA0x", "no 13 6 6 0 0"),
    ("1.4", Stage, b"<a/>\xC2\xA0<b/>", "no 12 6 7 0 0"),
    ("1.5", Stage, b"<a>\xC2\xA0</a>", "ok 6"),
    ("1.5", Stage, b"<a>\xE2\x80\xA8//\xE2\x80\xA8</a>", "ok 6"),
    ("1.5", Stage, b"<a><\xC2\xA0/a>", "ok 5"),
    ("1.5", Run, b"<\xC2\xA0/a>", "no 3 0 0 0 0"),
    ("1.6", Stage, b"<a//x\xE2\x80\xA8b/>", "ok 5"),
    ("1.6", Stage, b"<a//\xC2\xA0\xEF\xBB\xBF\x0B\x0C\xC2\x85\n/>", "ok 3"),
    ("1.6", Stage, b"<a>{//}\xE2\x80\xA9b}</a>", "ok 7"),
    ("1.7", Stage, b"<a/>//\xE2\x80\xA8<b/>", "no 12 9 10 0 0"),
    ("1.8", Stage, b"<a\xE2\x80\xA8b/>", "ok 5"),
    ("1.8", Stage, b"<\xE2\x80\xA8", "no 4 4 4 0 0"),
    ("1.8", Stage, b"<a>{'\xE2\x80\xA8'}</a>", "ok 7"),
    ("1.8", Stage, b"<a/*\xE2\x80\xA8", "no 17 2 2 0 0"),
    ("1.9", Stage, b"<a\r\nb/>", "ok 5"),
    ("1.9", Stage, b"<a//\r\xE2\x80\xA8b/>", "ok 5"),
    ("1.10", Stage, b"<a>{b|\xC2\xA0|c}</a>", "no 3 5 5 0 0"),
    ("1.10", Stage, b"<a {.\xC2\xA0..b}/>", "no 3 4 4 0 0"),
    ("1.10", Stage, b"<a/\xC2\xA0*", "no 3 5 5 0 0"),
    ("1.10", Stage, b"<a>{b?\xE2\x80\xA8.c:d}</a>", "no 3 9 9 0 0"),
    ("1.11", Stage, b"<a>{1\xC2\xA0.b}</a>", "ok 7"),
    ("1.11", Stage, b"<a>{1.\xC2\xA0b}</a>", "no 3 4 4 0 0"),
    ("1.12", Stage, b"<a>{\xC2\xA0}</a>", "ok 7"),
    ("1.12", Stage, b"<a b={\xE3\x80\x80}/>", "no 11 5 10 0 0"),
    ("1.12", Stage, b"<\xE2\x80\x87></a>", "no 8 0 5 7 8"),
    ("1.12", Stage, b"<a></\xE2\x80\x87>", "no 9 1 2 3 9"),
    ("1.12", Stage, b"<a>{b\xE3\x80\x80,c}</a>", "no 16 8 9 0 0"),
    ("1.13", Stage, b"<a\xC2", "no 2 2 2 0 0"),
    ("1.13", Stage, b"<a\xE2\x80", "no 2 2 2 0 0"),
    ("1.13", Stage, b"<a>\xE2\x80\xA8\xA8", "no 2 6 6 0 0"),
];

/// 7.1 to 7.17, where they name an input that is not above.
#[rustfmt::skip]
const REQUEST_7: &[(&str, &str, &str)] = &[
    ("7.1", "<\u{33479}/>", "ok 3"),
    ("7.1", "<\u{3347A}/>", "no 3 1 1 0 0"),
    ("7.2", "<1é/>", "no 3 1 1 0 0"),
    ("7.2", "<-é/>", "no 3 1 1 0 0"),
    ("7.2", "<$é/>", "ok 3"),
    ("7.3", "<×/>", "no 3 1 1 0 0"),
    ("7.3", "<a×/>", "no 3 2 2 0 0"),
    ("7.3", "<\u{1F600}/>", "no 3 1 1 0 0"),
    ("7.3", "<\u{E000}/>", "no 3 1 1 0 0"),
    ("7.3", "<\u{378}/>", "no 3 1 1 0 0"),
    ("7.4", "<\u{301}/>", "no 3 1 1 0 0"),
    ("7.4", "<a \u{301}/>", "no 3 3 3 0 0"),
    ("7.4", "<a.\u{301}/>", "no 3 3 3 0 0"),
    ("7.4", "<a\u{301}/>", "ok 3"),
    ("7.4", "<·/>", "no 3 1 1 0 0"),
    ("7.4", "<a·/>", "ok 3"),
    ("7.5", "<a\u{200C}\u{200D}/>", "ok 3"),
    ("7.5", "<a-\u{200D}/>", "ok 3"),
    ("7.5", "<\u{200D}/>", "no 3 1 1 0 0"),
    ("7.6", "<a\u{2010}b/>", "no 3 2 2 0 0"),
    ("7.6", "<a－/>", "no 3 2 2 0 0"),
    ("7.6", "<a：b/>", "no 3 2 2 0 0"),
    ("7.6", "<a．b/>", "no 3 2 2 0 0"),
    ("7.7", "<한/>", "ok 3"),
    ("7.7", "<é-/>", "ok 3"),
    ("7.7", "<Aé/>", "ok 3"),
    ("7.8", "<thisé/>", "ok 3"),
    ("7.8", "<this\u{200D}/>", "ok 3"),
    ("7.8", "<this\u{301}.b/>", "ok 5"),
    ("7.9", "<é.b/>", "ok 5"),
    ("7.9", "<é-a.b/>", "ok 5"),
    ("7.9", "<é:한/>", "ok 5"),
    ("7.9", "<a.é-/>", "no 10 3 6 0 0"),
    ("7.10", "<é></e\u{301}>", "no 7 1 3 6 9"),
    ("7.10", "<\u{212B}></\u{C5}>", "no 7 1 4 7 9"),
    ("7.10", "<a></a\u{200D}>", "no 7 1 2 5 9"),
    ("7.11", "<a>{é}</a>", "no 3 4 4 0 0"),
    ("7.11", "<a>{aé}</a>", "no 3 5 5 0 0"),
    ("7.11", "<a>{a.é}</a>", "no 3 6 6 0 0"),
    ("7.11", "<a>{<é λ={b}/>}</a>", "ok 14"),
    ("7.12", "<a>{1é}</a>", "no 3 5 5 0 0"),
    ("7.12", "<a>{ifé}</a>", "no 3 4 4 0 0"),
    ("7.13", "<a b='c'é/>", "ok 8"),
    ("7.13", "<a {...b}é/>", "ok 7"),
    ("7.13", "<a b='c'\u{301}/>", "no 3 8 8 0 0"),
    ("7.15", "<\\u0061/>", "no 3 1 1 0 0"),
    ("7.15", "<a\\u0061/>", "no 3 2 2 0 0"),
    ("7.16", "<é", "no 4 3 3 0 0"),
    ("7.16", "<a></é", "no 4 7 7 0 0"),
    ("7.17", "<\u{A0}é\u{A0}/>", "ok 3"),
    ("7.17", "<é\u{2028}é/>", "ok 5"),
];

/// The inputs that the readings of request 7 name. They are in the second list.
pub fn of_request_7() -> Vec<Named> {
    let of = |&(source, input, expected): &(&'static str, &str, &str)| {
        of_text(source, input.to_string(), expected)
    };
    let mut all: Vec<Named> = REQUEST_7.iter().map(of).collect();
    all.push(of_row(&("7.16", Stage, b"<\xC3", "no 2 1 1 0 0")));
    let deep = |tail: &str| format!("{}{tail}", "<a>".repeat(64));
    all.push(of_text("7.14", deep("<é"), "no 14 192 192 0 0"));
    all.push(of_text("7.14", deep("<\u{301}"), "no 3 193 193 0 0"));
    all
}

/// The 38 reserved words of ECMA-262.
pub const RESERVED_WORDS: &str = "await break case catch class const continue debugger default \
    delete do else enum export extends false finally for function if import in instanceof new null \
    return super switch this throw true try typeof var void while with yield";

/// Those that document 01 adds.
pub const ADDED_WORDS: &str = "let static implements interface package private protected public";

/// D: "As a primary, the 38 reserved words .. After a dot any name is good." Names of tags may be keywords.
fn words() -> Vec<Named> {
    let excepted = ["this", "true", "false", "null"];
    let reserved = RESERVED_WORDS.split_whitespace();
    let others = [
        "async",
        "of",
        "get",
        "eval",
        "arguments",
        "undefined",
        "If",
        "LET",
    ];
    let mut all = Vec::new();
    for word in reserved.chain(ADDED_WORDS.split_whitespace()).chain(others) {
        let good = excepted.contains(&word) || others.contains(&word);
        let expected = if good { "ok 7" } else { "no 3 4 4 0 0" };
        all.push(of_text("words", format!("<a>{{{word}}}</a>"), expected));
        all.push(of_text("words", format!("<a>{{b.{word}}}</a>"), "ok 7"));
        all.push(of_text("words", format!("<{word} {word}/>"), "ok 5"));
    }
    all
}

/// D: "Depth". `<a>{` is two deep, so the 63rd parenthesis, at 66, would be the 65th thing.
fn deep() -> Vec<Named> {
    let parens = |n: usize, tail: &str| format!("<a>{{{}{tail}", "(".repeat(n));
    let closed = |n: usize, tail: &str| format!("{}{}}}</a>", parens(n, tail), ")".repeat(n));
    let elements = |n: usize, tail: &str| format!("{}{tail}", "<a>".repeat(n));
    let ended = |n: usize, tail: &str| format!("{}{}", elements(n, tail), "</a>".repeat(n));
    vec![
        of_text("depth", ended(64, ""), "ok 320"),
        of_text("depth", ended(65, ""), "no 14 192 192 0 0"),
        of_text("depth", ended(63, "{b}"), "ok 317"),
        of_text("depth", ended(64, "{b}"), "no 14 192 192 0 0"),
        of_text("depth", ended(64, "x"), "ok 321"),
        of_text("depth", closed(62, "b"), "ok 7"),
        of_text("depth", closed(63, "b"), "no 14 66 66 0 0"),
        of_text("A2", parens(62, "b("), "no 14 67 67 0 0"),
        of_text("A2", parens(62, "b["), "no 14 67 67 0 0"),
        of_text("A2", parens(62, "b?"), "no 14 67 67 0 0"),
        of_text("A2", closed(0, &format!("f{}", "()".repeat(100))), "ok 7"),
        of_text(
            "A2",
            closed(61, &format!("f{}", "()[0].b".repeat(9))),
            "ok 7",
        ),
        of_text("A3", elements(64, "<f.b-"), "no 14 192 192 0 0"),
        of_text("A3", elements(64, "<f:"), "no 14 192 192 0 0"),
        of_text("A3", elements(64, "< f"), "no 14 192 192 0 0"),
        of_text("A3", elements(64, "<>"), "no 14 192 192 0 0"),
        of_text("A3", elements(64, "<"), "no 4 193 193 0 0"),
        of_text("A3", elements(64, "< "), "no 4 194 194 0 0"),
        of_text("A3", elements(64, "<!"), "no 3 193 193 0 0"),
        of_text("A3", elements(64, "</*"), "no 17 193 193 0 0"),
        of_text("A20", elements(64, "{"), "no 14 192 192 0 0"),
        of_text("A20", elements(64, "{}"), "no 14 192 192 0 0"),
        of_text("A20", elements(64, "{/*"), "no 14 192 192 0 0"),
        of_text("A20", elements(63, "<a b={/*"), "no 14 194 194 0 0"),
        of_text("3.13", elements(64, "{\""), "no 14 192 192 0 0"),
        of_text("1.14", elements(64, "<\u{A0}b"), "no 14 192 192 0 0"),
        of_text("1.14", elements(64, "<\u{2028}"), "no 4 196 196 0 0"),
        of_text("A20", parens(62, "(/*"), "no 14 66 66 0 0"),
        of_text("A20", parens(62, "b(/*"), "no 14 67 67 0 0"),
        of_text("A20", parens(62, "b/*"), "no 17 67 67 0 0"),
        of_text("A20", ended(63, "{}"), "ok 317"),
        of_text("A20", elements(63, "<a b={"), "no 14 194 194 0 0"),
        of_text("A20", elements(63, "<a b={}/>"), "no 14 194 194 0 0"),
        of_text("A20", elements(63, "<a {@"), "no 14 192 192 0 0"),
        of_text("A20", elements(63, "<a b=<c"), "no 14 194 194 0 0"),
        of_text("A21", parens(62, "--"), "no 3 66 66 0 0"),
        of_text("A21", parens(62, "b??"), "no 3 67 67 0 0"),
        of_text("A21", parens(62, "b?."), "no 3 67 67 0 0"),
        of_text("A21", parens(62, "-"), "no 14 66 66 0 0"),
        of_text("A21", parens(62, "!"), "no 14 66 66 0 0"),
        of_text("A21", parens(62, "-/*"), "no 14 66 66 0 0"),
        of_text("A21", parens(62, "b?/*"), "no 14 67 67 0 0"),
        of_text("A22", closed(61, "!a?b:c"), "ok 7"),
        of_text("A22", closed(61, "!a()"), "no 14 67 67 0 0"),
        of_text("A22", closed(60, "!a()"), "ok 7"),
        of_text("A22", closed(0, &format!("b{}", "?c:d".repeat(62))), "ok 7"),
        of_text(
            "A22",
            closed(0, &format!("b{}", "?c:d".repeat(63))),
            "no 14 253 253 0 0",
        ),
    ]
}

/// 5.6: an element as an attribute's value adds 3 ancestors a level (1, 18, 8), the last one's attribute `b:c` four more.
fn greatest_word() -> Named {
    let input = format!("{}<a b:c/>{}", "<a b=".repeat(63), "/>".repeat(63));
    of_text("5.6", input, "ok 322")
}

fn of_text(source: &'static str, input: String, expected: &str) -> Named {
    Named {
        source,
        reading: Stage,
        input: input.into_bytes(),
        expected: expected.to_string(),
    }
}
