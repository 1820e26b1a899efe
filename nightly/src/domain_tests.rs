//! What is compared, and what is not. Each answer is the oracle's, but in `limits_of_the_port`: there short inputs
//! stand for those that meet a limit.

use super::*;

const STAGE: Reading = Reading::Stage;
const RUN: Reading = Reading::Run;

type Case<'a> = (Reading, &'a str, &'a [u32]);

fn item(reading: Reading, text: &str) -> Item {
    Item {
        reading,
        bytes: text.as_bytes().to_vec(),
    }
}

/// No number is accepted; a number and a single place p mean p, p; unused places are 0.
fn answer(numbers: &[u32]) -> Answer {
    match *numbers {
        [] => Answer::Ok(None),
        [number, p] => Answer::No(Refusal::Told(number, [p, p, 0, 0])),
        [number, a, b] => Answer::No(Refusal::Told(number, [a, b, 0, 0])),
        [number, a, b, c, d] => Answer::No(Refusal::Told(number, [a, b, c, d])),
        _ => panic!("no answer: {numbers:?}"),
    }
}

fn all_compared(wanted: bool, cases: &[Case]) {
    for (reading, text, numbers) in cases {
        let is = compared(&item(*reading, text), &answer(numbers));
        assert_eq!(is, wanted, "{} {text:?} {numbers:?}", reading.word());
    }
}

#[test]
fn what_is_accepted() {
    let cases: [Case; 4] = [
        (STAGE, "<a/>", &[]),
        (RUN, "", &[]),
        (RUN, "hi{<b>x</b>}", &[]),
        (STAGE, "<a b=\"\\\"/>", &[]),
    ];
    all_compared(true, &cases);
}

/// Request 1 of document 02: ECMA-262's blanks between tokens, and U+2028 and U+2029 behind `//`.
#[test]
fn what_is_accepted_with_blanks_beyond_ascii() {
    let cases: [Case; 10] = [
        (STAGE, "<a\u{A0}b/>", &[]),
        (STAGE, "\u{FEFF}<a/>\u{FEFF}", &[]),
        (STAGE, "<a\u{1680}:\u{202F}b\u{205F}/>", &[]),
        (STAGE, "<a//x\u{2028}b/>", &[]),
        (STAGE, "<a>{//}\u{2029}b}</a>", &[]),
        (STAGE, "<a/>//\u{2028}", &[]),
        (RUN, "\u{FEFF}", &[]),
        (STAGE, "<a b=\u{A0}'x'/>", &[]),
        (STAGE, "<a b=\u{3000}'\u{2028}'/>", &[]),
        (STAGE, "<a b=//\u{2029}{'c'}\n/>", &[]),
    ];
    all_compared(true, &cases);
}

#[test]
fn refusals_behind_blanks_beyond_ascii() {
    let cases: [Case; 12] = [
        (STAGE, "\u{FEFF}", &[4, 3]),
        (STAGE, "<\u{2028}", &[4, 4]),
        (STAGE, "<a\u{A0}b='x", &[5, 6]),
        (STAGE, "<\u{2007}></a>", &[8, 0, 5, 7, 8]),
        (STAGE, "<a></\u{2007}>", &[9, 1, 2, 3, 9]),
        (STAGE, "<a b={\u{3000}}/>", &[11, 5, 10]),
        (STAGE, "<a/>//\u{2028}<b/>", &[12, 9, 10]),
        (STAGE, "<a>{b\u{3000},c}</a>", &[16, 8, 9]),
        (STAGE, "<a\u{2028}/*", &[17, 5]),
        (STAGE, "<a b=\u{A0}!", &[3, 7]),
        (STAGE, "<a //{\u{2029}!", &[3, 9]),
        (RUN, "<a><\u{A0}/a><b !", &[3, 12]),
    ];
    all_compared(true, &cases);
}

#[test]
fn numbers_4_to_12_and_16_to_18() {
    let cases: [Case; 20] = [
        (STAGE, "", &[4, 0]),
        (RUN, "{a", &[4, 2]),
        (STAGE, "<a b='x", &[5, 5]),
        (STAGE, "<a>{<b c=\"x", &[5, 9]),
        (STAGE, "<a>}</a>", &[6, 3]),
        (STAGE, "<v></w>", &[7, 1, 2, 5, 6]),
        (STAGE, "<></a>", &[8, 0, 2, 4, 5]),
        (STAGE, "<a></>", &[9, 1, 2, 3, 6]),
        (STAGE, "<f.b-/>", &[10, 3, 5]),
        (STAGE, "<a b={}/>", &[11, 5, 7]),
        (STAGE, "<a/><b/>", &[12, 4, 5]),
        (STAGE, "<x>{a, b}</x>", &[16, 5, 6]),
        (STAGE, "<a>{<b/><", &[12, 8, 9]),
        (STAGE, "<a>{<b>}</b>", &[6, 7]),
        (STAGE, "/*", &[17, 0]),
        (STAGE, "<a /*", &[17, 3]),
        (STAGE, "<a b=/*'\n", &[17, 5]),
        (RUN, "</*", &[17, 1]),
        (STAGE, "<a>{'x", &[18, 4]),
        (RUN, "{f(\"<a b= '", &[18, 3]),
    ];
    all_compared(true, &cases);
}

#[test]
fn limits_of_the_port() {
    let cases: [Case; 4] = [
        (RUN, "a", &[1, 0]),
        (STAGE, "<a/> x", &[13, 5]),
        (STAGE, "<a/>", &[14, 0]),
        (STAGE, "<a/>", &[15, 3, 0]),
    ];
    all_compared(false, &cases);
}

/// A parser of strings answers `skip` there.
#[test]
fn bytes_that_are_not_utf8() {
    let bytes = b"{}{}</></>\xFF".to_vec();
    let item = item(RUN, "").with(bytes);
    assert!(compared(&item, &answer(&[2, 10])));
}

#[test]
fn three_outside_braces() {
    let cases: [Case; 8] = [
        (STAGE, "<a !/>", &[3, 3]),
        (STAGE, "</a>", &[3, 1]),
        (STAGE, "<a b=/", &[3, 5]),
        (RUN, "<a !/>", &[3, 3]),
        (STAGE, "<a>{b}<!", &[3, 7]),
        (STAGE, "<a b={c} !", &[3, 9]),
        (STAGE, "<a {...<b></b>} !", &[3, 16]),
        (STAGE, "<a b=<c>{}</c> !", &[3, 15]),
    ];
    all_compared(true, &cases);
}

#[test]
fn three_inside_braces() {
    let cases: [Case; 8] = [
        (STAGE, "<a>{if", &[3, 4]),
        (STAGE, "<a {}/>", &[3, 4]),
        (STAGE, "<a>{<b !", &[3, 7]),
        (RUN, "{<b>{c}</b !", &[3, 11]),
        (STAGE, "<a>{\"b\\", &[3, 6]),
        (STAGE, "<a>{\"b\n\"}</a>", &[3, 4, 6]),
        (STAGE, "<a b={'\r", &[3, 6, 7]),
        (STAGE, "<a b={<c d={e} !", &[3, 15]),
    ];
    all_compared(false, &cases);
}

#[test]
fn braces_in_strings_and_comments_of_tags_do_not_count() {
    let cases: [Case; 4] = [
        (STAGE, "<a b='{' !", &[3, 9]),
        (STAGE, "<a /*{*/ !", &[3, 9]),
        (STAGE, "<a //{\n!", &[3, 7]),
        (STAGE, "//<{\n<!", &[3, 6]),
    ];
    all_compared(true, &cases);
}

#[test]
fn braces_in_texts_count() {
    let cases: [Case; 4] = [
        (RUN, "{'}' if", &[3, 5]),
        (RUN, "{/*}*/ if", &[3, 7]),
        (RUN, "//{if", &[3, 3]),
        (RUN, "'{if'", &[3, 2]),
    ];
    all_compared(false, &cases);
}

/// Request 7 of document 02: at any character that fits nowhere.
#[test]
fn three_at_characters_beyond_ascii() {
    let cases: [Case; 12] = [
        (STAGE, "<×/>", &[3, 1]),
        (STAGE, "<a×/>", &[3, 2]),
        (STAGE, "<é\u{2010}b/>", &[3, 3]),
        (STAGE, "<\u{301}/>", &[3, 1]),
        (STAGE, "<a \u{200D}/>", &[3, 3]),
        (STAGE, "<a b='c'\u{301}/>", &[3, 8]),
        (STAGE, "<a b=한/>", &[3, 5]),
        (STAGE, "<a></\u{3347A}>", &[3, 5]),
        (STAGE, "<é b={c} ：/>", &[3, 11]),
        (RUN, "<a.😀/>", &[3, 3]),
        (RUN, "x<a {...b}\u{AD}/>", &[3, 11]),
        (STAGE, "<a\u{200A}\u{200E}/>", &[3, 5]),
    ];
    all_compared(true, &cases);
}

#[test]
fn three_at_characters_beyond_ascii_in_braces_or_before_the_first_tag() {
    let cases: [Case; 5] = [
        (STAGE, "<a>{é}</a>", &[3, 4]),
        (STAGE, "<a>{b.한}</a>", &[3, 6]),
        (STAGE, "<é>{<λ ×", &[3, 9]),
        (STAGE, "é<a/>", &[3, 0]),
        (RUN, "<é></é></é>", &[3, 9]),
    ];
    all_compared(false, &cases);
}

/// Names of any script, in tags that are accepted or refused further on.
#[test]
fn names_beyond_ascii() {
    let cases: [Case; 8] = [
        (STAGE, "<한/>", &[]),
        (STAGE, "<é-λ:𐐀 b='c'é/>", &[]),
        (RUN, "{<é λ={b}/>}", &[]),
        (STAGE, "<é", &[4, 3]),
        (STAGE, "<é></e\u{301}>", &[7, 1, 3, 6, 9]),
        (STAGE, "<a.é-/>", &[10, 3, 6]),
        (STAGE, "<é/><λ/>", &[12, 5, 6]),
        (STAGE, "<é λ='", &[5, 7]),
    ];
    all_compared(true, &cases);
}

#[test]
fn three_at_bytes_that_are_left_out() {
    let cases: [Case; 6] = [
        (STAGE, "<\\u0061/>", &[3, 1]),
        (STAGE, "<é\\u0061/>", &[3, 3]),
        (STAGE, "<a\u{85}/>", &[3, 2]),
        (STAGE, "<a\u{180E}/>", &[3, 2]),
        (STAGE, "<a\u{A0}\u{200B}/>", &[3, 4]),
        (STAGE, "<\u{2060}a/>", &[3, 1]),
    ];
    all_compared(false, &cases);
}

#[test]
fn three_before_the_first_tag() {
    let cases: [Case; 3] = [
        (STAGE, "x<a/>", &[3, 0]),
        (STAGE, "/", &[3, 0]),
        (STAGE, "/*<*/ x", &[3, 6]),
    ];
    all_compared(false, &cases);
}

#[test]
fn the_outermost_closing_tag_of_a_run() {
    let left_out: [Case; 5] = [
        (RUN, "</>+<>", &[3, 0]),
        (RUN, "<a></a>{b}<c/></", &[3, 14]),
        (RUN, "< /a>", &[3, 0]),
        (RUN, "<\u{A0}/a>", &[3, 0]),
        (RUN, "<a><\u{A0}/a></", &[3, 9]),
    ];
    all_compared(false, &left_out);
    let others: [Case; 2] = [(RUN, "<a b=<c/><=", &[3, 9]), (RUN, "<a></!", &[3, 5])];
    all_compared(true, &others);
}

#[test]
fn blanks_before_a_string_with_a_backslash_or_a_line_end() {
    let cases: [Case; 13] = [
        (STAGE, "<a b= \"\\\"/>", &[]),
        (STAGE, "<a b=\n'x\ny'/>", &[]),
        (STAGE, "<a b=/**/\"\r\"/>", &[]),
        (STAGE, "<a b=//\n'\\'/>", &[]),
        (STAGE, "<a b= \"\\\"></b>", &[7, 1, 2, 12, 13]),
        (STAGE, "<a b= \"\\", &[5, 6]),
        (STAGE, "<a b= \"\\\"/*", &[17, 9]),
        (STAGE, "<a b= \"\\\">{'c", &[18, 11]),
        (RUN, "<a b=<c d= \"\\\"/>", &[4, 16]),
        (STAGE, "<a b=\u{A0}\"\\\"/>", &[]),
        (STAGE, "<a b=\u{FEFF}'x\ny'/>", &[]),
        (STAGE, "<a b=//=\u{2028}'\\'/>", &[]),
        (STAGE, "<a b=\u{2029}\"\\", &[5, 8]),
    ];
    all_compared(false, &cases);
}

#[test]
fn strings_with_no_blank_before_or_nothing_odd_inside() {
    let cases: [Case; 10] = [
        (STAGE, "<a b =\"\\\"/>", &[]),
        (STAGE, "<a b\u{A0}=\"\\\"/>", &[]),
        (STAGE, "<a\u{2028}b='\n\u{A0}'/>", &[]),
        (STAGE, "<a b= \"x\"/>", &[]),
        (STAGE, "<a b=\"\n\"/>", &[]),
        (RUN, "b= \"\\\"", &[]),
        (STAGE, "<a b=\"\\", &[5, 5]),
        (STAGE, "<a \"\\\"/>", &[3, 3]),
        (STAGE, "<a></b c= \"\\\"", &[3, 7]),
        (STAGE, "<a b={ 'c'}\n/>", &[]),
    ];
    all_compared(true, &cases);
}

#[test]
fn what_is_open() {
    use Inside::{Around, Braces, Children, Tag};
    let cases: [(Reading, &str, &[Inside]); 19] = [
        (STAGE, " /*<*/", &[Around]),
        (STAGE, "<", &[Around, Tag]),
        (STAGE, "<a>", &[Around, Children]),
        (STAGE, "<a/>", &[Around]),
        (STAGE, "<a / >", &[Around]),
        (STAGE, "<></ >", &[Around]),
        (STAGE, "<a>< /*x*/ /b", &[Around, Children, Tag]),
        (RUN, "", &[Children]),
        (RUN, "/*{", &[Children, Braces]),
        (RUN, "{<a b={c", &[Children, Braces, Tag, Braces]),
        (RUN, "<a b=<c>d</c", &[Children, Tag, Children, Tag]),
        (RUN, "<a b=<c></c>", &[Children, Tag]),
        (RUN, "<a b=<c></c>/>", &[Children]),
        (RUN, "<a b=<c/>>", &[Children, Children]),
        (STAGE, "\u{FEFF}//\u{2028}<", &[Around, Tag]),
        (STAGE, "<\u{A0}a\u{3000}/\u{2029}>", &[Around]),
        (STAGE, "<><\u{A0}/\u{A0}>", &[Around]),
        (RUN, "{//}\u{A0}\u{85}", &[Children, Braces]),
        (RUN, "{//}\u{2029}}", &[Children]),
    ];
    for (reading, text, open) in cases {
        let item = item(reading, text);
        assert_eq!(Reach::of(&item, text.len()).open, open, "{text:?}");
    }
}
