//! Request 3, by the first byte that matters behind a quote or `/*`: every short rest of bytes that close, break or
//! open.

use oracle::Reading::{self, Run, Stage};
use oracle::{read, Answer, Limits};

const BYTES: &[u8] = b"'\"\\\n\r*/ }";
const LONGEST: usize = 3;

/// Every rest of at most so many of the bytes.
fn rests() -> Vec<Vec<u8>> {
    let mut all = vec![Vec::new()];
    let mut longest = all.clone();
    for _ in 0..LONGEST {
        let by_one_byte = |rest: Vec<u8>| BYTES.iter().map(move |&b| [&rest[..], &[b]].concat());
        longest = longest.into_iter().flat_map(by_one_byte).collect();
        all.extend_from_slice(&longest);
    }
    all
}

/// A number and its first place.
type Refused = (u32, usize, usize);

/// Holds the answer to each rest behind a beginning against the one that the rest decides, if it decides one.
fn held(reading: Reading, beginning: &str, decided: impl Fn(&[u8]) -> Option<Refused>) {
    let mut count = 0;
    for rest in rests() {
        let Some((number, start, end)) = decided(&rest) else {
            continue;
        };
        let input = [beginning.as_bytes(), &rest].concat();
        let places = [start, end, 0, 0];
        let answer = read(&input, reading, Limits::default());
        let expected = Answer::Refused { number, places };
        assert_eq!(answer, expected, "{}", input.escape_ascii());
        count += 1;
    }
    assert!(count > rests().len() / 2, "{beginning}: {count}");
}

/// 3.1 to 3.4 and 3.6: a backslash at its own place, a line end from the quote to it, 18 where the end comes first.
#[test]
fn a_string_in_braces() {
    for (reading, beginning) in [
        (Stage, "<a>{'"),
        (Stage, "<a b={'"),
        (Stage, "<a {...'"),
        (Stage, "<a>{...'"),
        (Stage, "<a>{f('"),
        (Stage, "<a>{<b c={'"),
        (Run, "{'"),
    ] {
        let inside = beginning.len();
        let quote = inside - 1;
        held(reading, beginning, |rest| {
            let first = rest.iter().position(|b| b"'\\\n\r".contains(b));
            match first.map(|at| (rest[at], inside + at)) {
                None => Some((18, quote, quote)),
                Some((b'\'', _)) => None,
                Some((b'\\', at)) => Some((3, at, at)),
                Some((_, line_end)) => Some((3, quote, line_end)),
            }
        });
    }
}

/// 3.7: a quoted attribute string stays open over everything but its quote, in braces or not.
#[test]
fn a_quoted_attribute_string() {
    for (reading, beginning) in [
        (Stage, "<a b='"),
        (Stage, "<a>{<b c='"),
        (Stage, "<a b=<c d='"),
        (Run, "<a b='"),
    ] {
        let quote = beginning.len() - 1;
        held(reading, beginning, |rest| {
            (!rest.contains(&b'\'')).then_some((5, quote, quote))
        });
    }
}

/// 3.8 and 3.12: an open comment is told wherever blanks may stand, whatever quotes and line ends it holds.
#[test]
fn a_comment() {
    for (reading, beginning) in [
        (Stage, "/*"),
        (Stage, "</*"),
        (Stage, "<a /*"),
        (Stage, "<a b=/*"),
        (Stage, "<a b='c'/*"),
        (Stage, "<a>{/*"),
        (Stage, "<a>{'b'/*"),
        (Stage, "<a></a/*"),
        (Stage, "<a/>/*"),
        (Run, "</*"),
        (Run, "{f(/*"),
    ] {
        let first_byte = beginning.len() - 2;
        held(reading, beginning, |rest| {
            let closed = rest.windows(2).any(|two| two == b"*/");
            (!closed).then_some((17, first_byte, first_byte))
        });
    }
}
