//! The seventh word of request 5, by its readings 5.1 to 5.3, 5.6 and 5.7.

use oracle::forms::program_form;
use oracle::Reading::{self, Run, Stage};
use oracle::{named, read, Answer, Limits, Record};

fn records(reading: Reading, input: &[u8]) -> Vec<Record> {
    match read(input, reading, Limits::default()) {
        Answer::Accepted(records) => records,
        refused => panic!("{refused:?} {}", String::from_utf8_lossy(input)),
    }
}

fn depths(reading: Reading, input: &str) -> Vec<u32> {
    let records = records(reading, input.as_bytes());
    records.iter().map(|record| record.depth).collect()
}

/// 5.1: an outermost record has 0, in a run each of them.
#[test]
fn outermost_records_have_0() {
    assert_eq!(depths(Stage, "<v>hi</v>"), [0, 1, 2, 1, 1, 2]);
    assert_eq!(depths(Run, "x<a/>"), [0, 0, 1, 2]);
    assert_eq!(depths(Run, "<a/><b/>"), [0, 1, 2, 0, 1, 2]);
}

/// 5.2: parentheses, calls, brackets, prefixes and `?` leave no record and count nothing; 18, 8, 11 and 15 are records and count.
#[test]
fn only_records_count() {
    assert_eq!(
        depths(Stage, "<a>{((<b/>))}</a>"),
        [0, 1, 2, 1, 2, 3, 4, 5, 1, 2]
    );
    let plain = depths(Run, "{<b/>}");
    assert_eq!(plain, [0, 1, 2, 3, 4]);
    for input in [
        "{(<b/>)}",
        "{f(<b/>)}",
        "{c[<b/>]}",
        "{!<b/>}",
        "{c?<b/>:d}",
    ] {
        assert_eq!(depths(Run, input), plain, "{input}");
    }
    assert_eq!(depths(Stage, "<a b=<c/>/>"), [0, 1, 2, 2, 3, 3, 4, 5]);
    assert_eq!(depths(Stage, "<a b={c}/>"), [0, 1, 2, 2, 3, 3, 4]);
}

/// 5.3: the word stands behind extra, last on a printed line.
#[test]
fn a_printed_line_ends_with_it() {
    let printed = program_form(&read(b"<v>hi</v>", Stage, Limits::default()));
    let lines: Vec<&str> = printed.lines().collect();
    assert_eq!((lines[1], lines[6]), ("0 1 0 9 - 6 1 0", "5 3 7 8 4 6 0 2"));
}

/// 5.6: 189 for the 64th element, then its 18, its attribute, the name of that, and the two parts of the name.
#[test]
fn the_greatest_is_193() {
    let named = named::named();
    let named = named.iter().find(|named| named.source == "5.6");
    let named = named.expect("the input of 5.6");
    let records = records(named.reading, &named.input);
    let last: Vec<(u32, u32)> = records[315..].iter().map(|r| (r.kind, r.depth)).collect();
    let expected = [
        (1, 189),
        (18, 190),
        (3, 191),
        (8, 191),
        (6, 192),
        (16, 193),
        (16, 193),
    ];
    assert_eq!(last, expected);
    assert_eq!(records.iter().map(|record| record.depth).max(), Some(193));
}

/// 5.7: joined, the rows keep the word; in a content, they have the enclosing record's word plus 1 more.
#[test]
fn runs_that_are_joined_or_put_into_an_element() {
    let [x, a] = ["x", "<a/>"].map(|run| depths(Run, run));
    assert_eq!(depths(Run, "x<a/>"), [&x[..], &a].concat());
    let inside: Vec<u32> = a.iter().map(|depth| depth + 1 + 3).collect();
    let whole = depths(Stage, "<v b=<w><a/></w>/>");
    assert_eq!(
        whole,
        [&[0, 1, 2, 2, 3, 3, 4, 5][..], &inside, &[4, 5]].concat()
    );
}
