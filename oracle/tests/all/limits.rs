//! Both ends of each limit, and the order of the tests.

use oracle::Reading::{Run, Stage};
use oracle::{capacity_of, read, read_into, Answer, Limits};

fn refused(number: u32, places: [usize; 4]) -> Answer {
    Answer::Refused { number, places }
}

fn count(answer: Answer) -> usize {
    match answer {
        Answer::Accepted(records) => records.len(),
        refused => panic!("{refused:?}"),
    }
}

#[test]
fn the_limit_of_bytes() {
    let limits = Limits::default();
    assert_eq!((limits.bytes, limits.depth), (1_048_576, 64));
    let mut input = vec![b'a'; 1_048_576];
    assert_eq!(count(read(&input, Run, limits)), 1);
    assert_eq!(read(&input, Stage, limits), refused(3, [0; 4]));
    input.push(b'a');
    assert_eq!(read(&input, Run, limits), refused(1, [0; 4]));
    assert_eq!(read(&input, Stage, limits), refused(1, [0; 4]));
}

#[test]
fn too_long_comes_before_not_utf8_and_that_before_the_reading() {
    let limits = Limits {
        bytes: 3,
        ..Limits::default()
    };
    assert_eq!(read(b"}\xFF}}", Run, limits), refused(1, [0; 4]));
    assert_eq!(read(b"}\xFF}", Run, limits), refused(2, [1, 1, 0, 0]));
    assert_eq!(read(b"}}}", Run, limits), refused(6, [0; 4]));
}

#[test]
fn the_limit_of_depth_for_each_thing_that_counts() {
    let limits = Limits {
        depth: 3,
        ..Limits::default()
    };
    let at = |input: &str| match read(input.as_bytes(), Stage, limits) {
        Answer::Refused { number: 14, places } => Some(places[0]),
        Answer::Refused { number, places } => panic!("{number} {places:?} {input}"),
        Answer::Accepted(_) => None,
    };
    assert_eq!(at("<><><></></></>"), None);
    assert_eq!(at("<><><><></></></></>"), Some(6));
    assert_eq!(at("<><>< a/></></>"), None);
    assert_eq!(at("<><><>< a/></></></>"), Some(6));
    assert_eq!(at("<><>{}</></>"), None);
    assert_eq!(at("<><><>{}</></></>"), Some(6));
    assert_eq!(at("<>{(b)}</>"), None);
    assert_eq!(at("<>{((b))}</>"), Some(4));
    assert_eq!(at("<>{(b[c])}</>"), Some(5));
    assert_eq!(at("<>{(b(c))}</>"), Some(5));
    assert_eq!(at("<>{b(c(d))}</>"), Some(6));
    assert_eq!(at("<>{!b}</>"), None);
    assert_eq!(at("<>{!-b}</>"), Some(4));
    assert_eq!(at("<>{-!b}</>"), Some(4));
    assert_eq!(at("<>{!b+!c}</>"), None);
    assert_eq!(at("<>{!b()}</>"), Some(5));
    assert_eq!(at("<>{!b?c:d}</>"), None);
    assert_eq!(at("<>{b?c:d}</>"), None);
    assert_eq!(at("<>{b?c:d?e:f}</>"), Some(8));
    assert_eq!(at("<>{b?c?d:e:f}</>"), Some(6));
    assert_eq!(at("<>{b?!c:d}</>"), Some(5));
    assert_eq!(at("<>{b?c:!d}</>"), Some(7));
    assert_eq!(at("<>{(b)?c:d}</>"), None);
    assert_eq!(at("<>{b()[c]().d()}</>"), None);
    assert_eq!(at("<><a b={c}/></>"), None);
    assert_eq!(at("<><a b={!c}/></>"), Some(8));
    assert_eq!(at("<><a b=<c/>/></>"), None);
    assert_eq!(at("<><a b=<c d=<e/>/>/></>"), Some(12));
    assert_eq!(at("<><a {...b}/></>"), None);
    assert_eq!(at("<><a {...(b)}/></>"), Some(9));
    assert_eq!(at("<>{...<a/>}</>"), None);
    assert_eq!(at("<>{...<a b={c}/>}</>"), Some(11));
}

#[test]
fn siblings_are_not_deep() {
    let many = format!("<>{}</>", "<a b={c}>{!d}</a>".repeat(2_000));
    assert_eq!(
        count(read(many.as_bytes(), Stage, Limits::default())),
        3 + 2_000 * 11
    );
    let sums = format!("<>{{b{}}}</>", "+ -c()[d]*!e||f&&g".repeat(5_000));
    assert_eq!(count(read(sums.as_bytes(), Stage, Limits::default())), 5);
}

#[test]
fn the_limit_of_records() {
    let limits = Limits::default();
    assert_eq!(count(read_into(b"<a/>", Stage, limits, 3)), 3);
    assert_eq!(
        read_into(b"<a/>", Stage, limits, 2),
        refused(15, [3, 0, 0, 0])
    );
    assert_eq!(
        read_into(b"<a/>", Stage, limits, 0),
        refused(15, [3, 0, 0, 0])
    );
    assert_eq!(count(read_into(b"", Run, limits, 0)), 0);
    // A refusal of the reading comes before 15.
    assert_eq!(
        read_into(b"<v></w>", Stage, limits, 0),
        refused(7, [1, 2, 5, 6])
    );
}

#[test]
fn a_table_of_words_holds_a_seventh_rounded_down() {
    let held = [0, 6, 7, 20, 21, 22, 14_336].map(capacity_of);
    assert_eq!(held, [0, 0, 1, 2, 3, 3, 2_048]);
}

/// 5.4: 15 has the needed count in records.
#[test]
fn three_records_need_21_words() {
    let into = |words: usize| read_into(b"<a/>", Stage, Limits::default(), capacity_of(words));
    assert_eq!(into(20), refused(15, [3, 0, 0, 0]));
    assert_eq!(count(into(21)), 3);
}
