//! Whole tables, derived by hand from "The table" and A19.
//!
//! A table is written as `kind start end parent after extra depth`, a record a line.

use oracle::forms::program_form;
use oracle::Reading::{self, Run, Stage};
use oracle::{read, Limits};

fn table(reading: Reading, input: &str, expected: &[&str]) {
    let mut lines = format!("ok {}\n", expected.len());
    for (number, record) in expected.iter().enumerate() {
        lines += &format!("{number} {record}\n");
    }
    let answer = program_form(&read(input.as_bytes(), reading, Limits::default()));
    assert_eq!(answer, lines, "{input}");
}

#[test]
fn the_table_of_document_01() {
    let printed = "ok 6\n0 1 0 9 - 6 1 0\n1 18 0 3 0 3 0 1\n2 3 1 2 1 3 0 2\n3 14 3 5 0 4 0 1\n\
                   4 17 5 9 0 6 0 1\n5 3 7 8 4 6 0 2\n";
    let answer = read(b"<v>hi</v>", Stage, Limits::default());
    assert_eq!(program_form(&answer), printed);
}

#[test]
fn a_self_closed_element_equals_its_opening_tag() {
    table(
        Stage,
        " < a / > ",
        &["1 1 8 - 3 0 0", "18 1 8 0 3 0 1", "3 3 4 1 3 0 2"],
    );
}

#[test]
fn one_part_names() {
    let name = |name: &str, kind_and_extra: (u32, u32)| {
        let (kind, extra) = kind_and_extra;
        let end = 1 + name.len();
        let whole = end + 2;
        table(
            Stage,
            &format!("<{name}/>"),
            &[
                &format!("1 0 {whole} - 3 0 0"),
                &format!("18 0 {whole} 0 3 0 1"),
                &format!("{kind} 1 {end} 1 3 {extra} 2"),
            ],
        );
    };
    name("a", (3, 0));
    name("foo1", (3, 0));
    name("a-", (3, 1));
    name("A", (4, 0));
    name("Z9", (4, 0));
    name("_", (4, 0));
    name("$a", (4, 0));
    name("A-b", (3, 1));
    name("_-", (3, 1));
    name("this", (5, 0));
    name("This", (4, 0));
    name("this-", (3, 1));
    name("thiss", (3, 0));
}

#[test]
fn members_hold_this_or_a_reference_and_then_parts() {
    let element = ["1 0 8 - 5 0 0", "18 0 8 0 5 0 1", "7 1 6 1 5 0 2"];
    let member = |input: &str, object: &str| {
        let [one, opening, name] = element;
        table(
            Stage,
            input,
            &[one, opening, name, object, "16 5 6 2 5 0 3"],
        );
    };
    member("<a-b.c/>", "4 1 4 2 4 1 3");
    member("<foo.c/>", "4 1 4 2 4 0 3");
    table(
        Stage,
        "<this . a.this/>",
        &[
            "1 0 16 - 6 0 0",
            "18 0 16 0 6 0 1",
            "7 1 14 1 6 0 2",
            "5 1 5 2 4 0 3",
            "16 8 9 2 5 0 3",
            "16 10 14 2 6 0 3",
        ],
    );
}

#[test]
fn namespaced_names_hold_two_parts() {
    table(
        Stage,
        "<this: a-b></this :a-b>",
        &[
            "1 0 23 - 9 1 0",
            "18 0 11 0 5 0 1",
            "6 1 10 1 5 0 2",
            "16 1 5 2 4 0 3",
            "16 7 10 2 5 1 3",
            "17 11 23 0 9 0 1",
            "6 13 22 5 9 0 2",
            "16 13 17 6 8 0 3",
            "16 19 22 6 9 1 3",
        ],
    );
}

#[test]
fn attributes_span_from_name_to_value() {
    table(
        Stage,
        "<a b c = 'd' e:f={ g } {... h }/>",
        &[
            "1 0 33 - 16 0 0",
            "18 0 33 0 16 0 1",
            "3 1 2 1 3 0 2",
            "8 3 4 1 5 0 2",
            "16 3 4 3 5 0 3",
            "8 5 12 1 8 0 2",
            "16 5 6 5 7 0 3",
            "10 9 12 5 8 0 3",
            "8 13 22 1 14 0 2",
            "6 13 16 8 12 0 3",
            "16 13 14 9 11 0 4",
            "16 15 16 9 12 0 4",
            "11 17 22 8 14 0 3",
            "15 19 20 12 14 0 4",
            "9 23 31 1 16 0 2",
            "15 28 29 14 16 0 3",
        ],
    );
}

#[test]
fn an_attribute_may_be_an_element_or_a_fragment() {
    table(
        Stage,
        "<a b=<c/> d-=<></>/>",
        &[
            "1 0 20 - 13 0 0",
            "18 0 20 0 13 0 1",
            "3 1 2 1 3 0 2",
            "8 3 9 1 8 0 2",
            "16 3 4 3 5 0 3",
            "1 5 9 3 8 0 3",
            "18 5 9 5 8 0 4",
            "3 6 7 6 8 0 5",
            "8 10 18 1 13 0 2",
            "16 10 12 8 10 1 3",
            "2 13 18 8 13 0 3",
            "18 13 15 10 12 0 4",
            "17 15 18 10 13 0 4",
        ],
    );
}

#[test]
fn children_in_braces() {
    table(
        Stage,
        "<>{}{ /**/ }{ ... b }{ b . c }</>",
        &[
            "2 0 33 - 11 0 0",
            "18 0 2 0 2 0 1",
            "11 2 4 0 4 0 1",
            "12 3 3 2 4 0 2",
            "11 4 12 0 6 0 1",
            "12 5 11 4 6 0 2",
            "13 12 21 0 8 0 1",
            "15 18 19 6 8 0 2",
            "11 21 30 0 10 0 1",
            "15 23 28 8 10 0 2",
            "17 30 33 0 11 0 1",
        ],
    );
}

#[test]
fn an_expression_holds_the_outermost_elements_in_it_in_order() {
    table(
        Run,
        "{(b)&&<c d={<e/>}/> + f(<></>,!<g/>)}",
        &[
            "11 0 37 - 18 0 0",
            "15 1 36 0 18 0 1",
            "1 6 19 1 12 0 2",
            "18 6 19 2 12 0 3",
            "3 7 8 3 5 0 4",
            "8 9 17 3 12 0 4",
            "16 9 10 5 7 0 5",
            "11 11 17 5 12 0 5",
            "15 12 16 7 12 0 6",
            "1 12 16 8 12 0 7",
            "18 12 16 9 12 0 8",
            "3 13 14 10 12 0 9",
            "2 24 29 1 15 0 2",
            "18 24 26 12 14 0 3",
            "17 26 29 12 15 0 3",
            "1 31 35 1 18 0 2",
            "18 31 35 15 18 0 3",
            "3 32 33 16 18 0 4",
        ],
    );
}

#[test]
fn a_paired_element_with_children() {
    table(
        Stage,
        "<a>x<b/>y</ a >",
        &[
            "1 0 15 - 10 1 0",
            "18 0 3 0 3 0 1",
            "3 1 2 1 3 0 2",
            "14 3 4 0 4 0 1",
            "1 4 8 0 7 0 1",
            "18 4 8 4 7 0 2",
            "3 5 6 5 7 0 3",
            "14 8 9 0 8 0 1",
            "17 9 15 0 10 0 1",
            "3 12 13 8 10 0 2",
        ],
    );
}

#[test]
fn runs_have_no_enclosing_record() {
    table(Run, "", &[]);
    table(Run, "hiyo", &["14 0 4 - 1 0 0"]);
    table(
        Run,
        "<a/> x{}",
        &[
            "1 0 4 - 3 0 0",
            "18 0 4 0 3 0 1",
            "3 1 2 1 3 0 2",
            "14 4 6 - 4 0 0",
            "11 6 8 - 6 0 0",
            "12 7 7 4 6 0 1",
        ],
    );
}

#[test]
fn an_attribute_string_knows_no_escape() {
    table(
        Stage,
        "<a b=\"\\\"/>",
        &[
            "1 0 10 - 6 0 0",
            "18 0 10 0 6 0 1",
            "3 1 2 1 3 0 2",
            "8 3 8 1 6 0 2",
            "16 3 4 3 5 0 3",
            "10 5 8 3 6 0 3",
        ],
    );
}
