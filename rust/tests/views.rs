//! What the views give: children, contents, attributes, tags, names, values.

use lorikvar::{read_run_vec, read_stage_vec, Kind, OwnedTable, Record};

const STAGE: &str = "<this x:y-z b='1' {...p}>hi{...q}{<></>}{ }<a.b c=<d/>/></this>";

fn read() -> OwnedTable<'static> {
    read_stage_vec(STAGE.as_bytes()).unwrap()
}

fn outermost<'i, 't>(owned: &'t OwnedTable<'i>) -> Record<'i, 't> {
    owned.table().outermost().next().unwrap()
}

fn texts<'i, 't>(records: impl Iterator<Item = Record<'i, 't>>) -> Vec<&'i str> {
    records.map(|record| record.text()).collect()
}

#[test]
fn a_stage_has_one_outermost_record() {
    let owned = read();
    assert_eq!(texts(owned.table().outermost()), [STAGE]);
    assert_eq!(outermost(&owned).parent(), None);
    assert_eq!(outermost(&owned).after(), owned.table().len());
}

#[test]
fn a_run_has_any_number() {
    let owned = read_run_vec("<a/>\u{e9}{b}<></>".as_bytes()).unwrap();
    assert_eq!(
        texts(owned.table().outermost()),
        ["<a/>", "\u{e9}", "{b}", "<></>"]
    );
}

fn depths(owned: &OwnedTable<'_>) -> Vec<usize> {
    owned.table().records().map(|r| r.depth()).collect()
}

#[test]
fn depth_is_the_number_of_ancestors() {
    let owned = read();
    for record in owned.table() {
        let ancestors = std::iter::successors(record.parent(), Record::parent);
        assert_eq!(record.depth(), ancestors.count(), "{record:?}");
    }
    assert_eq!(depths(&read_run_vec(b"x<a/>").unwrap()), [0, 0, 1, 2]);
    let parentheses = read_stage_vec(b"<a>{((<b/>))}</a>").unwrap();
    assert_eq!(depths(&parentheses), [0, 1, 2, 1, 2, 3, 4, 5, 1, 2]);
}

#[test]
fn the_greatest_depth_is_193() {
    let input = "<a b=".repeat(63) + "<a b:c/>" + &"/>".repeat(63);
    let owned = read_stage_vec(input.as_bytes()).unwrap();
    assert_eq!(depths(&owned).into_iter().max(), Some(193));
}

#[test]
fn children_are_tags_and_content() {
    let owned = read();
    let element = outermost(&owned);
    let kinds: Vec<Kind> = element.children().map(|child| child.kind()).collect();
    let content = [
        Kind::Text,
        Kind::SpreadChild,
        Kind::Container,
        Kind::Container,
        Kind::Element,
    ];
    assert_eq!(kinds[0], Kind::OpeningTag);
    assert_eq!(kinds[1..6], content);
    assert_eq!(kinds[6..], [Kind::ClosingTag]);
    assert_eq!(
        texts(element.content()),
        ["hi", "{...q}", "{<></>}", "{ }", "<a.b c=<d/>/>"]
    );
    assert!(element
        .children()
        .all(|child| child.parent() == Some(element)));
}

#[test]
fn tags_of_elements_and_fragments() {
    let owned = read();
    let element = outermost(&owned);
    assert!(element.is_paired());
    assert_eq!(
        element.opening().map(|tag| tag.text()),
        Some("<this x:y-z b='1' {...p}>")
    );
    assert_eq!(element.closing().map(|tag| tag.text()), Some("</this>"));
    let fragment = element
        .descendants()
        .find(|record| record.kind() == Kind::Fragment)
        .unwrap();
    assert_eq!(fragment.opening().map(|tag| tag.text()), Some("<>"));
    assert_eq!(fragment.closing().map(|tag| tag.text()), Some("</>"));
    let lone = element.content().last().unwrap();
    assert!(!lone.is_paired());
    assert_eq!(lone.closing(), None);
}

#[test]
fn attributes_are_those_of_the_opening_tag() {
    let owned = read();
    let element = outermost(&owned);
    let expected = ["x:y-z", "b='1'", "{...p}"];
    assert_eq!(texts(element.attributes()), expected);
    assert_eq!(texts(element.opening().unwrap().attributes()), expected);
    assert_eq!(element.closing().unwrap().attributes().count(), 0);
    assert_eq!(element.content().next().unwrap().attributes().count(), 0);
}

#[test]
fn attributes_by_name_and_their_values() {
    let owned = read();
    let element = outermost(&owned);
    let value = |name: &str| {
        element
            .attribute(name)
            .and_then(|attribute| attribute.value())
    };
    assert_eq!(value("b").and_then(|value| value.unquoted()), Some("1"));
    assert_eq!(
        element.attribute("x:y-z").map(|attribute| attribute.text()),
        Some("x:y-z")
    );
    assert_eq!(value("x:y-z"), None);
    assert_eq!(element.attribute("c"), None);
    let nested = element
        .content()
        .last()
        .unwrap()
        .attribute("c")
        .unwrap()
        .value()
        .unwrap();
    assert_eq!(
        (nested.kind(), nested.text(), nested.unquoted()),
        (Kind::Element, "<d/>", None)
    );
}

#[test]
fn names_and_their_parts() {
    let owned = read();
    let element = outermost(&owned);
    assert_eq!(element.name().map(|name| name.kind()), Some(Kind::This));
    assert_eq!(texts(element.name_parts()), ["this"]);
    assert_eq!(texts(element.closing().unwrap().name_parts()), ["this"]);
    let member = element.content().last().unwrap();
    assert_eq!(member.name().map(|name| name.kind()), Some(Kind::Member));
    assert_eq!(texts(member.name_parts()), ["a", "b"]);
    assert!(member.is_named("a.b") && !member.is_named("a:b") && !member.is_named("a"));
    let namespaced = element.attributes().next().unwrap();
    assert_eq!(texts(namespaced.name_parts()), ["x", "y-z"]);
    assert!(namespaced.is_named("x:y-z") && !namespaced.is_named("x.y-z"));
    assert_eq!(
        namespaced
            .name_parts()
            .map(|part| part.extra())
            .collect::<Vec<_>>(),
        [0, 1]
    );
    let spread = element.attributes().last().unwrap();
    assert!(spread.name().is_none() && spread.name_parts().count() == 0 && !spread.is_named(""));
}

#[test]
fn names_beyond_ascii_are_looked_up_by_their_bytes() {
    let owned = read_stage_vec("<한.λ \u{E9}='1' α:β-b/>".as_bytes()).unwrap();
    let element = outermost(&owned);
    assert_eq!(texts(element.name_parts()), ["한", "λ"]);
    assert!(element.is_named("한.λ") && !element.is_named("한:λ") && !element.is_named("한"));
    let value = element.attribute("\u{E9}").and_then(|found| found.value());
    assert_eq!(value.and_then(|value| value.unquoted()), Some("1"));
    assert_eq!(element.attribute("e\u{301}"), None);
    let namespaced = element.attribute("α:β-b").unwrap();
    assert_eq!(texts(namespaced.name_parts()), ["α", "β-b"]);
}

#[test]
fn a_backslash_is_a_byte_of_the_string() {
    let owned = read_stage_vec(b"<a b=\"\\\"/>").unwrap();
    let value = outermost(&owned).attribute("b").unwrap().value().unwrap();
    assert_eq!(
        (value.start(), value.end(), value.unquoted()),
        (5, 8, Some("\\"))
    );
}

#[test]
fn records_go_both_ways() {
    let owned = read();
    let forwards: Vec<usize> = owned
        .table()
        .records()
        .map(|record| record.number())
        .collect();
    let mut backwards: Vec<usize> = owned
        .table()
        .into_iter()
        .rev()
        .map(|record| record.number())
        .collect();
    backwards.reverse();
    assert_eq!(forwards, (0..owned.table().len()).collect::<Vec<_>>());
    assert_eq!(forwards, backwards);
    assert_eq!(owned.table().records().len(), owned.table().len());
}

#[test]
fn parts_outlive_the_table() {
    let input = b"<v>hi</v>".to_vec();
    let text = {
        let owned = read_stage_vec(&input).unwrap();
        let found = owned
            .table()
            .records()
            .find(|record| record.kind() == Kind::Text);
        found.map(|record| record.text())
    };
    assert_eq!(text, Some("hi"));
}

#[test]
fn records_of_two_tables_differ() {
    let (one, other) = (read(), read());
    assert_eq!(one.table().record(1), one.table().record(1));
    assert_ne!(one.table().record(1), one.table().record(2));
    assert_ne!(one.table().record(1), other.table().record(1));
}

#[test]
fn debug_shows_a_record() {
    let owned = read_run_vec(b"hi").unwrap();
    let expected =
        "Record { number: 0, kind: Text, span: 0..2, parent: None, after: 1, extra: 0, depth: 0 }";
    assert_eq!(format!("{:?}", owned.table().record(0).unwrap()), expected);
    assert_eq!(format!("{owned:?}"), format!("[{expected}]"));
}

#[test]
fn several_threads_look_at_one_table() {
    let owned = read();
    let table = owned.table();
    let count = |kind: Kind| {
        table
            .records()
            .filter(move |record| record.kind() == kind)
            .count()
    };
    std::thread::scope(|scope| {
        let elements = scope.spawn(|| count(Kind::Element));
        let attributes = scope.spawn(|| count(Kind::Attribute));
        assert_eq!(
            (elements.join().unwrap(), attributes.join().unwrap()),
            (3, 3)
        );
    });
}
