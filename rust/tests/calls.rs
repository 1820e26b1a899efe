//! Every call of the library: inputs of document 01, each refusal, tables of any length, parts in range and out
//! of it.

use lorikvar::{
    check_run, check_stage, read_run, read_run_vec, read_stage, read_stage_vec, record_bytes,
    span_bytes, Refusal, Span, MOST_BYTES, MOST_DEPTH, NO_PARENT, ROW_WORDS,
};

/// A word that no read writes.
const MARK: u32 = 0xC0FF_EE00;

fn span(start: usize, end: usize) -> Span {
    Span { start, end }
}

/// The check and the read refuse alike, and the read leaves its words as they were.
fn refused_as_stage(input: &[u8], refusal: Refusal) {
    let mut words = vec![MARK; 100 * ROW_WORDS];
    assert_eq!(check_stage(input), Err(refusal));
    assert_eq!(read_stage(input, &mut words).err(), Some(refusal));
    assert_eq!(read_stage_vec(input).err(), Some(refusal));
    assert!(words.iter().all(|word| *word == MARK));
}

fn refused_as_run(input: &[u8], refusal: Refusal) {
    let mut words = vec![MARK; 100 * ROW_WORDS];
    assert_eq!(check_run(input), Err(refusal));
    assert_eq!(read_run(input, &mut words).err(), Some(refusal));
    assert_eq!(read_run_vec(input).err(), Some(refusal));
    assert!(words.iter().all(|word| *word == MARK));
}

#[test]
fn document_01_s_table_is_read_whole() {
    let mut words = [MARK; 6 * ROW_WORDS + 4];
    let table = read_stage(b"<v>hi</v>", &mut words).unwrap();
    let rows: Vec<&[u32]> = table.words().chunks(ROW_WORDS).collect();
    let expected: [[u32; ROW_WORDS]; 6] = [
        [1, 0, 9, NO_PARENT, 6, 1, 0],
        [18, 0, 3, 0, 3, 0, 1],
        [3, 1, 2, 1, 3, 0, 2],
        [14, 3, 5, 0, 4, 0, 1],
        [17, 5, 9, 0, 6, 0, 1],
        [3, 7, 8, 4, 6, 0, 2],
    ];
    assert_eq!(rows, expected);
    assert_eq!(words[6 * ROW_WORDS..], [MARK; 4]);
}

#[test]
fn starred_inputs_are_counted() {
    for (input, count) in [
        ("<a/>", 3),
        ("<v>hi</v>", 6),
        ("<a-b.c/>", 5),
        ("<a>{}</a>", 7),
    ] {
        assert_eq!(check_stage(input.as_bytes()), Ok(count), "{input}");
        assert_eq!(
            read_stage_vec(input.as_bytes()).unwrap().table().len(),
            count,
            "{input}"
        );
    }
}

#[test]
fn starred_inputs_are_refused() {
    refused_as_stage(
        b"<v></w>",
        Refusal::NamesDiffer {
            opening: span(1, 2),
            closing: span(5, 6),
        },
    );
    refused_as_stage(
        b"<></a>",
        Refusal::FragmentClosedByName {
            opening: span(0, 2),
            closing: span(4, 5),
        },
    );
    refused_as_stage(
        b"<a></>",
        Refusal::ElementClosedByFragment {
            opening: span(1, 2),
            closing: span(3, 6),
        },
    );
    refused_as_stage(b"<f.b-/>", Refusal::DashAfterDot { part: span(3, 5) });
    refused_as_stage(b"<a b={}/>", Refusal::EmptyValue { braces: span(5, 7) });
    refused_as_stage(b"<a/><b/>", Refusal::Adjacent { less: span(4, 5) });
    refused_as_stage(b"<a/> x", Refusal::AfterStage { at: 5 });
    refused_as_stage(b"<a>}</a>", Refusal::StrayInText { at: 3 });
}

#[test]
fn other_refusals() {
    refused_as_stage(b"", Refusal::EndOfInput { at: 0 });
    refused_as_stage(b"<a>x", Refusal::EndOfInput { at: 4 });
    refused_as_stage(
        b"<x>{a, b}</x>",
        Refusal::CommaInBraces { comma: span(5, 6) },
    );
    refused_as_stage(b"<a>\xE2\x28</a>", Refusal::NotUtf8 { at: 3 });
    refused_as_stage(b"x", unexpected(0, 0));
    refused_as_run(b"a</b>", unexpected(1, 1));
    refused_as_run(b"hi>", Refusal::StrayInText { at: 2 });
    refused_as_run(b"{a", Refusal::EndOfInput { at: 2 });
}

fn unexpected(start: usize, end: usize) -> Refusal {
    Refusal::Unexpected {
        place: span(start, end),
    }
}

/// Request 3 of document 02: a quoted attribute string, a comment, a string in braces.
#[test]
fn what_is_never_closed_is_told_apart() {
    refused_as_stage(b"<a b='x/>", Refusal::QuotedNeverClosed { at: 5 });
    refused_as_stage(b"<a b='x\n", Refusal::QuotedNeverClosed { at: 5 });
    refused_as_stage(b"<a>{<b c=\"x", Refusal::QuotedNeverClosed { at: 9 });
    refused_as_stage(b"<a /*", Refusal::CommentNeverClosed { at: 3 });
    refused_as_stage(b"<a>{/*'", Refusal::CommentNeverClosed { at: 4 });
    refused_as_run(b"</*", Refusal::CommentNeverClosed { at: 1 });
    refused_as_stage(b"<a>{\"b", Refusal::StringNeverClosed { at: 4 });
    refused_as_stage(b"<a>{'/*", Refusal::StringNeverClosed { at: 4 });
    refused_as_run(b"{\"x", Refusal::StringNeverClosed { at: 1 });
}

/// Request 3 of document 02: the piece of a broken string; a backslash alone is at its own place.
#[test]
fn a_broken_string_shows_its_piece() {
    refused_as_stage(b"<a>{\"b\n\"}</a>", unexpected(4, 6));
    refused_as_stage(b"<a>{\"b\r\n\"}</a>", unexpected(4, 6));
    refused_as_run(b"{'\n", unexpected(1, 2));
    refused_as_stage(b"<a>{\"b\\\n", unexpected(6, 6));
}

fn rows_of_stage(input: &str) -> Vec<Vec<u32>> {
    let words = read_stage_vec(input.as_bytes()).unwrap().into_words();
    words.chunks(ROW_WORDS).map(<[u32]>::to_vec).collect()
}

/// Request 1 of document 02: a blank is passed, and counts its bytes.
#[test]
fn blanks_of_ecma_262_are_passed() {
    assert_eq!(
        rows_of_stage("<a\u{A0}b/>"),
        [
            [1, 0, 7, NO_PARENT, 5, 0, 0],
            [18, 0, 7, 0, 5, 0, 1],
            [3, 1, 2, 1, 3, 0, 2],
            [8, 4, 5, 1, 5, 0, 2],
            [16, 4, 5, 3, 5, 0, 3],
        ]
    );
    assert_eq!(
        rows_of_stage("\u{FEFF}<a/>"),
        [
            [1, 3, 7, NO_PARENT, 3, 0, 0],
            [18, 3, 7, 0, 3, 0, 1],
            [3, 4, 5, 1, 3, 0, 2],
        ]
    );
    assert_eq!(rows_of_stage("<a//x\u{2028}b/>")[3], [8, 8, 9, 1, 5, 0, 2]);
    assert_eq!(check_stage("<a/>//\u{2029}".as_bytes()), Ok(3));
    refused_as_stage("\u{FEFF}".as_bytes(), Refusal::EndOfInput { at: 3 });
    let less = span(9, 10);
    refused_as_stage("<a/>//\u{2028}<b/>".as_bytes(), Refusal::Adjacent { less });
}

/// ECMA-262's white space and line terminators: Unicode's White_Space but for two characters.
fn is_blank(character: char) -> bool {
    character == '\u{FEFF}' || (character.is_whitespace() && character != '\u{85}')
}

#[test]
fn all_25_blanks_and_no_other_character() {
    let blank = |character: &char| check_stage(format!("<a/{character}>").as_bytes()) == Ok(3);
    let found: Vec<char> = ('\0'..=char::MAX)
        .filter(|character| *character != '>')
        .filter(blank)
        .collect();
    let expected: Vec<char> = ('\0'..=char::MAX).filter(|c| is_blank(*c)).collect();
    assert_eq!(found, expected);
    assert_eq!(found.len(), 25);
}

/// Request 1 of document 02: what only looks like a blank is refused at its first byte.
#[test]
fn near_misses_are_no_blanks() {
    for near in ['\u{85}', '\u{180E}', '\u{200B}', '\u{2060}'] {
        refused_as_stage(format!("<a{near}/>").as_bytes(), unexpected(2, 2));
        refused_as_stage(
            format!("<a/>{near}").as_bytes(),
            Refusal::AfterStage { at: 4 },
        );
    }
}

/// In child position nothing is a blank.
#[test]
fn blanks_in_texts_are_text() {
    let owned = read_run_vec("\u{FEFF}\u{2028}".as_bytes()).unwrap();
    let texts: Vec<&str> = owned.table().outermost().map(|text| text.text()).collect();
    assert_eq!(texts, ["\u{FEFF}\u{2028}"]);
    refused_as_run("<\u{A0}/a>".as_bytes(), unexpected(0, 0));
}

/// Request 7 of document 02: names in the author's script, in every place of a name.
#[test]
fn names_in_any_script_are_read() {
    assert_eq!(
        rows_of_stage("<한 λ:글-b é='1'>hi</한>"),
        [
            [1, 0, 29, NO_PARENT, 13, 1, 0],
            [18, 0, 21, 0, 10, 0, 1],
            [4, 1, 4, 1, 3, 0, 2],
            [8, 5, 13, 1, 7, 0, 2],
            [6, 5, 13, 3, 7, 0, 3],
            [16, 5, 7, 4, 6, 0, 4],
            [16, 8, 13, 4, 7, 1, 4],
            [8, 14, 20, 1, 10, 0, 2],
            [16, 14, 16, 7, 9, 0, 3],
            [10, 17, 20, 7, 10, 0, 3],
            [14, 21, 23, 0, 11, 0, 1],
            [17, 23, 29, 0, 13, 0, 1],
            [4, 25, 28, 11, 13, 0, 2],
        ]
    );
    assert_eq!(
        rows_of_stage("<é-a.λ.한/>"),
        [
            [1, 0, 14, NO_PARENT, 6, 0, 0],
            [18, 0, 14, 0, 6, 0, 1],
            [7, 1, 12, 1, 6, 0, 2],
            [4, 1, 5, 2, 4, 1, 3],
            [16, 6, 8, 2, 5, 0, 3],
            [16, 9, 12, 2, 6, 0, 3],
        ]
    );
    assert_eq!(check_run("{<é λ={b}/>}".as_bytes()), Ok(9));
}

/// A first character beyond ASCII makes a name of one part with no dash a reference.
#[test]
fn kinds_of_names_beyond_ascii() {
    for (name, kind, extra) in [
        ("한", 4, 0),
        ("λ-", 3, 1),
        ("aλ", 3, 0),
        ("Aλ", 4, 0),
        ("_λ", 4, 0),
        ("λ-A", 3, 1),
        ("this\u{200D}", 3, 0),
        ("a\u{301}\u{200C}\u{200D}", 3, 0),
        ("\u{33479}", 4, 0),
    ] {
        let end = 1 + name.len() as u32;
        let row = [kind, 1, end, 1, 3, extra, 2];
        assert_eq!(rows_of_stage(&format!("<{name}/>"))[2], row, "{name}");
    }
}

/// Which characters a list of the folder `unicode` has, by their numbers.
fn listed(ranges: &str) -> Vec<bool> {
    let number = |digits| usize::from_str_radix(digits, 16).unwrap();
    let mut has = vec![false; char::MAX as usize + 1];
    for (low, high) in ranges.lines().filter_map(|line| line.split_once(' ')) {
        has[number(low)..=number(high)].fill(true);
    }
    has
}

/// What is none of a name's is refused at its first byte; a blank is passed, and then `blank` is the answer.
fn answer_of_no_name(character: char, input: &str, at: usize, blank: Result<usize, Refusal>) {
    let answer = check_stage(input.as_bytes());
    if is_blank(character) {
        assert_eq!(answer, blank, "{character:?}");
    } else if character.is_ascii() {
        assert!(answer.is_err(), "{character:?}");
    } else {
        assert_eq!(answer, Err(unexpected(at, at)), "{character:?}");
    }
}

#[test]
fn every_character_as_the_first_of_a_name() {
    let start = listed(include_str!("../../unicode/id_start.txt"));
    for character in '\0'..=char::MAX {
        let input = format!("<{character}/>");
        if matches!(character, '$' | '_') || start[character as usize] {
            assert_eq!(check_stage(input.as_bytes()), Ok(3), "{character:?}");
        } else {
            let slash = 1 + character.len_utf8();
            answer_of_no_name(character, &input, 1, Err(unexpected(slash, slash)));
        }
    }
}

/// In a closing tag no attribute can begin, so a character is the name's or is refused.
#[test]
fn every_character_as_a_later_one_of_a_name() {
    let later = listed(include_str!("../../unicode/id_continue.txt"));
    for character in '\0'..=char::MAX {
        let input = format!("<a{character}></a{character}>");
        let own = matches!(character, '$' | '-' | '\u{200C}' | '\u{200D}');
        if own || later[character as usize] {
            assert_eq!(check_stage(input.as_bytes()), Ok(5), "{character:?}");
        } else {
            answer_of_no_name(character, &input, 2, Ok(5));
        }
    }
}

/// Request 7 of document 02: 3 at the first byte, wherever a name may stand; names of expressions stay ASCII.
#[test]
fn what_begins_no_name() {
    refused_as_stage("<a \u{301}/>".as_bytes(), unexpected(3, 3));
    refused_as_stage("<a.\u{301}/>".as_bytes(), unexpected(3, 3));
    refused_as_stage("<a:\u{200D}/>".as_bytes(), unexpected(3, 3));
    refused_as_stage("<a></×>".as_bytes(), unexpected(5, 5));
    refused_as_stage("<a b='c'\u{301}/>".as_bytes(), unexpected(8, 8));
    refused_as_stage("<é\\u0061/>".as_bytes(), unexpected(3, 3));
    refused_as_stage("<a>{é}</a>".as_bytes(), unexpected(4, 4));
    refused_as_stage("<a>{aé}</a>".as_bytes(), unexpected(5, 5));
    refused_as_stage("<a>{a.é}</a>".as_bytes(), unexpected(6, 6));
    refused_as_stage("<a>{1é}</a>".as_bytes(), unexpected(5, 5));
    refused_as_run("{ifé}".as_bytes(), unexpected(1, 1));
}

/// Request 7 of document 02: composed or not, in either case, with U+200D or without it.
#[test]
fn closing_names_are_compared_byte_for_byte() {
    for (one, other) in [
        ("\u{E9}", "e\u{301}"),
        ("\u{212B}", "\u{C5}"),
        ("\u{F900}", "\u{8C48}"),
        ("\u{D55C}", "\u{1112}\u{1161}\u{11AB}"),
        ("\u{C9}", "\u{E9}"),
        ("a", "a\u{200D}"),
    ] {
        for (open, close) in [(one, other), (other, one)] {
            let end = 1 + open.len();
            let refusal = Refusal::NamesDiffer {
                opening: span(1, end),
                closing: span(end + 3, end + 3 + close.len()),
            };
            refused_as_stage(format!("<{open}></{close}>").as_bytes(), refusal);
            let same = format!("<{open}></{open}>");
            assert_eq!(check_stage(same.as_bytes()), Ok(5), "{open}");
        }
    }
}

#[test]
fn other_refusals_at_names_beyond_ascii() {
    refused_as_stage(
        "<></é>".as_bytes(),
        Refusal::FragmentClosedByName {
            opening: span(0, 2),
            closing: span(4, 6),
        },
    );
    refused_as_stage(
        "<é></>".as_bytes(),
        Refusal::ElementClosedByFragment {
            opening: span(1, 3),
            closing: span(4, 7),
        },
    );
    let part = span(3, 6);
    refused_as_stage("<a.é-/>".as_bytes(), Refusal::DashAfterDot { part });
    refused_as_stage("<é".as_bytes(), Refusal::EndOfInput { at: 3 });
    refused_as_stage(b"<\xED\x95", Refusal::NotUtf8 { at: 1 });
    let deep = "<a>".repeat(MOST_DEPTH);
    let less = deep.len();
    refused_as_stage(
        format!("{deep}<é").as_bytes(),
        Refusal::TooDeep { at: less },
    );
    refused_as_stage(
        format!("{deep}<\u{301}").as_bytes(),
        unexpected(less + 1, less + 1),
    );
}

#[test]
fn limits_of_length_and_depth() {
    let mut long = vec![b' '; MOST_BYTES + 1];
    long[..4].copy_from_slice(b"<a/>");
    assert_eq!(check_stage(&long[..MOST_BYTES]), Ok(3));
    refused_as_stage(&long, Refusal::TooLong);
    refused_as_run(&long, Refusal::TooLong);
    let deep = |levels: usize| "<a>".repeat(levels) + &"</a>".repeat(levels);
    assert_eq!(check_stage(deep(MOST_DEPTH).as_bytes()), Ok(5 * MOST_DEPTH));
    refused_as_stage(
        deep(MOST_DEPTH + 1).as_bytes(),
        Refusal::TooDeep { at: 3 * MOST_DEPTH },
    );
    refused_as_run(
        deep(MOST_DEPTH + 1).as_bytes(),
        Refusal::TooDeep { at: 3 * MOST_DEPTH },
    );
}

#[test]
fn tables_of_any_length() {
    const ROOM: usize = 4 * ROW_WORDS;
    for length in 0..ROOM {
        let mut words = [MARK; ROOM];
        let stage = read_stage(b"<a/>", &mut words[..length]).map(|table| table.len());
        let run = read_run(b"<a/>", &mut [MARK; ROOM][..length]).map(|table| table.len());
        let fits = 3 <= length / ROW_WORDS;
        let expected = if fits {
            Ok(3)
        } else {
            Err(Refusal::TableTooSmall { needed: 3 })
        };
        assert_eq!((stage, run), (expected, expected), "{length} words");
        let written = if fits { 3 * ROW_WORDS } else { 0 };
        assert!(
            words[written..].iter().all(|word| *word == MARK),
            "{length} words"
        );
    }
}

#[test]
fn the_empty_run_has_no_record() {
    assert_eq!(check_run(b""), Ok(0));
    let table = read_run(b"", &mut []).unwrap();
    assert!(table.is_empty());
    assert_eq!(table.outermost().count(), 0);
    assert_eq!(read_run_vec(b"").unwrap().into_words(), []);
}

#[test]
fn spans_in_range_and_out_of_it() {
    let input = b"<v>hi</v>";
    for start in 0..=input.len() + 1 {
        for end in 0..=input.len() + 1 {
            assert_eq!(
                span_bytes(input, start, end),
                input.get(start..end),
                "{start}, {end}"
            );
        }
    }
    assert_eq!(span_bytes(input, usize::MAX, usize::MAX), None);
    assert_eq!(span_bytes(b"", 0, 0), Some(&b""[..]));
}

#[test]
fn records_in_range_and_out_of_it() {
    let input = b"<v>hi</v>";
    let words = read_stage_vec(input).unwrap().into_words();
    assert_eq!(record_bytes(input, &words, 6, 0), Some(&input[..]));
    assert_eq!(record_bytes(input, &words, 6, 5), Some(&b"v"[..]));
    assert_eq!(record_bytes(input, &words, 6, 6), None);
    assert_eq!(record_bytes(input, &words, 5, 5), None);
    assert_eq!(record_bytes(input, &words[..words.len() - 1], 6, 5), None);
    assert_eq!(record_bytes(&input[..7], &words, 6, 5), None);
    assert_eq!(
        record_bytes(input, &words, usize::MAX, usize::MAX - 1),
        None
    );
    assert_eq!(record_bytes(b"", &[], 0, 0), None);
}

#[test]
fn parts_are_the_input_itself() {
    let input = b"<v>hi</v>".to_vec();
    let words = read_stage_vec(&input).unwrap().into_words();
    let part = record_bytes(&input, &words, 6, 3).unwrap();
    assert_eq!(part.as_ptr(), input[3..].as_ptr());
}

#[test]
fn several_threads_read_at_once() {
    let read = |input: &'static str| {
        std::thread::spawn(move || (0..200).map(|_| check_stage(input.as_bytes())).collect())
    };
    let threads: Vec<std::thread::JoinHandle<Vec<_>>> =
        vec![read("<v>hi</v>"), read("<a b={c}/>"), read("<v>")];
    let answers: Vec<Vec<_>> = threads
        .into_iter()
        .map(|thread| thread.join().unwrap())
        .collect();
    assert_eq!(answers[0], vec![Ok(6); 200]);
    assert_eq!(answers[1], vec![Ok(7); 200]);
    assert_eq!(answers[2], vec![Err(Refusal::EndOfInput { at: 3 }); 200]);
}
