//! The batch, the program of document 01, and files of cases.

use oracle::{batch, cases};

fn item(letter: u8, bytes: &[u8]) -> Vec<u8> {
    let length = (bytes.len() as u32).to_le_bytes();
    [&[letter], &length[..], bytes].concat()
}

fn answers(input: &[u8]) -> String {
    let mut output = Vec::new();
    batch::batch(input, &mut output).expect("writing to memory");
    String::from_utf8(output).expect("ASCII")
}

#[test]
fn a_batch_answers_item_after_item() {
    let input = [
        item(b's', b"<v></w>"),
        item(b'r', b"hi"),
        item(b'r', b""),
        item(b's', b""),
    ];
    let expected = "no 7 1 2 5 6\nok 1\n0 14 0 2 - 1 0 0\nok 0\nno 4 0 0 0 0\n";
    assert_eq!(answers(&input.concat()), expected);
    assert_eq!(answers(b""), "");
}

#[test]
fn a_bad_item_ends_the_batch() {
    let good = item(b's', b"");
    let line = "no 4 0 0 0 0\n";
    for bad in [
        &b"x"[..],
        b"S\0\0\0\0",
        b"s",
        b"s\x01\0\0",
        b"s\x02\0\0\0<",
        b"r\xFF\xFF\xFF\xFF<",
    ] {
        assert_eq!(answers(bad), "bad item 0\n");
        let input = [&good[..], bad].concat();
        assert_eq!(answers(&input), format!("{line}bad item 1\n"));
    }
    let after = [&b"x"[..], &good].concat();
    assert_eq!(answers(&after), "bad item 0\n");
}

#[test]
fn an_item_that_is_too_long_is_refused_and_passed_over() {
    let long = vec![b'<'; 1_048_577];
    let input = [item(b'r', &long), item(b'r', &long[1..]), item(b'r', b"")].concat();
    assert_eq!(answers(&input), "no 1 0 0 0 0\nno 3 1 1 0 0\nok 0\n");
}

#[test]
fn a_batch_holds_131072_records() {
    let first_line = |input: &str| {
        let lines = answers(&item(b'r', input.as_bytes()));
        lines.lines().next().unwrap_or("").to_string()
    };
    // Two records for each `{}`, one for a text.
    let braces = "{}".repeat(65_536);
    assert_eq!(first_line(&braces), "ok 131072");
    assert_eq!(first_line(&format!("x{braces}")), "no 15 131073 0 0 0");
}

#[test]
fn the_program_prints_with_its_limits() {
    assert_eq!(
        batch::stage(b"<a/>"),
        "ok 3\n0 1 0 4 - 3 0 0\n1 18 0 4 0 3 0 1\n2 3 1 2 1 3 0 2\n"
    );
    assert_eq!(batch::stage(b"<v></w>"), "no 7 1 2 5 6\n");
    assert_eq!(batch::stage(b""), "no 4 0 0 0 0\n");
    let padded = |length: usize| format!("<a/>{}", " ".repeat(length - 4)).into_bytes();
    assert!(batch::stage(&padded(65_536)).starts_with("ok 3\n"));
    assert_eq!(batch::stage(&padded(65_537)), "no 1 0 0 0 0\n");
}

#[test]
fn the_program_has_2048_records() {
    // A fragment's own three records, two for each `{}`, one for a text.
    let filled = |braces: usize, text: &str| format!("<>{}{text}</>", "{}".repeat(braces));
    assert!(batch::stage(filled(1_022, "x").as_bytes()).starts_with("ok 2048\n"));
    assert_eq!(
        batch::stage(filled(1_023, "").as_bytes()),
        "no 15 2049 0 0 0\n"
    );
}

#[test]
fn cases_are_held_against_the_answers() {
    let good = "S named 3c763e3c2f773e 7:1,2:5,6:0:\nR named - 0:0,0:0,0:0:\n\
                R named 78 0:0,0:0,0:1:14,0,1,-,1,0,0\n";
    let held = cases::hold(good);
    assert_eq!((held.cases, held.differences.len()), (3, 0));
    let wrong = "S named 3c763e3c2f773e 7:1,2:5,7:0:\nS named - 0:0,0:0,0:0:\nS named 3 4:0,0:0,0:0:\nhello\n\
                 R named 78 0:0,0:0,0:1:14,0,1,-,1,0,1\nR named 78 0:0,0:0,0:1:14,0,1,-,1,0\n";
    let held = cases::hold(wrong);
    assert_eq!((held.cases, held.differences.len()), (6, 6));
    assert!(held.differences[0].starts_with("line 1: Stage named \"<v></w>\""));
}

#[test]
fn another_programs_answers_are_held_against_these() {
    let items = [item(b's', b"<a/>"), item(b'r', b"x"), item(b's', b"<")].concat();
    let whole = answers(&items);
    let held = oracle::batch::against(&items[..], whole.as_bytes()).unwrap();
    assert!(held.agree == 3 && held.first.is_none());
    let other = whole.replace("no 4 1 1 0 0", "no 4 0 0 0 0");
    assert_ne!(whole, other);
    let held = oracle::batch::against(&items[..], other.as_bytes()).unwrap();
    assert!(held.agree == 2 && held.first.is_some());
    let longer = whole + "ok 0\n";
    let held = oracle::batch::against(&items[..], longer.as_bytes()).unwrap();
    assert!(held.agree == 3 && held.first.is_some());
}

#[test]
fn random_items_are_the_same_for_the_same_seed() {
    let some: Vec<_> = (0..200).map(oracle::corpus::random).collect();
    assert_eq!(
        some,
        (0..200).map(oracle::corpus::random).collect::<Vec<_>>()
    );
    let accepted = some
        .iter()
        .filter(|(reading, bytes)| {
            matches!(
                oracle::read(bytes, *reading, oracle::Limits::default()),
                oracle::Answer::Accepted(_)
            )
        })
        .count();
    assert!(
        20 < accepted && accepted < 180,
        "{accepted} of 200 are accepted"
    );
}

/// Each of 5, 17, 18, and a 3 that shows a piece ended by LF or by CR, at least once in 200 items.
#[test]
fn random_items_leave_things_open_and_break_strings() {
    let items = 10_000;
    let mut met = std::collections::BTreeMap::new();
    for (reading, bytes) in (0..items).map(oracle::corpus::random) {
        let answer = oracle::read(&bytes, reading, oracle::Limits::default());
        let oracle::Answer::Refused { number, places } = answer else {
            continue;
        };
        let [start, end, ..] = places;
        match number {
            5 | 17 | 18 => *met.entry((number, None)).or_insert(0) += 1,
            3 if start < end => *met.entry((number, Some(bytes[end]))).or_insert(0) += 1,
            _ => {}
        }
    }
    let kinds: Vec<_> = met.keys().copied().collect();
    let (lf, cr) = (Some(b'\n'), Some(b'\r'));
    assert_eq!(kinds, [(3, lf), (3, cr), (5, None), (17, None), (18, None)]);
    assert!(met.values().all(|&count| count * 200 > items), "{met:?}");
}

/// Each blank character beyond ASCII is read as one, and each of the two line terminators among them ends a `//`
/// comment, at least once in 400 items: another character of its length in its place would give another answer.
#[test]
fn random_items_meet_the_blanks_beyond_ascii() {
    let items: Vec<_> = (0..10_000).map(oracle::corpus::random).collect();
    let differ = |old: char, new: char| {
        let differs = |(reading, bytes): &&(oracle::Reading, Vec<u8>)| {
            let Ok(text) = std::str::from_utf8(bytes) else {
                return false;
            };
            let limits = oracle::Limits::default();
            let other = text.replace(old, &new.to_string());
            let answer = |text: &str| oracle::read(text.as_bytes(), *reading, limits);
            text.contains(old) && answer(text) != answer(&other)
        };
        items.iter().filter(differs).count()
    };
    let others = "\u{1680}\u{2028}\u{2029}\u{202F}\u{205F}\u{3000}\u{FEFF}";
    let of_three_bytes = ('\u{2000}'..='\u{200A}').chain(others.chars());
    let mut met: Vec<_> = of_three_bytes.map(|c| (c, differ(c, '\u{200B}'))).collect();
    met.push(('\u{A0}', differ('\u{A0}', '\u{85}')));
    assert_eq!(met.len(), 19);
    met.extend(['\u{2028}', '\u{2029}'].map(|c| (c, differ(c, '\u{2003}'))));
    assert!(
        met.iter().all(|&(_, count)| count * 400 > items.len()),
        "{met:?}"
    );
}

/// Request 2: a text, a quoted string, an expression and a broken string of more than 24 bytes, and a bad byte behind
/// as many of ASCII, each in at least one of 500 items.
#[test]
fn random_items_have_long_plain_stretches() {
    use oracle::{kind, Answer, Limits};
    let items = 10_000;
    let mut met = std::collections::BTreeMap::new();
    for (reading, bytes) in (0..items).map(oracle::corpus::random) {
        let mut long = Vec::new();
        match oracle::read(&bytes, reading, Limits::default()) {
            Answer::Accepted(records) => {
                let records = records
                    .iter()
                    .filter(|record| record.end - record.start > 24);
                long.extend(records.map(|record| ("kind", record.kind)));
            }
            Answer::Refused { number, places } => {
                let good = bytes[..places[0]].iter().rev();
                let ascii = good.take_while(|byte| byte.is_ascii()).count();
                let broken = number == 3 && places[0] + 24 < places[1];
                if broken || number == 2 && ascii > 24 {
                    long.push(("refusal", number));
                }
            }
        }
        long.sort();
        long.dedup();
        long.into_iter()
            .for_each(|what| *met.entry(what).or_insert(0) += 1);
    }
    let kinds = [kind::TEXT, kind::QUOTED_STRING, kind::EXPRESSION].map(|kind| ("kind", kind));
    let refusals = [2, 3].map(|number| ("refusal", number));
    for what in kinds.into_iter().chain(refusals) {
        let count = met.get(&what).copied().unwrap_or(0);
        assert!(count * 500 > items, "{what:?}: {count} of {items}");
    }
}

/// Request 7: one item in four is made with names of any script. Of these some are accepted with a name beyond ASCII,
/// some are refused at a character beyond ASCII, and some by another closing name.
#[test]
fn random_items_have_names_beyond_ascii() {
    use oracle::{kind, Answer, Limits};
    let items = 10_000;
    let mut met = [0; 3];
    for (reading, bytes) in (0..items).map(oracle::corpus::random) {
        let beyond = |place: usize| bytes.get(place).is_some_and(|byte| !byte.is_ascii());
        match oracle::read(&bytes, reading, Limits::default()) {
            Answer::Accepted(records) => {
                let names = [kind::REFERENCE, kind::IDENTIFIER, kind::OTHER_PART];
                let named = |r: &oracle::Record| {
                    let part = &bytes[r.start as usize..r.end as usize];
                    names.contains(&r.kind) && !part.is_ascii()
                };
                met[0] += usize::from(records.iter().any(named));
            }
            Answer::Refused { number: 3, places } => met[1] += usize::from(beyond(places[0])),
            Answer::Refused { number: 7, places } => {
                let differ = !bytes[places[2]..places[3]].is_ascii();
                met[2] += usize::from(differ);
            }
            _ => {}
        }
    }
    assert!(met[0] * 25 > items as usize, "{met:?}");
    assert!(
        met[1] * 20 > items as usize && met[2] * 400 > items as usize,
        "{met:?}"
    );
}
