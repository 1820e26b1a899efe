//! Answers in writing: the program's form, and the form of a file of cases.

use crate::{Answer, Record, NO_PARENT, ROW_WORDS};

/// D: "`ok 6`" and a row a record; "A refusal prints as `no 7 1 2 5 6`". A25: each line ends with LF.
/// D2: "printed lines end with the new number".
pub fn program_form(answer: &Answer) -> String {
    match answer {
        Answer::Accepted(records) => rows(records),
        Answer::Refused { number, places } => {
            let [a, b, c, d] = places;
            format!("no {number} {a} {b} {c} {d}\n")
        }
    }
}

fn rows(records: &[Record]) -> String {
    let mut lines = format!("ok {}\n", records.len());
    for (number, record) in records.iter().enumerate() {
        lines += &format!("{number} {}\n", words(record, " "));
    }
    lines
}

/// `number:a,b:c,d:count:records`.
pub fn case_form(answer: &Answer) -> String {
    match answer {
        Answer::Accepted(records) => {
            let records_in_form: Vec<String> = records.iter().map(|r| words(r, ",")).collect();
            let joined = records_in_form.join("|");
            format!("0:0,0:0,0:{}:{joined}", records.len())
        }
        Answer::Refused { number, places } => {
            let [a, b, c, d] = places;
            format!("{number}:{a},{b}:{c},{d}:0:")
        }
    }
}

fn words(record: &Record, between: &str) -> String {
    let parent = match record.parent {
        NO_PARENT => "-".to_string(),
        number => number.to_string(),
    };
    let words: [String; ROW_WORDS] = [
        record.kind.to_string(),
        record.start.to_string(),
        record.end.to_string(),
        parent,
        record.after.to_string(),
        record.extra.to_string(),
        record.depth.to_string(),
    ];
    words.join(between)
}
