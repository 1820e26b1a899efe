//! Files of cases: one case a line, `reading class hex answer` with single spaces between.

use crate::forms::case_form;
use crate::{read, Limits, Reading};
use std::fmt::Write;

pub struct Case {
    pub reading: Reading,
    pub class: String,
    pub input: Vec<u8>,
    pub answer: String,
}

impl Case {
    /// The case with this oracle's answer.
    pub fn answered(reading: Reading, class: &str, input: Vec<u8>) -> Case {
        let answer = case_form(&read(&input, reading, Limits::default()));
        Case {
            reading,
            class: class.to_string(),
            input,
            answer,
        }
    }

    pub fn line(&self) -> String {
        let reading = match self.reading {
            Reading::Stage => "S",
            Reading::Run => "R",
        };
        let hex = to_hex(&self.input);
        format!("{reading} {} {hex} {}", self.class, self.answer)
    }

    pub fn of_line(line: &str) -> Option<Case> {
        let fields: Vec<&str> = line.split(' ').collect();
        let [reading, class, hex, answer] = fields[..] else {
            return None;
        };
        Some(Case {
            reading: reading_of(reading)?,
            class: class.to_string(),
            input: from_hex(hex)?,
            answer: answer.to_string(),
        })
    }
}

/// What a file of cases gave: the differences in words, and how many cases there were.
pub struct Held {
    pub differences: Vec<String>,
    pub cases: usize,
}

/// Holds this oracle's answers against the cases of a file. A line that isn't a case counts as a difference.
pub fn hold(file: &str) -> Held {
    let mut held = Held {
        differences: Vec::new(),
        cases: 0,
    };
    for (number, line) in file.lines().enumerate() {
        held.cases += 1;
        if let Some(difference) = difference(line) {
            held.differences
                .push(format!("line {}: {difference}", number + 1));
        }
    }
    held
}

fn difference(line: &str) -> Option<String> {
    let Some(case) = Case::of_line(line) else {
        return Some("not a case".to_string());
    };
    let answer = case_form(&read(&case.input, case.reading, Limits::default()));
    (answer != case.answer).then(|| {
        format!(
            "{:?} {} {:?}\n  there {}\n  here  {answer}",
            case.reading,
            case.class,
            String::from_utf8_lossy(&case.input),
            case.answer
        )
    })
}

fn reading_of(letter: &str) -> Option<Reading> {
    match letter {
        "S" => Some(Reading::Stage),
        "R" => Some(Reading::Run),
        _ => None,
    }
}

/// `-` for the empty input.
fn to_hex(input: &[u8]) -> String {
    if input.is_empty() {
        return "-".to_string();
    }
    let mut hex = String::with_capacity(2 * input.len());
    for byte in input {
        let _ = write!(hex, "{byte:02x}");
    }
    hex
}

fn from_hex(hex: &str) -> Option<Vec<u8>> {
    if hex == "-" {
        return Some(Vec::new());
    }
    if !hex.is_ascii() || !hex.len().is_multiple_of(2) {
        return None;
    }
    (0..hex.len())
        .step_by(2)
        .map(|at| u8::from_str_radix(&hex[at..at + 2], 16).ok())
        .collect()
}
