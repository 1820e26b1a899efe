//! The line protocol: what the port and every plug-in write for an item. See README.md.

use std::io::{self, BufRead};

/// The parent of an outermost record.
pub const NO_PARENT: u32 = u32::MAX;
/// The words of a row.
pub const WORDS: [&str; 7] = ["kind", "start", "end", "parent", "after", "extra", "depth"];

/// A word of a row, as far as it is told.
#[derive(Clone, Copy, PartialEq, Eq, Debug)]
pub enum Word {
    Is(u32),
    /// A kind 3, 4, 5 or 16; which of them is not told.
    NamePart,
    Untold,
}

impl Word {
    pub fn agrees(self, other: Word) -> bool {
        match (self, other) {
            (Word::Untold, _) | (_, Word::Untold) => true,
            (Word::NamePart, Word::Is(kind)) | (Word::Is(kind), Word::NamePart) => {
                matches!(kind, 3 | 4 | 5 | 16)
            }
            (one, other) => one == other,
        }
    }
}

pub type Row = [Word; WORDS.len()];

#[derive(Clone, PartialEq, Eq, Debug)]
pub enum Refusal {
    /// The number and the two places.
    Told(u32, [u32; 4]),
    /// In the words of a parser that knows no numbers.
    InWords(String),
}

#[derive(Clone, PartialEq, Eq, Debug)]
pub enum Answer {
    /// Accepted, with its rows if they are told.
    Ok(Option<Vec<Row>>),
    No(Refusal),
    /// The plug-in cannot be given these bytes.
    Skip,
}

impl Answer {
    /// The number of the port's answer; 0 is accepted.
    pub fn number(&self) -> Option<u32> {
        match self {
            Answer::Ok(_) => Some(0),
            Answer::No(Refusal::Told(number, _)) => Some(*number),
            _ => None,
        }
    }

    pub fn parsed(text: &[u8]) -> Result<Answer, String> {
        let text = std::str::from_utf8(text).map_err(|_| "an answer is not UTF-8".to_string())?;
        let mut lines = text.split_terminator('\n');
        let first = lines.next().unwrap_or_default();
        let answer = match first.split_once(' ').unwrap_or((first, "")) {
            ("ok", "?") => Some(Answer::Ok(None)),
            ("ok", _) => lines.map(row).collect::<Option<_>>().map(rows),
            ("no", words) => refusal(words).map(Answer::No),
            ("skip", _) => Some(Answer::Skip),
            _ => None,
        };
        answer.ok_or_else(|| format!("no answer: {}", text.escape_debug()))
    }
}

fn rows(rows: Vec<Row>) -> Answer {
    Answer::Ok(Some(rows))
}

/// A row is numbered; the number was counted when the answer was read.
fn row(line: &str) -> Option<Row> {
    let words: Vec<Word> = line.split(' ').skip(1).map(word).collect::<Option<_>>()?;
    words.try_into().ok()
}

fn word(word: &str) -> Option<Word> {
    match word {
        "?" => Some(Word::Untold),
        "name" => Some(Word::NamePart),
        "-" => Some(Word::Is(NO_PARENT)),
        number => number.parse().ok().map(Word::Is),
    }
}

fn refusal(words: &str) -> Option<Refusal> {
    if let Some(said) = words.strip_prefix('?') {
        return Some(Refusal::InWords(said.trim_start().to_string()));
    }
    let numbers: Vec<u32> = words
        .split(' ')
        .map(|word| word.parse().ok())
        .collect::<Option<_>>()?;
    let [number, places @ ..]: [u32; 5] = numbers.try_into().ok()?;
    Some(Refusal::Told(number, places))
}

/// The next answer as it is written, with all its lines; nothing where the output ends.
pub fn next_answer(output: &mut impl BufRead) -> io::Result<Option<Vec<u8>>> {
    let mut text = Vec::new();
    output.read_until(b'\n', &mut text)?;
    if text.is_empty() {
        return Ok(None);
    }
    for _ in 0..rows_behind(&text) {
        if output.read_until(b'\n', &mut text)? == 0 {
            break;
        }
    }
    match text.ends_with(b"\n") {
        true => Ok(Some(text)),
        false => Ok(None),
    }
}

/// `ok N` has N rows behind it, each on its line.
fn rows_behind(line: &[u8]) -> usize {
    let line = std::str::from_utf8(line).unwrap_or_default();
    let count = line.trim_end().strip_prefix("ok ");
    count.and_then(|count| count.parse().ok()).unwrap_or(0)
}

#[cfg(test)]
mod tests {
    use super::*;

    #[test]
    fn whole_answers() {
        let text = b"ok 2\n0 1 0 4 - 2 0 0\n1 18 0 4 0 2 0 1\n";
        let rows = vec![
            [1, 0, 4, NO_PARENT, 2, 0, 0].map(Word::Is),
            [18, 0, 4, 0, 2, 0, 1].map(Word::Is),
        ];
        assert_eq!(Answer::parsed(text), Ok(Answer::Ok(Some(rows))));
        let refused = Refusal::Told(7, [1, 2, 5, 6]);
        assert_eq!(Answer::parsed(b"no 7 1 2 5 6\n"), Ok(Answer::No(refused)));
        assert_eq!(Answer::parsed(b"ok 0\n"), Ok(Answer::Ok(Some(vec![]))));
    }

    #[test]
    fn answers_that_tell_less() {
        assert_eq!(Answer::parsed(b"ok ?\n"), Ok(Answer::Ok(None)));
        let said = Refusal::InWords("Unexpected token".to_string());
        assert_eq!(
            Answer::parsed(b"no ? Unexpected token\n"),
            Ok(Answer::No(said))
        );
        assert_eq!(Answer::parsed(b"skip not UTF-8\n"), Ok(Answer::Skip));
        let Ok(Answer::Ok(Some(rows))) = Answer::parsed(b"ok 1\n0 name 1 2 - ? ? 0\n") else {
            panic!("rows with words that are not told");
        };
        assert_eq!(rows[0][0], Word::NamePart);
        assert_eq!(rows[0][4..], [Word::Untold, Word::Untold, Word::Is(0)]);
    }

    #[test]
    fn what_is_no_answer() {
        let texts = [
            "",
            "bad item 0\n",
            "no 7 1 2\n",
            "ok 1\n0 1 2\n",
            "ok 1\n0 14 0 1 - 1 0\n",
            "no x\n",
        ];
        for text in texts {
            assert!(Answer::parsed(text.as_bytes()).is_err(), "{text}");
        }
    }

    #[test]
    fn words_agree() {
        assert!(Word::Is(3).agrees(Word::NamePart) && Word::NamePart.agrees(Word::Is(16)));
        assert!(!Word::Is(14).agrees(Word::NamePart));
        assert!(Word::Is(1).agrees(Word::Untold));
        assert!(!Word::Is(1).agrees(Word::Is(2)));
    }

    #[test]
    fn answers_one_by_one() {
        let mut output = &b"ok 1\n0 14 0 1 - 1 0 0\nno 4 0 0 0 0\nok 2\n0"[..];
        let first = next_answer(&mut output).unwrap().unwrap();
        assert_eq!(first, b"ok 1\n0 14 0 1 - 1 0 0\n");
        let second = next_answer(&mut output).unwrap().unwrap();
        assert_eq!(second, b"no 4 0 0 0 0\n");
        assert_eq!(next_answer(&mut output).unwrap(), None);
    }
}
