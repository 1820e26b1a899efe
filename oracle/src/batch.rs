//! Many stages and runs from one standard input; and the program of document 01.

use crate::forms::program_form;
use crate::{read_into, Answer, Limits, Reading};
use std::io::{self, Read, Write};

/// Records that a batch's table holds.
pub const BATCH_RECORDS: usize = 131_072;
/// D: "up to 65,536 bytes (more: refusal 1), has 2,048 records".
pub const STAGE_BYTES: usize = 65_536;
pub const STAGE_RECORDS: usize = 2_048;

/// What is met where an item may begin.
enum Item {
    Whole(Reading, Vec<u8>),
    TooLong,
    Bad,
    NoMore,
}

/// Answers item after item. An item is one byte `s` or `r`, the length in 4 bytes, low byte first,
/// and the bytes. Items are counted from 0 in `bad item K`.
pub fn batch(mut input: impl Read, mut output: impl Write) -> io::Result<()> {
    for number in 0usize.. {
        match next_item(&mut input)? {
            Item::Whole(reading, bytes) => write!(output, "{}", batch_answer(reading, &bytes))?,
            Item::TooLong => write!(output, "{}", program_form(&too_long()))?,
            Item::Bad => {
                writeln!(output, "bad item {number}")?;
                break;
            }
            Item::NoMore => break,
        }
    }
    output.flush()
}

/// An item of a batch.
pub fn item(reading: Reading, bytes: &[u8]) -> Vec<u8> {
    let letter = match reading {
        Reading::Stage => b's',
        Reading::Run => b'r',
    };
    let length = u32::try_from(bytes.len()).expect("an item's length is a u32");
    [&[letter][..], &length.to_le_bytes(), bytes].concat()
}

/// Holds another program's answers to a batch against these: how many items agree before the first that does not, and what
/// that one is.
pub fn against(mut input: impl Read, answers: &[u8]) -> io::Result<Against> {
    let mut rest = answers;
    for agree in 0usize.. {
        let (shown, answer) = match next_item(&mut input)? {
            Item::Whole(reading, bytes) => (item(reading, &bytes), batch_answer(reading, &bytes)),
            Item::TooLong => (Vec::new(), program_form(&too_long())),
            Item::Bad => (Vec::new(), format!("bad item {agree}\n")),
            Item::NoMore => {
                return Ok(Against {
                    agree,
                    first: end(rest),
                })
            }
        };
        match rest.strip_prefix(answer.as_bytes()) {
            Some(more) => rest = more,
            None => {
                let other = rest[..rest.len().min(answer.len() + 40)].to_vec();
                let first = Some(Difference {
                    item: shown,
                    answer,
                    other,
                });
                return Ok(Against { agree, first });
            }
        }
    }
    unreachable!("a batch ends")
}

/// How far two programs' answers agree.
pub struct Against {
    pub agree: usize,
    pub first: Option<Difference>,
}

/// An item, the answer to it here, and what the other program wrote from there on.
pub struct Difference {
    pub item: Vec<u8>,
    pub answer: String,
    pub other: Vec<u8>,
}

/// Behind the last item nothing is written.
fn end(rest: &[u8]) -> Option<Difference> {
    (!rest.is_empty()).then(|| Difference {
        item: Vec::new(),
        answer: String::new(),
        other: rest[..rest.len().min(80)].to_vec(),
    })
}

/// The program of document 01: one stage.
pub fn stage(input: &[u8]) -> String {
    let limits = Limits {
        bytes: STAGE_BYTES,
        ..Limits::default()
    };
    program_form(&read_into(input, Reading::Stage, limits, STAGE_RECORDS))
}

fn batch_answer(reading: Reading, bytes: &[u8]) -> String {
    program_form(&read_into(bytes, reading, Limits::default(), BATCH_RECORDS))
}

fn too_long() -> Answer {
    Answer::Refused {
        number: 1,
        places: [0; 4],
    }
}

fn next_item(input: &mut impl Read) -> io::Result<Item> {
    let letter = up_to(input, 1)?;
    let reading = match letter[..] {
        [] => return Ok(Item::NoMore),
        [b's'] => Reading::Stage,
        [b'r'] => Reading::Run,
        _ => return Ok(Item::Bad),
    };
    match length_of_item(input)? {
        Some(length) => item_of_length(input, reading, length),
        None => Ok(Item::Bad),
    }
}

fn length_of_item(input: &mut impl Read) -> io::Result<Option<u64>> {
    let bytes = up_to(input, 4)?;
    let whole: Option<[u8; 4]> = bytes.try_into().ok();
    Ok(whole.map(|bytes| u64::from(u32::from_le_bytes(bytes))))
}

/// The bytes of the item; those of one that is too long are passed over, not kept.
fn item_of_length(input: &mut impl Read, reading: Reading, length: u64) -> io::Result<Item> {
    if length > Limits::default().bytes as u64 {
        let passed = io::copy(&mut input.take(length), &mut io::sink())?;
        return Ok(if passed == length {
            Item::TooLong
        } else {
            Item::Bad
        });
    }
    let bytes = up_to(input, length)?;
    if bytes.len() as u64 != length {
        return Ok(Item::Bad);
    }
    Ok(Item::Whole(reading, bytes))
}

/// The next `length` bytes, or as many as there are.
fn up_to(input: &mut impl Read, length: u64) -> io::Result<Vec<u8>> {
    let mut bytes = Vec::new();
    input.take(length).read_to_end(&mut bytes)?;
    Ok(bytes)
}
