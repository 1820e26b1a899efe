//! The language of document 01, with requests 5, 3, 1 and 7 of document 02, read a second time, from the documents
//! alone.
//!
//! "D:" in the comments quotes document 01, "D2:" document 02; A1 to A28 are the readings of the first's open points,
//! 5.1 to 5.9, 3.1 to 3.14, 1.1 to 1.16 and 7.1 to 7.17 those of the requests'. Request 2 changes no answer.
//! The reader is plain recursive descent. It builds a tree of nodes; `table` numbers the tree
//! into records. Nothing here is fast and nothing is shared with the code that is held against it.

mod blanks;
mod blocks;
mod borders;
mod bytes;
mod characters;
mod cursor;
mod deep;
mod expression;
mod markup;
mod names;
mod random;
mod scripts;
mod table;
mod writer;

pub mod batch;
pub mod cases;
pub mod corpus;
pub mod forms;
pub mod named;

pub use table::{kind, Record, NO_PARENT, ROW_WORDS};

/// D: "The two readings".
#[derive(Clone, Copy, Debug, PartialEq, Eq)]
pub enum Reading {
    /// D: "blanks, one element or fragment, blanks, end of input".
    Stage,
    /// D: "zero or more children up to the end of input".
    Run,
}

/// The limits that a call is made with.
#[derive(Clone, Copy, Debug, PartialEq, Eq)]
pub struct Limits {
    pub bytes: usize,
    pub depth: usize,
}

impl Default for Limits {
    /// D: "Input is at most 1,048,576 bytes"; "64 is good, 65 is refusal 14".
    fn default() -> Limits {
        Limits {
            bytes: 1_048_576,
            depth: 64,
        }
    }
}

/// D: "Each answer is a number and two places (start, end)". `Accepted` is number 0.
#[derive(Clone, Debug, PartialEq, Eq)]
pub enum Answer {
    Accepted(Vec<Record>),
    Refused { number: u32, places: [usize; 4] },
}

/// What every reader hands up when it refuses.
/// D: "when one part refuses, that refusal is the whole answer".
#[derive(Clone, Copy, Debug, PartialEq, Eq)]
pub(crate) struct Refusal {
    pub number: u32,
    pub places: [usize; 4],
}

impl Refusal {
    /// D: "A single offset p means p, p. An unused place is 0, 0."
    pub fn at(number: u32, offset: usize) -> Refusal {
        Refusal::over(number, (offset, offset))
    }

    pub fn over(number: u32, place: (usize, usize)) -> Refusal {
        Refusal::two(number, place, (0, 0))
    }

    pub fn two(number: u32, first: (usize, usize), second: (usize, usize)) -> Refusal {
        Refusal {
            number,
            places: [first.0, first.1, second.0, second.1],
        }
    }
}

/// The answer of document 01 where no table is too small.
/// D: "Tests run in this order: 1; 2; the reading, left to right, first trouble wins; 15."
pub fn read(input: &[u8], reading: Reading, limits: Limits) -> Answer {
    match nodes(input, reading, limits) {
        Ok(nodes) => Answer::Accepted(table::records(&nodes)),
        Err(Refusal { number, places }) => Answer::Refused { number, places },
    }
}

/// The answer where the table holds `capacity` records.
/// D: "15 | accepted, but more records than the table holds | needed count, 0"; A4: start is
/// the needed count, end is 0, the second place is unused.
pub fn read_into(input: &[u8], reading: Reading, limits: Limits, capacity: usize) -> Answer {
    match read(input, reading, limits) {
        Answer::Accepted(records) if records.len() > capacity => Answer::Refused {
            number: 15,
            places: [records.len(), 0, 0, 0],
        },
        answer => answer,
    }
}

/// D2: "A table of w words now holds w/7 records"; 5.4: rounded down.
pub fn capacity_of(words: usize) -> usize {
    words / ROW_WORDS
}

fn nodes(input: &[u8], reading: Reading, limits: Limits) -> Result<Vec<table::Node>, Refusal> {
    not_too_long(input, limits)?;
    well_formed(input)?;
    let mut cursor = cursor::Cursor::new(input, limits.depth);
    match reading {
        Reading::Stage => cursor.stage(),
        Reading::Run => cursor.run(),
    }
}

/// D: "1 | too long | 0, 0".
fn not_too_long(input: &[u8], limits: Limits) -> Result<(), Refusal> {
    if input.len() > limits.bytes {
        return Err(Refusal::at(1, 0));
    }
    Ok(())
}

/// D: "2 | not UTF-8 | offset where no good sequence begins".
fn well_formed(input: &[u8]) -> Result<(), Refusal> {
    match bytes::where_no_good_sequence_begins(input) {
        Some(offset) => Err(Refusal::at(2, offset)),
        None => Ok(()),
    }
}
