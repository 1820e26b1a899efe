//! A JSX reader that is proved to meet its contract, called through a safe wrapper.
//!
//! The reader is an archive for x86-64 Linux; every function in it is proved, in the repository that this crate
//! stands in. Two readings: a **stage** is blanks, one element or fragment, blanks and the end of input; a
//! **run** is zero or more children up to the end of input. Each has a check, which counts the records, and a
//! read, which also writes them into words that the caller lends. Any bytes get an answer, and a refusal is the
//! whole answer: there is no half-read tree. "Document 01" in these pages is the paper that defines the
//! language.
//!
//! **Blanks** are comments and ECMA-262's white space and line terminators, U+00A0, U+FEFF, U+2028 and U+2029 among
//! them. A byte order mark in front of a stage is one of them: it is not taken off, and offsets count its bytes. In
//! a run it is text.
//!
//! **Names** of elements and attributes may be in any script: a part begins with a character of Unicode's ID_Start, `$`
//! or `_`, then come those of ID_Continue, `$`, U+200C, U+200D and `-`; of version 17.0. Two names are equal if their
//! bytes are: none is normalised. Names in braces are ASCII.
//!
//! ```
//! use lorikvar::{read_stage, Kind, Refusal, ROW_WORDS};
//!
//! let mut words = [0; 100 * ROW_WORDS];
//! let table = read_stage(b"<view eye='left'>hi</view>", &mut words)?;
//! let view = table.outermost().next().unwrap();
//! assert_eq!(view.kind(), Kind::Element);
//! assert!(view.is_named("view"));
//! assert_eq!(view.attribute("eye").unwrap().value().unwrap().unquoted(), Some("left"));
//! assert_eq!(view.content().next().unwrap().text(), "hi");
//!
//! let table = read_stage("<무대>안녕</무대>".as_bytes(), &mut words)?;
//! assert!(table.outermost().next().unwrap().is_named("무대"));
//!
//! let refusal = read_stage(b"<left></right>", &mut words).unwrap_err();
//! assert_eq!(refusal.number(), 7);
//! # Ok::<(), Refusal>(())
//! ```
//!
//! # Answers
//!
//! An answer is a `Result`: a count or a [`Table`] where the input is accepted, else a [`Refusal`], which has
//! each of the 18 refusals by name, with its places. `Result` is that enum already: it must be looked at, `?`
//! hands a refusal up, and nothing of a table can be reached through a refusal.
//!
//! # Memory and threads
//!
//! Reading allocates nothing, but for [`read_stage_vec`] and [`read_run_vec`], which allocate once. An input of
//! n bytes has at most n records. The calls have no state: several threads may read at once. Depth is at most
//! [`MOST_DEPTH`], so the stack is bounded, below 128 KiB.

#![deny(missing_docs)]
#![deny(unsafe_op_in_unsafe_fn)]

mod ffi;
mod iter;
mod kind;
mod read;
mod record;
mod refusal;
mod shape;
mod span;
mod table;

pub use iter::{Children, Records};
pub use kind::Kind;
pub use read::{
    check_run, check_stage, read_run, read_run_vec, read_stage, read_stage_vec, record_bytes,
    span_bytes,
};
pub use record::Record;
pub use refusal::Refusal;
pub use span::Span;
pub use table::{OwnedTable, Table};

/// The most bytes of an input.
pub const MOST_BYTES: usize = 1_048_576;

/// The most levels of depth.
pub const MOST_DEPTH: usize = 64;

/// The words of a record: kind, start, end, parent, after, extra, depth.
pub const ROW_WORDS: usize = 7;

/// The word for the parent of a record that stands in none.
pub const NO_PARENT: u32 = u32::MAX;

/// The README's example is a test too.
#[cfg(doctest)]
#[doc = include_str!("../README.md")]
struct Readme;
