//! The tests of the oracle, in one program.

mod blanks;
mod blocks;
mod depths;
mod limits;
mod named;
mod names;
mod never_closed;
mod program;
mod tables;
