//! Prints the records of a stage from standard input as a tree, or why it is refused.
//!
//! ```sh
//! printf '<v>hi</v>' | cargo run --example tree
//! ```

use lorikvar::{read_stage_vec, Record};
use std::io::Read;
use std::process::ExitCode;

fn print(record: Record<'_, '_>) {
    let indent = 2 * record.depth();
    println!("{:indent$}{} {:?}", "", record.kind(), record.text());
}

fn main() -> ExitCode {
    let mut input = Vec::new();
    if let Err(error) = std::io::stdin().read_to_end(&mut input) {
        eprintln!("standard input: {error}");
        return ExitCode::FAILURE;
    }
    match read_stage_vec(&input) {
        Ok(owned) => owned.table().records().for_each(print),
        Err(refusal) => {
            eprintln!("{refusal}");
            return ExitCode::FAILURE;
        }
    }
    ExitCode::SUCCESS
}
