//! A plug-in that is wrong on purpose: it hands on what a command answers, but gives the first record of an accepted item
//! that holds `{...` another `depth`. A night run must find that and shrink it to a few bytes.
//!
//!     wrong COMMAND < ITEMS

use nightly::item::{items_of, Item};
use nightly::program::{Life, Program};
use std::io::{self, Read, Write};

fn main() -> Result<(), String> {
    let command: Vec<String> = std::env::args().skip(1).collect();
    let mut batch = Vec::new();
    let read = io::stdin().lock().read_to_end(&mut batch);
    read.map_err(|error| error.to_string())?;
    let items = items_of(&batch).map_err(|number| format!("bad item {number}"))?;
    let mut program = Program::new("right", &command.join(" "), Life::OneBlock);
    let answers = program.answers(&items)?;
    let mut output = io::BufWriter::new(io::stdout().lock());
    for (item, answer) in items.iter().zip(answers) {
        let answer = String::from_utf8_lossy(&answer).into_owned();
        let written = output.write_all(handed_on(item, &answer).as_bytes());
        written.map_err(|error| error.to_string())?;
    }
    output.flush().map_err(|error| error.to_string())
}

fn handed_on(item: &Item, answer: &str) -> String {
    let mut lines: Vec<String> = answer.lines().map(str::to_string).collect();
    let spread = item.bytes.windows(4).any(|bytes| bytes == b"{...");
    if spread && lines.len() > 1 {
        lines[1].push('9');
    }
    lines.join("\n") + "\n"
}
