//! oxc_parser 0.156.0 as a plug-in of night runs. Never built where it was written: see README.md.

mod rows;

use oxc_allocator::Allocator;
use oxc_parser::{ParseOptions, Parser};
use oxc_span::SourceType;
use rows::Rows;
use std::io::{self, BufWriter, Read, Write};

fn main() -> io::Result<()> {
    let mut input = io::stdin().lock();
    let mut output = BufWriter::new(io::stdout().lock());
    while let Some((reading, bytes)) = next_item(&mut input)? {
        output.write_all(answer(reading, bytes).as_bytes())?;
    }
    output.flush()
}

/// An item: `s` or `r`, the length in 4 bytes, low byte first, the bytes.
fn next_item(input: &mut impl Read) -> io::Result<Option<(u8, Vec<u8>)>> {
    let mut head = [0; 5];
    if input.read(&mut head[..1])? == 0 {
        return Ok(None);
    }
    input.read_exact(&mut head[1..])?;
    let [reading, length @ ..] = head;
    let mut bytes = vec![0; u32::from_le_bytes(length) as usize];
    input.read_exact(&mut bytes)?;
    Ok(Some((reading, bytes)))
}

/// D: "`parse_expression` with an empty error list, set to module source, JSX on, TypeScript off, parentheses kept".
/// A run is wrapped in `<>` and `</>`.
fn answer(reading: u8, bytes: Vec<u8>) -> String {
    let Ok(text) = String::from_utf8(bytes) else {
        return "skip not UTF-8\n".to_string();
    };
    let source = if reading == b'r' {
        format!("<>{text}</>")
    } else {
        text
    };
    let allocator = Allocator::new();
    let source_type = SourceType::default().with_module(true).with_jsx(true);
    let options = ParseOptions {
        preserve_parens: true,
        ..ParseOptions::default()
    };
    let parsed = Parser::new(&allocator, &source, source_type)
        .with_options(options)
        .parse_expression();
    // It gives an expression only where the list of errors is empty.
    let Ok(expression) = parsed else {
        return "no ? errors\n".to_string();
    };
    let rows = Rows::of(&source, &expression);
    if reading == b'r' {
        rows.unwrapped().text()
    } else {
        rows.text()
    }
}
