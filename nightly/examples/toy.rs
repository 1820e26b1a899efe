//! Answers items by a rule of its own, for the tests: a `!` is refused by 3 where it stands, all else is one text.
//!
//!     toy [COUNT] < ITEMS      after COUNT items it ends

use std::io::{self, Read, Write};

fn main() -> io::Result<()> {
    let count = std::env::args().nth(1).and_then(|word| word.parse().ok());
    let (mut input, mut output) = (io::stdin().lock(), io::stdout().lock());
    for _ in 0..count.unwrap_or(u64::MAX) {
        let mut head = [0; 5];
        if input.read_exact(&mut head).is_err() {
            break;
        }
        let [_, length @ ..] = head;
        let mut bytes = vec![0; u32::from_le_bytes(length) as usize];
        input.read_exact(&mut bytes)?;
        output.write_all(answer(&bytes).as_bytes())?;
        output.flush()?;
    }
    Ok(())
}

fn answer(bytes: &[u8]) -> String {
    match bytes.iter().position(|byte| *byte == b'!') {
        Some(at) => format!("no 3 {at} {at} 0 0\n"),
        None => format!("ok 1\n0 14 0 {} - 1 0 0\n", bytes.len()),
    }
}
