//! Prints, for each element of a stage from standard input that has the attribute, its name and the attribute's
//! value.
//!
//! ```sh
//! printf '<s><view eye="left"/><view eye={right}/></s>' | cargo run --example attribute -- eye
//! ```

use lorikvar::{read_stage_vec, Kind, Record};
use std::error::Error;
use std::io::Read;

/// The value as it is written: a string without its quotes, anything else whole, nothing where none is given.
fn value_of<'i>(attribute: Record<'i, '_>) -> &'i str {
    match attribute.value() {
        Some(value) => value.unquoted().unwrap_or_else(|| value.text()),
        None => "",
    }
}

fn main() -> Result<(), Box<dyn Error>> {
    let wanted = std::env::args().nth(1).ok_or("which attribute?")?;
    let mut input = Vec::new();
    std::io::stdin().read_to_end(&mut input)?;
    let owned = read_stage_vec(&input).map_err(|refusal| refusal.to_string())?;
    for element in owned
        .table()
        .records()
        .filter(|record| record.kind() == Kind::Element)
    {
        if let (Some(name), Some(attribute)) = (element.name(), element.attribute(&wanted)) {
            println!("{}: {}", name.text(), value_of(attribute));
        }
    }
    Ok(())
}
