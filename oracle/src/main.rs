//! The oracle as a program: see README.md.

use oracle::{batch, cases, corpus, Reading};
use std::io::{self, Read, Write};
use std::process::ExitCode;

const USES: &str =
    "uses: oracle batch | oracle stage | oracle cases FILE | oracle corpus | oracle classes
      oracle items | oracle borders | oracle random SEED COUNT | oracle against ITEMS";

fn main() -> io::Result<ExitCode> {
    let words: Vec<String> = std::env::args().skip(1).collect();
    let words: Vec<&str> = words.iter().map(String::as_str).collect();
    match words[..] {
        ["batch"] => batch::batch(io::stdin().lock(), io::BufWriter::new(io::stdout().lock()))?,
        ["stage"] => stage()?,
        ["cases", file] => return hold(file),
        ["corpus"] => write_corpus()?,
        ["classes"] => write_classes()?,
        ["items"] => write_items(items_of(corpus::stored()))?,
        ["borders"] => write_items(items_of(corpus::borders()))?,
        ["random", seed, count] => return write_random(seed, count),
        ["against", items] => return against(items),
        _ => {
            eprintln!("{USES}");
            return Ok(ExitCode::from(2));
        }
    }
    Ok(ExitCode::SUCCESS)
}

/// One byte more than the limit is enough to know that there are more.
fn stage() -> io::Result<()> {
    let mut input = Vec::new();
    let enough = batch::STAGE_BYTES as u64 + 1;
    io::stdin().lock().take(enough).read_to_end(&mut input)?;
    io::stdout().write_all(batch::stage(&input).as_bytes())
}

fn hold(file: &str) -> io::Result<ExitCode> {
    let held = cases::hold(&std::fs::read_to_string(file)?);
    let mut output = io::BufWriter::new(io::stdout().lock());
    for difference in &held.differences {
        writeln!(output, "{difference}")?;
    }
    let differ = held.differences.len();
    writeln!(output, "{} cases, {differ} differ", held.cases)?;
    output.flush()?;
    Ok(ExitCode::from(u8::from(differ != 0)))
}

fn write_corpus() -> io::Result<()> {
    let mut output = io::BufWriter::new(io::stdout().lock());
    for case in corpus::corpus() {
        writeln!(output, "{}", case.line())?;
    }
    output.flush()
}

/// The count of the corpus by class, then that of the second list, as the rows of the tables in README.md.
fn write_classes() -> io::Result<()> {
    let [first, second] = [corpus::corpus(), corpus::borders()].map(|list| corpus::classes(&list));
    write!(io::stdout(), "{first}\n{second}")
}

fn items_of(cases: Vec<cases::Case>) -> impl Iterator<Item = (Reading, Vec<u8>)> {
    cases.into_iter().map(|case| (case.reading, case.input))
}

fn write_items(items: impl Iterator<Item = (Reading, Vec<u8>)>) -> io::Result<()> {
    let mut output = io::BufWriter::new(io::stdout().lock());
    for (reading, bytes) in items {
        output.write_all(&batch::item(reading, &bytes))?;
    }
    output.flush()
}

/// COUNT items, the same for the same SEED.
fn write_random(seed: &str, count: &str) -> io::Result<ExitCode> {
    let (Ok(seed), Ok(count)) = (seed.parse::<u64>(), count.parse::<u64>()) else {
        eprintln!("{USES}");
        return Ok(ExitCode::from(2));
    };
    let first = seed.wrapping_mul(1 << 32);
    write_items((0..count).map(|number| corpus::random(first.wrapping_add(number))))?;
    Ok(ExitCode::SUCCESS)
}

/// Another program's answers to the items, from standard input, held against the oracle's; exit status 1 on a difference.
fn against(items: &str) -> io::Result<ExitCode> {
    let mut answers = Vec::new();
    io::stdin().lock().read_to_end(&mut answers)?;
    let file = io::BufReader::new(std::fs::File::open(items)?);
    let held = batch::against(file, &answers)?;
    let Some(first) = held.first else {
        println!("{} items, 0 differ", held.agree);
        return Ok(ExitCode::SUCCESS);
    };
    println!(
        "{} items agree; then item {} differs",
        held.agree, held.agree
    );
    println!(
        "item: {}",
        String::from_utf8_lossy(&first.item).escape_debug()
    );
    println!("the oracle: {}", first.answer.escape_debug());
    println!(
        "the other: {}",
        String::from_utf8_lossy(&first.other).escape_debug()
    );
    Ok(ExitCode::FAILURE)
}
