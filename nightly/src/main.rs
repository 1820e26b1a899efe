//! Night runs as a program: see README.md.

use nightly::answer::{next_answer, Answer};
use nightly::domain::compared;
use nightly::item::items_of;
use nightly::night::Night;
use nightly::options::Options;
use nightly::stages::Stages;
use nightly::state::State;
use nightly::summary::{merged, summary};
use nightly::tally::{KNOWN, NEW};
use std::fs;
use std::path::Path;
use std::process::ExitCode;
use std::time::Instant;

const USES: &str = "uses: nightly run [--stages DIR] [--port COMMAND] [--oracle NAME[=COMMAND]].. [--parser NAME[=COMMAND]]..
                  [--known FILE] [--seed S] [--count N] [--shard K/N] [--block N] [--each N] [--patience SECONDS] [--out DIR] [--state FILE]
      nightly summary STATE..
      nightly domain ITEMS ANSWERS";

fn main() -> ExitCode {
    let words: Vec<String> = std::env::args().skip(1).collect();
    let (command, rest) = words
        .split_first()
        .map_or(("", &[][..]), |(first, rest)| (first.as_str(), rest));
    let done = match command {
        "run" => run(rest),
        "summary" => show_summary(rest),
        "domain" => show_domain(rest),
        _ => Err(USES.to_string()),
    };
    match done {
        Ok(false) => ExitCode::SUCCESS,
        Ok(true) => ExitCode::from(1),
        Err(words) => {
            eprintln!("nightly: {words}");
            ExitCode::from(2)
        }
    }
}

/// Runs a shard to its end. Whether there are new differences, from before a stop too.
fn run(words: &[String]) -> Result<bool, String> {
    let options = Options::of(words).map_err(|trouble| format!("{trouble}\n{USES}"))?;
    let stages = Stages::of_folder(&options.stages)
        .map_err(|error| format!("{}: {error}", options.stages.display()))?;
    let mut night = Night::begun(&options, &stages)?;
    let share = options.shard.share(options.count);
    let begun = (Instant::now(), night.state.done);
    while night.state.done < share {
        night.block(share.min(night.state.done + options.block))?;
        show_progress(&night.state, share, begun);
    }
    night.save()?;
    show(std::slice::from_ref(&night.state))
}

fn show_progress(state: &State, share: u64, (since, done_before): (Instant, u64)) {
    let seconds = since.elapsed().as_secs_f64().max(0.001);
    let rate = (state.done - done_before) as f64 / seconds;
    eprintln!(
        "shard {}: {} of {share} items, {rate:.0} a second, {} new differences, {} known",
        state.setup.shard.words(),
        state.done,
        state.tally.total(NEW),
        state.tally.total(KNOWN),
    );
}

/// One table for the states of several shards.
fn show_summary(files: &[String]) -> Result<bool, String> {
    let states: Result<Vec<State>, String> = files
        .iter()
        .map(|file| State::of_file(Path::new(file)))
        .collect();
    show(&states?)
}

fn show(states: &[State]) -> Result<bool, String> {
    print!("{}", summary(states)?);
    Ok(merged(states)?.total(NEW) > 0)
}

/// For each item of a batch, 1 where document 01's domain holds the port's answer, else 0.
fn show_domain(words: &[String]) -> Result<bool, String> {
    let [items, answers] = words else {
        return Err(USES.to_string());
    };
    let read = |file: &String| fs::read(file).map_err(|error| format!("{file}: {error}"));
    let items = items_of(&read(items)?).map_err(|number| format!("bad item {number}"))?;
    let answers = read(answers)?;
    let mut answers = &answers[..];
    let mut lines = String::new();
    for item in items {
        let text = next_answer(&mut answers).map_err(|error| error.to_string())?;
        let answer = Answer::parsed(&text.unwrap_or_default())?;
        lines += if compared(&item, &answer) {
            "1\n"
        } else {
            "0\n"
        };
    }
    print!("{lines}");
    Ok(false)
}
