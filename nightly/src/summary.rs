//! The table at the end of a run, for the states of one or more shards of it.

use crate::state::State;
use crate::tally::{Tally, ANSWER, COMPARED, DAMAGE, KNOWN, LEFT_OUT, NEW, SKIPPED};

/// What the shards have counted, together. States of other runs, or a shard twice, don't go together.
pub fn merged(states: &[State]) -> Result<Tally, String> {
    let first = &states.first().ok_or("no state file is named")?.setup;
    let mut tally = Tally::default();
    for (at, state) in states.iter().enumerate() {
        let setup = &state.setup;
        let alike = (setup.seed, setup.stages, setup.shard.n, &setup.plugins)
            == (first.seed, first.stages, first.shard.n, &first.plugins);
        if !alike {
            return Err(format!("shard {} is of another run", setup.shard.words()));
        }
        if states[..at]
            .iter()
            .any(|other| other.setup.shard == setup.shard)
        {
            return Err(format!("shard {} is named twice", setup.shard.words()));
        }
        tally.merge(&state.tally);
    }
    Ok(tally)
}

/// The whole table.
pub fn summary(states: &[State]) -> Result<String, String> {
    let tally = merged(states)?;
    let plugins = &states[0].setup.plugins;
    let found = states.iter().flat_map(|state| &state.found);
    let found: String = found
        .map(|line| format!("  {}\n", line.replace('\t', "; ")))
        .collect();
    let parts = [
        head(states, &tally),
        counts("damage", tally.of(DAMAGE)),
        counts(
            "port's answer",
            tally
                .of(ANSWER)
                .map(|(number, count)| (answer_words(number), count)),
        ),
        plugin_table(&tally, plugins),
        classes("known differences", tally.of(KNOWN)),
        classes("NEW differences", tally.of(NEW)),
        found,
    ];
    Ok(parts.concat())
}

fn head(states: &[State], tally: &Tally) -> String {
    let setup = &states[0].setup;
    let shards: Vec<String> = states
        .iter()
        .map(|state| state.setup.shard.words())
        .collect();
    let asked: u64 = states
        .iter()
        .map(|state| state.setup.shard.share(state.count))
        .sum();
    let missing = setup.shard.n - states.len() as u64;
    let missing = match missing {
        0 => String::new(),
        _ => format!(", {missing} shards missing"),
    };
    format!(
        "seed {}, stages {:016x}, shards {}{missing}: {} of {asked} items\n",
        setup.seed,
        setup.stages,
        shards.join(" "),
        tally.total(DAMAGE),
    )
}

fn answer_words(number: &str) -> String {
    match number.trim() {
        "0" => "accepted".to_string(),
        number => format!("refused by {number}"),
    }
}

fn counts(title: &str, rows: impl Iterator<Item = (impl ToString, u64)>) -> String {
    let rows = rows.map(|(word, count)| format!("  {:<16}{count:>12}\n", word.to_string()));
    format!(
        "\n  {title:<16}{:>12}\n{}",
        "items",
        rows.collect::<String>()
    )
}

fn plugin_table(tally: &Tally, plugins: &[String]) -> String {
    let columns = [COMPARED, LEFT_OUT, SKIPPED, KNOWN, NEW];
    let title: String = columns
        .iter()
        .map(|column| format!("{column:>12}"))
        .collect();
    let mut table = format!("\n  {:<16}{title}\n", "plug-in");
    for plugin in plugins {
        let of_plugin = |column: &&str| -> u64 {
            let counts = tally.of(column);
            let own = counts.filter(|(which, _)| which.split('\t').next() == Some(plugin));
            own.map(|(_, count)| count).sum()
        };
        let row: String = columns
            .iter()
            .map(|column| format!("{:>12}", of_plugin(column)))
            .collect();
        table += &format!("  {plugin:<16}{row}\n");
    }
    table
}

fn classes<'a>(title: &str, classes: impl Iterator<Item = (&'a str, u64)>) -> String {
    let rows: String = classes
        .map(|(class, count)| format!("  {count:>12}  {}\n", class.replace('\t', ": ")))
        .collect();
    match rows.is_empty() {
        true => String::new(),
        false => format!("\n  {title}\n{rows}"),
    }
}

#[cfg(test)]
mod tests {
    use super::*;
    use crate::state::{Setup, Shard};

    fn state(k: u64, seed: u64) -> State {
        let setup = Setup {
            seed,
            stages: 5,
            shard: Shard { k, n: 2 },
            plugins: vec!["oracle".to_string()],
        };
        let mut state = State::new(setup, 3);
        state.tally.add(DAMAGE, "none", 1);
        state.tally.add(ANSWER, " 0", 1);
        state.tally.add(COMPARED, "oracle", 1);
        state
            .tally
            .add(NEW, "oracle\tboth accept, it has more rows", 1);
        state
    }

    #[test]
    fn shards_add_up() {
        let table = summary(&[state(0, 1), state(1, 1)]).unwrap();
        assert!(
            table.starts_with("seed 1, stages 0000000000000005, shards 0/2 1/2: 2 of 3 items\n")
        );
        assert!(table.contains(
            "  oracle                     2           0           0           0           2\n"
        ));
        assert!(table.contains("2  oracle: both accept, it has more rows\n"));
    }

    #[test]
    fn a_missing_shard_is_told() {
        let table = summary(&[state(1, 1)]).unwrap();
        assert!(table.contains("shards 1/2, 1 shards missing: 1 of 1 items"));
    }

    #[test]
    fn what_does_not_go_together() {
        assert!(merged(&[]).is_err());
        assert!(merged(&[state(0, 1), state(1, 2)]).is_err());
        assert!(merged(&[state(0, 1), state(0, 1)]).is_err());
    }
}
