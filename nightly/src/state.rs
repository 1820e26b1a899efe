//! The state of a shard's run: what it is a run of, how far it is, and what was counted and found so far.

use crate::tally::Tally;
use std::fs;
use std::io;
use std::path::Path;

const FIRST_LINE: &str = "nightly state 1";

/// Shard k of n takes the items whose number leaves k when divided by n.
#[derive(Clone, Copy, PartialEq, Eq, Debug)]
pub struct Shard {
    pub k: u64,
    pub n: u64,
}

impl Shard {
    pub fn of(words: &str) -> Option<Shard> {
        let (k, n) = words.split_once('/')?;
        let shard = Shard {
            k: k.parse().ok()?,
            n: n.parse().ok()?,
        };
        (shard.k < shard.n).then_some(shard)
    }

    pub fn words(self) -> String {
        format!("{}/{}", self.k, self.n)
    }

    /// How many of the items 0 to `count` - 1 are this shard's.
    pub fn share(self, count: u64) -> u64 {
        count.saturating_sub(self.k).div_ceil(self.n)
    }

    /// The number of this shard's item at a place of its share.
    pub fn number(self, place: u64) -> u64 {
        self.k + place * self.n
    }
}

/// What a run is a run of. A state file of another run is refused.
#[derive(Clone, PartialEq, Eq, Debug)]
pub struct Setup {
    pub seed: u64,
    pub stages: u64,
    pub shard: Shard,
    /// The plug-ins' names, in order.
    pub plugins: Vec<String>,
}

#[derive(Clone, PartialEq, Eq, Debug)]
pub struct State {
    pub setup: Setup,
    /// Items of all shards that were asked for.
    pub count: u64,
    /// Items of this shard that are done.
    pub done: u64,
    pub tally: Tally,
    /// The differences that were shrunk: the lines of differences.txt.
    pub found: Vec<String>,
}

impl State {
    pub fn new(setup: Setup, count: u64) -> State {
        State {
            setup,
            count,
            done: 0,
            tally: Tally::default(),
            found: Vec::new(),
        }
    }

    /// The state of the file, or a new one where there is no file.
    pub fn resumed(file: &Path, setup: Setup, count: u64) -> Result<State, String> {
        if !file.exists() {
            return Ok(State::new(setup, count));
        }
        let state = State::of_file(file)?;
        if let Some(what) = other(&state.setup, &setup) {
            let file = file.display();
            return Err(format!("{file} is the state of another run: {what}"));
        }
        Ok(State { count, ..state })
    }

    pub fn of_file(file: &Path) -> Result<State, String> {
        let text =
            fs::read_to_string(file).map_err(|error| format!("{}: {error}", file.display()))?;
        State::of_text(&text).ok_or_else(|| format!("{} is no state file", file.display()))
    }

    /// Written beside the file and put in its place by one step: a run that is stopped leaves the old state or the new one.
    pub fn save(&self, file: &Path) -> io::Result<()> {
        let mut beside = file.as_os_str().to_owned();
        beside.push(".part");
        fs::write(&beside, self.text())?;
        fs::rename(&beside, file)
    }

    fn text(&self) -> String {
        let setup = &self.setup;
        let head = [
            ("seed", setup.seed.to_string()),
            ("stages", format!("{:016x}", setup.stages)),
            ("shard", setup.shard.words()),
            ("plugins", setup.plugins.join(" ")),
            ("items", self.count.to_string()),
            ("done", self.done.to_string()),
        ];
        let head: String = head
            .iter()
            .map(|(word, value)| format!("{word}\t{value}\n"))
            .collect();
        let found: String = self
            .found
            .iter()
            .map(|line| format!("found\t{line}\n"))
            .collect();
        format!("{FIRST_LINE}\n{head}{}{found}", self.tally.lines())
    }

    fn of_text(text: &str) -> Option<State> {
        let mut lines = text.lines();
        if lines.next() != Some(FIRST_LINE) {
            return None;
        }
        let mut value = |wanted: &str| {
            let (word, value) = lines.next()?.split_once('\t')?;
            (word == wanted).then(|| value.to_string())
        };
        let setup = Setup {
            seed: value("seed")?.parse().ok()?,
            stages: u64::from_str_radix(&value("stages")?, 16).ok()?,
            shard: Shard::of(&value("shard")?)?,
            plugins: value("plugins")?
                .split_whitespace()
                .map(str::to_string)
                .collect(),
        };
        let mut state = State::new(setup, value("items")?.parse().ok()?);
        state.done = value("done")?.parse().ok()?;
        for line in lines {
            state.add_line(line)?;
        }
        Some(state)
    }

    fn add_line(&mut self, line: &str) -> Option<()> {
        match line.split_once('\t')? {
            ("count", fields) => self.tally.add_line(fields),
            ("found", found) => {
                self.found.push(found.to_string());
                Some(())
            }
            _ => None,
        }
    }
}

/// In what two runs are not the same.
fn other(one: &Setup, other: &Setup) -> Option<String> {
    let seed = (one.seed != other.seed).then(|| format!("its seed is {}", one.seed));
    let stages = (one.stages != other.stages).then(|| "its stages are others".to_string());
    let shard = (one.shard != other.shard).then(|| format!("its shard is {}", one.shard.words()));
    let plugins = (one.plugins != other.plugins)
        .then(|| format!("its plug-ins are {}", one.plugins.join(" ")));
    seed.or(stages).or(shard).or(plugins)
}

#[cfg(test)]
mod tests {
    use super::*;
    use crate::tally::{ANSWER, NEW};

    fn setup() -> Setup {
        Setup {
            seed: 7,
            stages: 0xAB,
            shard: Shard { k: 1, n: 3 },
            plugins: vec!["oracle".to_string(), "babel".to_string()],
        }
    }

    #[test]
    fn a_state_is_read_back() {
        let mut state = State::new(setup(), 100);
        state.done = 4;
        state.tally.add(ANSWER, "0", 3);
        state.tally.add(NEW, "babel\tboth accept", 1);
        state.found.push("5\tbabel\tboth accept".to_string());
        assert_eq!(State::of_text(&state.text()), Some(state));
    }

    #[test]
    fn what_is_no_state() {
        let text = State::new(setup(), 100).text();
        assert_eq!(State::of_text(&text.replace("state 1", "state 0")), None);
        assert_eq!(State::of_text(&text.replace("seed", "sead")), None);
        assert_eq!(State::of_text(&format!("{text}more\n")), None);
    }

    #[test]
    fn another_run_is_told() {
        let is = setup();
        assert_eq!(other(&is, &setup()), None);
        let others = [
            Setup { seed: 8, ..setup() },
            Setup {
                stages: 1,
                ..setup()
            },
            Setup {
                shard: Shard { k: 0, n: 3 },
                ..setup()
            },
            Setup {
                plugins: vec![],
                ..setup()
            },
        ];
        assert!(others.iter().all(|one| other(&is, one).is_some()));
    }

    #[test]
    fn shards_share_the_items() {
        for n in 1..6 {
            for count in 0..20 {
                let mut numbers: Vec<u64> = (0..n)
                    .map(|k| Shard { k, n })
                    .flat_map(|shard| (0..shard.share(count)).map(move |at| shard.number(at)))
                    .collect();
                numbers.sort();
                assert_eq!(numbers, (0..count).collect::<Vec<u64>>());
            }
        }
        assert_eq!(Shard::of("2/2"), None);
        assert_eq!(Shard::of("1/2"), Some(Shard { k: 1, n: 2 }));
    }
}
