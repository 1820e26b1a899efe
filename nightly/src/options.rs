//! The words of a command line, with defaults for a run from the repository's root.

use crate::plugin::Bound;
use crate::state::Shard;
use std::path::PathBuf;
use std::time::Duration;

pub struct Options {
    pub stages: PathBuf,
    pub port: String,
    /// `NAME=COMMAND` of each plug-in.
    pub plugins: Vec<(String, Bound)>,
    pub known: PathBuf,
    pub seed: u64,
    pub count: u64,
    pub shard: Shard,
    pub block: u64,
    /// Differences of a class that are shrunk.
    pub each: u64,
    /// A program that leaves a block unanswered for so long is given up.
    pub patience: Duration,
    pub out: PathBuf,
    pub state: Option<PathBuf>,
}

impl Options {
    fn defaults() -> Options {
        Options {
            stages: PathBuf::from("nightly/stages"),
            port: "tools/run batch".to_string(),
            plugins: Vec::new(),
            known: PathBuf::from("nightly/known.txt"),
            seed: 1,
            count: 1_000_000,
            shard: Shard { k: 0, n: 1 },
            block: 4_096,
            each: 5,
            patience: Duration::from_secs(3_600),
            out: PathBuf::from("nightly/night"),
            state: None,
        }
    }

    pub fn of(words: &[String]) -> Result<Options, String> {
        let mut options = Options::defaults();
        let mut words = words.iter();
        while let Some(name) = words.next() {
            let value = words
                .next()
                .ok_or_else(|| format!("{name} needs a value"))?;
            options.set(name, value)?;
        }
        if options.plugins.is_empty() {
            options.plugins.push(("oracle".to_string(), Bound::Whole));
        }
        options.check_names()?;
        Ok(options)
    }

    /// Counts are kept by the plug-ins' names.
    fn check_names(&self) -> Result<(), String> {
        let names: Vec<&str> = self
            .plugins
            .iter()
            .filter_map(|(words, _)| words.split('=').next())
            .collect();
        for (at, name) in names.iter().enumerate() {
            if name.is_empty() || name.contains(char::is_whitespace) || names[..at].contains(name) {
                return Err(format!("a plug-in cannot be named {name:?}, or not twice"));
            }
        }
        Ok(())
    }

    fn set(&mut self, name: &str, value: &str) -> Result<(), String> {
        let bad = || format!("{name} cannot be {value}");
        match name {
            "--stages" => self.stages = PathBuf::from(value),
            "--port" => self.port = value.to_string(),
            "--oracle" => self.plugins.push((value.to_string(), Bound::Whole)),
            "--parser" => self.plugins.push((value.to_string(), Bound::Domain)),
            "--known" => self.known = PathBuf::from(value),
            "--seed" => self.seed = value.parse().map_err(|_| bad())?,
            "--count" => self.count = value.parse().map_err(|_| bad())?,
            "--shard" => self.shard = Shard::of(value).ok_or_else(bad)?,
            "--block" => {
                self.block = value
                    .parse()
                    .ok()
                    .filter(|block| *block > 0)
                    .ok_or_else(bad)?
            }
            "--each" => self.each = value.parse().map_err(|_| bad())?,
            "--patience" => self.patience = Duration::from_secs(value.parse().map_err(|_| bad())?),
            "--out" => self.out = PathBuf::from(value),
            "--state" => self.state = Some(PathBuf::from(value)),
            _ => return Err(format!("{name} is not known")),
        }
        Ok(())
    }

    /// Shards may share a folder: each has its own files there.
    pub fn state_file(&self) -> PathBuf {
        let own = || self.out.join(format!("state{}.txt", self.suffix()));
        self.state.clone().unwrap_or_else(own)
    }

    pub fn differences_file(&self) -> PathBuf {
        self.out.join(format!("differences{}.txt", self.suffix()))
    }

    fn suffix(&self) -> String {
        match self.shard {
            Shard { n: 1, .. } => String::new(),
            Shard { k, n } => format!("-{k}-of-{n}"),
        }
    }
}

#[cfg(test)]
mod tests {
    use super::*;

    fn options(words: &str) -> Result<Options, String> {
        let words: Vec<String> = words.split_whitespace().map(str::to_string).collect();
        Options::of(&words)
    }

    #[test]
    fn defaults() {
        let options = options("").unwrap();
        assert_eq!(options.port, "tools/run batch");
        assert_eq!(options.plugins, [("oracle".to_string(), Bound::Whole)]);
        assert_eq!(
            options.state_file(),
            PathBuf::from("nightly/night/state.txt")
        );
    }

    #[test]
    fn values() {
        let options =
            options("--seed 9 --shard 1/4 --parser babel --oracle o=cmd --out x").unwrap();
        assert_eq!(options.seed, 9);
        assert_eq!(options.plugins.len(), 2);
        assert_eq!(options.state_file(), PathBuf::from("x/state-1-of-4.txt"));
        assert_eq!(
            options.differences_file(),
            PathBuf::from("x/differences-1-of-4.txt")
        );
    }

    #[test]
    fn misuse() {
        for words in [
            "--seed",
            "--seed x",
            "--shard 4/4",
            "--block 0",
            "--sead 1",
            "x y",
            "--oracle a --parser a=b",
            "--oracle =b",
        ] {
            assert!(options(words).is_err(), "{words}");
        }
    }
}
