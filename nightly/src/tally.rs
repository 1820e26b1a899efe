//! What was counted: one map of counts by words, so that tallies of shards add up.

use std::collections::BTreeMap;

#[derive(Clone, Default, PartialEq, Eq, Debug)]
pub struct Tally {
    counts: BTreeMap<(String, String), u64>,
}

/// What is counted. The second word is a damage, a number, a plug-in, or a plug-in with a class behind a tab.
pub const DAMAGE: &str = "damage";
pub const ANSWER: &str = "answer";
pub const COMPARED: &str = "compared";
pub const LEFT_OUT: &str = "left-out";
pub const SKIPPED: &str = "skipped";
pub const KNOWN: &str = "known";
pub const NEW: &str = "new";

impl Tally {
    pub fn add(&mut self, what: &str, which: &str, count: u64) {
        let key = (what.to_string(), which.to_string());
        *self.counts.entry(key).or_default() += count;
    }

    pub fn merge(&mut self, other: &Tally) {
        for ((what, which), count) in &other.counts {
            self.add(what, which, *count);
        }
    }

    /// In the order of the words.
    pub fn of<'a>(&'a self, what: &'a str) -> impl Iterator<Item = (&'a str, u64)> + 'a {
        self.counts
            .iter()
            .filter(move |((is, _), _)| is == what)
            .map(|((_, which), count)| (which.as_str(), *count))
    }

    pub fn get(&self, what: &str, which: &str) -> u64 {
        let key = (what.to_string(), which.to_string());
        self.counts.get(&key).copied().unwrap_or(0)
    }

    pub fn total(&self, what: &str) -> u64 {
        self.of(what).map(|(_, count)| count).sum()
    }

    /// A line for each count.
    pub fn lines(&self) -> String {
        let line = |((what, which), count): (&(String, String), &u64)| {
            format!("count\t{what}\t{count}\t{which}\n")
        };
        self.counts.iter().map(line).collect()
    }

    /// From what stands behind `count` in such a line.
    pub fn add_line(&mut self, fields: &str) -> Option<()> {
        let (what, rest) = fields.split_once('\t')?;
        let (count, which) = rest.split_once('\t')?;
        self.add(what, which, count.parse().ok()?);
        Some(())
    }
}

#[cfg(test)]
mod tests {
    use super::*;

    #[test]
    fn lines_are_read_back_and_add_up() {
        let mut tally = Tally::default();
        tally.add(DAMAGE, "none", 2);
        tally.add(NEW, "babel\tboth accept, it has more rows", 1);
        let mut again = Tally::default();
        for line in tally.lines().lines() {
            again
                .add_line(line.strip_prefix("count\t").unwrap())
                .unwrap();
        }
        assert_eq!(again, tally);
        again.merge(&tally);
        assert_eq!(again.get(DAMAGE, "none"), 4);
        assert_eq!(again.total(NEW), 2);
        assert_eq!(again.add_line("damage\tx\ty"), None);
    }
}
