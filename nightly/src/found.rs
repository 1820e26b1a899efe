//! A difference with the smallest input that shows it: a file of its own, and a line of differences.txt.

use crate::damage::Origin;
use crate::item::{Item, Reading};

pub struct Found<'a> {
    pub origin: Origin<'a>,
    pub plugin: &'a str,
    pub class: &'a str,
    /// How long the item was.
    pub length: usize,
    pub smallest: &'a Item,
    /// The answers to the smallest input.
    pub port: &'a [u8],
    pub other: &'a [u8],
}

impl Found<'_> {
    /// The file with the smallest input.
    pub fn file_name(&self) -> String {
        let ending = match self.smallest.reading {
            Reading::Stage => "jsx",
            Reading::Run => "run",
        };
        format!("{}-{}.{ending}", self.origin.number, self.plugin)
    }

    /// Fields with tabs between.
    pub fn line(&self) -> String {
        let bytes = &self.smallest.bytes;
        let fields = [
            format!("item {}", self.origin.number),
            format!("{} of {}", self.origin.damage.word(), self.origin.stage),
            format!("{}: {}", self.plugin, self.class),
            format!(
                "{} from {} to {} bytes",
                self.smallest.reading.word(),
                self.length,
                bytes.len()
            ),
            format!("\"{}\"", bytes.escape_ascii()),
            format!("port: {}", first_line(self.port)),
            format!("{}: {}", self.plugin, first_line(self.other)),
            self.file_name(),
        ];
        fields
            .map(|field| field.replace(['\t', '\n'], " "))
            .join("\t")
    }
}

fn first_line(answer: &[u8]) -> String {
    let text = String::from_utf8_lossy(answer);
    text.lines().next().unwrap_or_default().to_string()
}

#[cfg(test)]
mod tests {
    use super::*;
    use crate::damage::Damage;

    #[test]
    fn a_line_and_a_file() {
        let smallest = Item {
            reading: Reading::Run,
            bytes: b"{...a\n}".to_vec(),
        };
        let found = Found {
            origin: Origin {
                number: 12,
                damage: Damage::Truncated,
                stage: "a.jsx",
            },
            plugin: "oracle",
            class: "both accept, it has more rows",
            length: 900,
            smallest: &smallest,
            port: b"ok 1\n0 14 0 1 - 1 0 0\n",
            other: b"ok 2\n",
        };
        assert_eq!(found.file_name(), "12-oracle.run");
        let line = "item 12\ttruncated of a.jsx\toracle: both accept, it has more rows\trun from 900 to 7 bytes\t\
            \"{...a\\n}\"\tport: ok 1\toracle: ok 2\t12-oracle.run";
        assert_eq!(found.line(), line);
    }
}
