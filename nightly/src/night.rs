//! A shard's run: blocks of items go through the port and each plug-in, and their answers are held together.

use crate::damage::{made, Origin};
use crate::difference::{held, Held};
use crate::domain::compared;
use crate::found::Found;
use crate::item::Item;
use crate::known::Known;
use crate::options::Options;
use crate::plugin::{Bound, Plugin};
use crate::program::{Life, Program};
use crate::shrink::shrunk;
use crate::stages::Stages;
use crate::state::{Setup, State};
use crate::tally::{ANSWER, COMPARED, DAMAGE, KNOWN, LEFT_OUT, NEW, SKIPPED};
use std::fs;
use std::io;
use std::path::Path;

pub struct Night<'a> {
    options: &'a Options,
    stages: &'a Stages,
    known: Known,
    port: Program,
    plugins: Vec<Plugin>,
    pub state: State,
}

/// Items with what they were made of and what the port wrote.
struct Block<'a> {
    items: Vec<Item>,
    origins: Vec<Origin<'a>>,
    texts: Vec<Vec<u8>>,
}

impl<'a> Night<'a> {
    /// A new run, or one that goes on behind its last finished block.
    pub fn begun(options: &'a Options, stages: &'a Stages) -> Result<Night<'a>, String> {
        let known =
            fs::read_to_string(&options.known).map_err(|error| about(&options.known, error))?;
        fs::create_dir_all(&options.out).map_err(|error| about(&options.out, error))?;
        let patience = options.patience;
        let plugin = |(words, bound): &(String, Bound)| Plugin::of(words, *bound, patience);
        let plugins: Vec<Plugin> = options.plugins.iter().map(plugin).collect();
        let setup = Setup {
            seed: options.seed,
            stages: stages.hash,
            shard: options.shard,
            plugins: plugins
                .iter()
                .map(|plugin| plugin.name().to_string())
                .collect(),
        };
        Ok(Night {
            options,
            stages,
            known: Known::of(&known)?,
            port: Program::new("port", &options.port, Life::Kept).with_patience(patience),
            plugins,
            state: State::resumed(&options.state_file(), setup, options.count)?,
        })
    }

    /// Does the items up to this place of the shard's share, and saves where it stands.
    pub fn block(&mut self, end: u64) -> Result<(), String> {
        let numbers = (self.state.done..end).map(|place| self.options.shard.number(place));
        let (stages, seed) = (self.stages, self.options.seed);
        let (items, origins): (Vec<Item>, Vec<Origin>) =
            numbers.map(|number| made(stages, seed, number)).unzip();
        let texts = self.port.answers(&items)?;
        let block = Block {
            items,
            origins,
            texts,
        };
        self.count(&block)?;
        for which in 0..self.plugins.len() {
            self.hold(which, &block)?;
        }
        self.state.done = end;
        self.save()
    }

    /// The differences stand in the state too, so a block that is done again writes no line twice.
    pub fn save(&self) -> Result<(), String> {
        let lines: String = self
            .state
            .found
            .iter()
            .map(|line| format!("{line}\n"))
            .collect();
        let differences = self.options.differences_file();
        fs::write(&differences, lines).map_err(|error| about(&differences, error))?;
        let file = self.options.state_file();
        self.state.save(&file).map_err(|error| about(&file, error))
    }

    fn count(&mut self, block: &Block) -> Result<(), String> {
        for (origin, text) in block.origins.iter().zip(&block.texts) {
            let number = self.port.read(text)?.number();
            let number = number.ok_or("the port gave no number")?;
            self.state.tally.add(DAMAGE, origin.damage.word(), 1);
            self.state.tally.add(ANSWER, &format!("{number:2}"), 1);
        }
        Ok(())
    }

    /// Holds a plug-in's answers to the block against the port's, where they are compared.
    fn hold(&mut self, which: usize, block: &Block) -> Result<(), String> {
        let asked = self.asked(which, block)?;
        let items: Vec<Item> = asked.iter().map(|at| block.items[*at].clone()).collect();
        let texts = self.plugins[which].program.answers(&items)?;
        let left_out = (block.items.len() - asked.len()) as u64;
        self.add(LEFT_OUT, which, left_out);
        for (at, text) in asked.into_iter().zip(texts) {
            let item = &block.items[at];
            let held = held(item, &block.texts[at], &text, self.plugins[which].bound)
                .map_err(|words| format!("{}: {words}", self.plugins[which].name()))?;
            let skipped = held == Held::Skipped;
            self.add(if skipped { SKIPPED } else { COMPARED }, which, 1);
            if let Held::Differ(class) = held {
                self.report(which, block.origins[at], item, &class)?;
            }
        }
        Ok(())
    }

    /// The places of those items of the block that are compared with this plug-in.
    fn asked(&self, which: usize, block: &Block) -> Result<Vec<usize>, String> {
        let mut asked = Vec::new();
        for (at, item) in block.items.iter().enumerate() {
            let whole = self.plugins[which].bound == Bound::Whole;
            if whole || compared(item, &self.port.read(&block.texts[at])?) {
                asked.push(at);
            }
        }
        Ok(asked)
    }

    fn add(&mut self, what: &str, which: usize, count: u64) {
        self.state
            .tally
            .add(what, self.plugins[which].name(), count);
    }

    /// Counts the difference. The first ones of a new class are shrunk and written out.
    fn report(
        &mut self,
        which: usize,
        origin: Origin,
        item: &Item,
        class: &str,
    ) -> Result<(), String> {
        let plugin = &self.plugins[which];
        let key = format!("{}\t{class}", plugin.name());
        let known = plugin.bound == Bound::Domain && self.known.has(plugin.name(), class);
        let what = if known { KNOWN } else { NEW };
        self.state.tally.add(what, &key, 1);
        if known || self.state.tally.get(NEW, &key) > self.options.each {
            return Ok(());
        }
        self.write_out(which, origin, item, class)
    }

    fn write_out(
        &mut self,
        which: usize,
        origin: Origin,
        item: &Item,
        class: &str,
    ) -> Result<(), String> {
        let (port, plugin) = (&mut self.port, &mut self.plugins[which]);
        let mut stays = |candidates: &[Item]| shows(port, plugin, class, candidates);
        let smallest = shrunk(item, &mut stays)?;
        let only = std::slice::from_ref(&smallest);
        let found = Found {
            origin,
            class,
            length: item.bytes.len(),
            smallest: &smallest,
            port: &port.answers(only)?[0],
            other: &plugin.program.answers(only)?[0],
            plugin: plugin.name(),
        };
        let file = self.options.out.join(found.file_name());
        fs::write(&file, &smallest.bytes).map_err(|error| about(&file, error))?;
        self.state.found.push(found.line());
        Ok(())
    }
}

/// For each item whether it shows a difference of this class.
fn shows(
    port: &mut Program,
    plugin: &mut Plugin,
    class: &str,
    items: &[Item],
) -> Result<Vec<bool>, String> {
    let ports = port.answers(items)?;
    let others = plugin.program.answers(items)?;
    let mut shows = Vec::with_capacity(items.len());
    for (item, (one, other)) in items.iter().zip(ports.iter().zip(&others)) {
        let is_asked = plugin.bound == Bound::Whole || compared(item, &port.read(one)?);
        let held = held(item, one, other, plugin.bound)?;
        shows.push(is_asked && held == Held::Differ(class.to_string()));
    }
    Ok(shows)
}

fn about(file: &Path, error: io::Error) -> String {
    format!("{}: {error}", file.display())
}
