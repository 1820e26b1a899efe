//! An oracle: a program, and how much of its answers binds.

use crate::program::{Life, Program};
use std::time::Duration;

/// What a plug-in's answers are held to.
#[derive(Clone, Copy, PartialEq, Eq, Debug)]
pub enum Bound {
    /// Document 01's language, written again: every item, whole, and no difference is known.
    Whole,
    /// Another reader of JSX: within document 01's domain, and some differences are known.
    Domain,
}

pub struct Plugin {
    pub program: Program,
    pub bound: Bound,
}

impl Plugin {
    /// From `NAME=COMMAND`; a name alone is the program of that name in the folder of plug-ins.
    pub fn of(words: &str, bound: Bound, patience: Duration) -> Plugin {
        let own = format!("nightly/plugins/{words}");
        let (name, command) = words.split_once('=').unwrap_or((words, &own));
        Plugin {
            program: Program::new(name, command, Life::OneBlock).with_patience(patience),
            bound,
        }
    }

    pub fn name(&self) -> &str {
        &self.program.name
    }
}
