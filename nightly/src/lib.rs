//! Night runs: see README.md.

pub mod answer;
pub mod blank;
pub mod damage;
pub mod difference;
pub mod domain;
pub mod found;
pub mod item;
pub mod known;
pub mod name;
pub mod night;
pub mod options;
pub mod parts;
pub mod plugin;
pub mod program;
pub mod random;
pub mod shrink;
pub mod stages;
pub mod state;
pub mod summary;
pub mod tally;
