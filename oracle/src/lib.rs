//! The oracle: modalkit's Ex command line, compiled unchanged, answering vectors. See README.md.

// util.rs imports crossterm::event, for which standin::event stands in.
extern crate self as crossterm;

mod answer;
pub mod arguments;
mod exhaustive;
pub mod generate;
mod product;
mod record;
pub mod refusal;
pub mod session;
mod source;
mod standin;
mod stats;
pub mod tasks;
#[cfg(test)]
mod tests;
pub mod vector;

// The compiled files name their neighbours from the crate's root.
pub use source::{command, commands};
use source::util;
pub use standin::editing;
use standin::{actions, event, key, prelude};
