//! Searches all states that runs of automata reach.

mod conflict;
mod explore;
mod kinds;
mod report;
mod rows;
mod ways;
mod world;

pub use explore::{Search, Timeouts};
pub use report::write;
