//! A second implementation, on trees, written from `docs/MANUAL.md`. Its sections are cited as 'manual, 5.3'.
//!
//! It exists to be compared with the engine, so it shares nothing with it and prefers the shortest
//! faithful reading of each sentence to speed. `calls` is what a caller sees; the other modules
//! hold one topic each.

// Plain remainders and indexes read closer to the manual.
#![allow(clippy::manual_is_multiple_of, clippy::needless_range_loop)]

pub mod calls;
pub mod cases;
#[cfg(feature = "engine")]
pub mod engine;
pub mod exchange;
pub mod folders;
pub mod generate;
pub mod groups;
pub mod hidden;
pub mod in_force;
pub mod limits;
pub mod office;
pub mod packet;
pub mod preview;
pub mod refusal;
pub mod report;
pub mod rewriting;
pub mod rules;
pub mod script;
pub mod sheet;
pub mod steps;
pub mod strip;
pub mod types;
pub mod typing;
pub mod words;
