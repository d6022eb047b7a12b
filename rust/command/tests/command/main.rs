//! The command, run as a person runs it.

mod arrivals;
mod documents;
mod exchange;
mod files;
mod interrupt;
mod lines;
#[path = "../common/markup.rs"]
mod markup;
mod pictures;
mod refusals;
mod run;
mod selftest;
mod transcripts;
mod usage;
mod well_formed;
