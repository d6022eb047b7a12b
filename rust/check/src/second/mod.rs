//! The second implementation of document 01 as the requests have changed it: with bench texts, exact quiet
//! ticks, pulses that are rounded to the nearest and add up, and a list of the inputs in the order to be split.
//! It is written from the paper alone and for obviousness.
//!
//! The proved library is tested against it, and timed beside it.

mod arguments;
mod bench;
mod block;
mod current;
mod envelope;
mod evaluation;
mod excitation;
mod fill;
mod frame;
mod order;
mod read;
mod search;
mod simulate;
mod waveform;

pub use bench::bench;
pub use envelope::{envelope, envelope_overlaps, gates_filled};
pub use order::{bound_order, bounds_tie, cone_order};
pub use read::read;
pub use search::search;
pub use simulate::{simulate, simulation_overlaps};
