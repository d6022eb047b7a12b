//! What to test and measure with: records byte by byte, random valid blocks, bench texts, the arguments of a
//! call, and damage to files, texts and arguments.

mod arguments;
mod block;
mod damage;
mod names;
mod netlist;
mod order;
mod random;
mod text;
mod text_damage;

pub use arguments::{allowed, patterns, Arguments};
pub use block::{
    block_f, block_of_sums, block_s, block_with_a_cap, block_with_gaps, drawing, gate, has_half,
    input, lower_peaks, peaks, silent, switching_at, Record, Shape,
};
pub use damage::{damage, noise, spoil};
pub use names::names;
pub use netlist::{lines, pins, plain_list, Netlist};
pub use order::{bound_list, cone_list, shuffled, spoil_list};
pub use random::Random;
pub use text::{plain_text, spread_text, Line, BLANKS, KIND_WORDS};
pub use text_damage::lend_random_text;
