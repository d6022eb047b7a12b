//! The times of Envelope and Simulate on full blocks: the library beside the second implementation.
//!
//! `rust/yardstick/run` measures them beside a third implementation too, where one is at hand.

use check::implementation::{LIBRARY, SECOND};
use check::measure::{compare, full_blocks};

fn main() {
    for (name, arguments) in full_blocks() {
        compare(name, &arguments, &[LIBRARY, SECOND]);
    }
}
