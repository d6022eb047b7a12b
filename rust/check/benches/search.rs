//! The times of Search and of the makers of its list on full blocks: the library beside the second
//! implementation with a small budget, and how the library's time grows with the budget.
//!
//! `rust/yardstick/run` measures it beside a third implementation too, where one is at hand.

use check::implementation::{LIBRARY, SECOND};
use check::measure::{compare_makers, compare_searches, full_blocks};
use check::sample::Arguments;

fn main() {
    let call = Arguments::search;
    for (name, arguments) in full_blocks() {
        compare_makers(name, &arguments, &[LIBRARY, SECOND]);
        compare_searches(name, call, &arguments, &[10], &[LIBRARY, SECOND]);
        compare_searches(name, call, &arguments, &[50, 200, 800, 10_000], &[LIBRARY]);
    }
}
