//! Calls one operation of the library once, for a profile.
//!
//! The arguments are the folder of `bench.blk` and `bench.tab` and `envelope`, `simulate`, `search`, `cone_order` or
//! `bound_order`; of a search also the budget.

use std::env;
use std::path::Path;

use check::implementation::LIBRARY;
use check::measure::bench_block;

fn main() {
    let words: Vec<String> = env::args().skip(1).collect();
    let words: Vec<&str> = words.iter().map(String::as_str).collect();
    let [folder, operation @ ..] = &words[..] else {
        panic!("the folder of the block");
    };
    let mut arguments = bench_block(Path::new(folder));
    let accepted = match operation {
        ["envelope"] => arguments.envelope(&LIBRARY).is_ok(),
        ["simulate"] => arguments.simulate(&LIBRARY).is_ok(),
        ["search", budget] => {
            arguments = arguments.with_budget(budget.parse().expect("a number"));
            arguments.search(&LIBRARY).is_ok()
        }
        ["cone_order"] => arguments.cone_order(&LIBRARY).is_ok(),
        ["bound_order"] => arguments.bound_order(&LIBRARY).is_ok(),
        _ => panic!("an operation"),
    };
    assert!(accepted, "accepted");
}
