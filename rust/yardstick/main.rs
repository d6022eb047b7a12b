//! The times of Envelope, Simulate and Search: the library beside a yardstick, and Envelope and Simulate
//! beside the second implementation too.
//!
//! Built by `run`, which says where the yardstick is. The argument is the folder of its blocks.
//!
//! What is timed has to agree in the whole answer, the quiet tick included, and in every buffer but the work buffer.

use std::env;
use std::path::Path;

use baseline::{fast, sums};
use check::implementation::{Implementation, LIBRARY, SECOND};
use check::measure::{bench_block, compare, compare_searches, full_blocks};
use check::sample::Arguments;
use zimgurav::{Counts, Currents, Found, Outcome, Refusal, Word};

/// The yardstick. Its `sums` rounds to the nearest and adds pulses up; Read is that of its `fast`, as `sums` has none.
/// Its search knows no list of inputs and splits in the order of the cones, which is the list that the timed searches
/// have. Neither Read nor Bench nor a maker of a list is timed here.
const YARDSTICK: Implementation = Implementation {
    name: "yardstick",
    read,
    envelope,
    simulate,
    search,
    ..SECOND
};

/// The budgets that searches are timed with.
const BUDGETS: [u64; 4] = [50, 200, 800, 10_000];

fn read(file: &[u8]) -> Result<Counts, Refusal> {
    fast::read(file).map(counts).map_err(refusal)
}

fn envelope(
    file: &[u8],
    hop_limit: u64,
    table: &[u16],
    sheet: &mut [Word],
    work: &mut [u8],
) -> Result<Currents, Refusal> {
    let answer = sums::envelope(file, hop_limit, table, sheet, work);
    answer.map(currents).map_err(refusal)
}

fn simulate(
    file: &[u8],
    table: &[u16],
    sheet: &mut [Word],
    pattern: &[u8],
    work: &mut [u8],
) -> Result<Currents, Refusal> {
    let answer = sums::simulate(file, table, sheet, pattern, work);
    answer.map(currents).map_err(refusal)
}

#[allow(clippy::too_many_arguments)]
fn search(
    file: &[u8],
    hop_limit: u64,
    table: &[u16],
    ratio: u64,
    budget: u64,
    _order: &[u8],
    sheet: &mut [Word],
    pattern: &mut [u8],
    work: &mut [u8],
    store: &mut [u8],
) -> Result<Found, Refusal> {
    let answer = sums::search(
        file, hop_limit, table, ratio, budget, sheet, pattern, work, store,
    );
    answer.map(found).map_err(refusal)
}

/// The yardstick's answer to Read, in the library's type.
fn counts(counts: baseline::Counts) -> Counts {
    Counts {
        nets: counts.nets.into(),
        inputs: counts.inputs.into(),
    }
}

/// The yardstick's answer to Envelope and Simulate, in the library's type.
fn currents(currents: baseline::Currents) -> Currents {
    Currents {
        drop: currents.drop,
        quiet: currents.quiet.into(),
    }
}

/// The yardstick's answer to Search, in the library's type.
fn found(found: sums::Found) -> Found {
    let answer = found.answer;
    Found {
        outcome: match answer.outcome {
            baseline::Outcome::Exact => Outcome::Exact,
            baseline::Outcome::Within => Outcome::Within,
            baseline::Outcome::Spent => Outcome::Spent,
        },
        upper: answer.upper,
        lower: answer.lower,
        splits: answer.splits,
        cases: answer.cases,
        quiet: found.quiet.into(),
    }
}

/// The yardstick's refusal, in the library's type.
fn refusal(refusal: baseline::Refusal) -> Refusal {
    Refusal {
        number: refusal.number.into(),
        place: refusal.place.into(),
    }
}

fn main() {
    let folder = env::args_os()
        .nth(1)
        .expect("the folder of the yardstick's blocks");
    let bench_block = bench_block(Path::new(&folder));
    let all = [LIBRARY, SECOND, YARDSTICK];
    compare("bench.blk", &bench_block, &all);
    for (name, arguments) in full_blocks() {
        compare(name, &arguments, &all);
    }
    let (call, pair) = (Arguments::search, [LIBRARY, YARDSTICK]);
    compare_searches("bench.blk", call, &bench_block, &BUDGETS, &pair);
}
