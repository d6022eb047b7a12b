//! The soak: random blocks through every operation of two implementations, for as long as it is told.
//!
//! A block and its arguments follow from the seed and the block's number alone.

mod call;
mod coverage;

use std::ops::Range;
use std::panic::{catch_unwind, AssertUnwindSafe};
use std::time::{Duration, Instant};

use crate::agreement::{is_a_list, Searched};
use crate::comparison::compare;
use crate::implementation::{Implementation, Operation};
use crate::sample::{allowed, Arguments, Random};
use crate::second;
pub use coverage::Coverage;
use coverage::OPERATIONS;
use zimgurav::kind::INPUT;
use zimgurav::{Counts, Refusal, RECORD_BYTES};

/// How many random patterns are held against each accepted search.
const PATTERNS: usize = 3;

/// A block on which the implementations differ or the search does not agree with simulations.
#[derive(Debug)]
pub struct Difference {
    /// The block's number.
    pub number: u64,
    /// What was done, and what was seen.
    pub seen: String,
    pub arguments: Arguments,
}

/// Compares the implementations on the blocks of these numbers, until one shows a difference or the
/// time is over. Returns what was covered, and the difference.
pub fn soak(
    pair: &[Implementation; 2],
    seed: u64,
    numbers: Range<u64>,
    time: Duration,
) -> (Coverage, Option<Difference>) {
    let mut coverage = Coverage::default();
    let start = Instant::now();
    for number in numbers {
        let before = start.elapsed();
        if before >= time {
            break;
        }
        let difference = soak_block(pair, seed, number, &mut coverage);
        coverage.elapsed = start.elapsed();
        let spent = coverage.elapsed - before;
        coverage.longest = coverage.longest.max((spent, number));
        if difference.is_some() {
            return (coverage, difference);
        }
    }
    (coverage, None)
}

/// Compares the implementations on one block. A call that panics is a difference too.
fn soak_block(
    pair: &[Implementation; 2],
    seed: u64,
    number: u64,
    coverage: &mut Coverage,
) -> Option<Difference> {
    let first = Random::new(seed).bits();
    let mut random = Random::new(first.wrapping_add(number));
    let arguments = call::random_call(&mut random);
    let compared = catch_unwind(AssertUnwindSafe(|| {
        compare_calls(pair, &arguments, &mut random, coverage)
    }));
    let seen = compared.unwrap_or_else(|_| Err("a call panicked".to_string()));
    seen.err().map(|seen| Difference {
        number,
        seen,
        arguments,
    })
}

/// Says of which operation something was seen.
fn of_operation(operation: usize) -> impl Fn(String) -> String {
    move |seen| format!("{}: {seen}", OPERATIONS[operation])
}

/// Makes all calls in both implementations, holds simulations against an accepted search, looks at the lists that
/// are made, and reads the records of an accepted text.
fn compare_calls(
    pair: &[Implementation; 2],
    arguments: &Arguments,
    random: &mut Random,
    coverage: &mut Coverage,
) -> Result<(), String> {
    let read = compare(pair, Arguments::read, arguments).map_err(of_operation(0))?;
    coverage.count_block(arguments, read.answer);
    coverage.count_answer(0, &read.answer);

    compare_envelopes(pair, arguments, read.answer, coverage).map_err(of_operation(1))?;
    compare_simulations(pair, arguments, coverage).map_err(of_operation(2))?;
    let lists = compare_makers(pair, arguments, coverage)?;

    let search = compare(pair, Arguments::search, arguments).map_err(of_operation(3))?;
    coverage.count_answer(3, &search.answer);
    if let Ok(found) = search.answer {
        let lent = search.after;
        coverage.count_search(&found);
        coverage.count_sheet(&lent.sheet);
        coverage.count_list(lists.map(|list| list.as_ref() == Some(&lent.order)));
        hold_against_simulations(&pair[0], &Searched { lent, found }, random, coverage)
            .map_err(|seen| format!("Search against Simulate: {seen}"))?;
    }

    let bench = compare(pair, Arguments::bench, arguments).map_err(of_operation(4))?;
    coverage.count_answer(4, &bench.answer);
    if let Ok(records) = bench.answer {
        coverage.count_text(records);
        read_again(&pair[0], bench.after, records)
            .map_err(|seen| format!("Bench against Read: {seen}"))?;
    }
    Ok(())
}

/// Makes the envelope in both implementations, and counts what an accepted one is like.
fn compare_envelopes(
    pair: &[Implementation; 2],
    arguments: &Arguments,
    read: Result<Counts, Refusal>,
    coverage: &mut Coverage,
) -> Result<(), String> {
    let envelope = compare(pair, Arguments::envelope, arguments)?;
    coverage.count_answer(1, &envelope.answer);
    if let (Ok(counts), Ok(_)) = (read, envelope.answer) {
        let (file, hop_limit) = (&arguments.file, arguments.hop_limit);
        let filled = second::gates_filled(file, hop_limit);
        coverage.count_envelope(arguments, counts, filled);
        coverage.count_envelope_overlap(second::envelope_overlaps(file, hop_limit));
        coverage.count_sheet(&envelope.after.sheet);
    }
    Ok(())
}

/// Simulates in both implementations, and counts what an accepted simulation is like.
fn compare_simulations(
    pair: &[Implementation; 2],
    arguments: &Arguments,
    coverage: &mut Coverage,
) -> Result<(), String> {
    let simulate = compare(pair, Arguments::simulate, arguments)?;
    coverage.count_answer(2, &simulate.answer);
    if simulate.answer.is_ok() {
        let overlap = second::simulation_overlaps(&arguments.file, &arguments.pattern);
        coverage.count_simulation_overlap(overlap);
        coverage.count_sheet(&simulate.after.sheet);
    }
    Ok(())
}

/// Makes the list by cones and the one by bounds in both implementations, and counts what the bounds were like.
/// Returns the lists of accepted calls.
fn compare_makers(
    pair: &[Implementation; 2],
    arguments: &Arguments,
    coverage: &mut Coverage,
) -> Result<[Option<Vec<u8>>; 2], String> {
    let by_cones = compare_lists(pair, Arguments::cone_order, 5, arguments, coverage)?;
    let by_bounds = compare_lists(pair, Arguments::bound_order, 6, arguments, coverage)?;
    if by_bounds.is_some() {
        let (file, hop_limit) = (&arguments.file, arguments.hop_limit);
        let tie = second::bounds_tie(file, hop_limit, &arguments.table);
        coverage.count_tried(arguments, tie);
    }
    Ok([by_cones, by_bounds])
}

/// Makes a list of inputs in both implementations. Returns the list that an accepted call made, which has each
/// input once.
fn compare_lists(
    pair: &[Implementation; 2],
    maker: Operation<u64>,
    operation: usize,
    arguments: &Arguments,
    coverage: &mut Coverage,
) -> Result<Option<Vec<u8>>, String> {
    let made = compare(pair, maker, arguments).map_err(of_operation(operation))?;
    coverage.count_answer(operation, &made.answer);
    let Ok(inputs) = made.answer else {
        return Ok(None);
    };
    is_a_list(&made.after.made, inputs)
        .map_err(|seen| format!("{} by itself: {seen}", OPERATIONS[operation]))?;
    Ok(Some(made.after.made[..inputs as usize].to_vec()))
}

/// The records that an accepted text left are a block of as many nets.
fn read_again(
    implementation: &Implementation,
    mut after: Arguments,
    records: u64,
) -> Result<(), String> {
    let file = after.records.get(..RECORD_BYTES * records as usize);
    after.file = file.ok_or("more records than the buffer has")?.to_vec();
    match after.read(implementation) {
        Ok(counts) if counts.nets == records => Ok(()),
        Ok(counts) => Err(format!("{records} records, {} nets", counts.nets)),
        Err(refusal) => Err(format!("the records are {refusal}")),
    }
}

/// An accepted search has the right outcome and quiet tick, hands over a pattern that drops L, and is above
/// random patterns.
fn hold_against_simulations(
    implementation: &Implementation,
    searched: &Searched,
    random: &mut Random,
    coverage: &mut Coverage,
) -> Result<(), String> {
    searched.has_the_right_outcome()?;
    searched.has_the_greatest_upper_number()?;
    searched.has_the_quiet_tick_of_its_sheet()?;
    searched.hands_over_a_pattern(implementation)?;
    coverage.capped += searched.capped_cases(implementation)?;
    let (block, _) = searched.lent.file.as_chunks::<RECORD_BYTES>();
    let inputs = || block.iter().take_while(|record| record[0] == INPUT);
    let mut lent = searched.without_the_store();
    for _ in 0..PATTERNS {
        for (byte, input) in lent.pattern.iter_mut().zip(inputs()) {
            *byte = random.pick(&allowed(input));
        }
        let currents = lent.simulate(implementation);
        let currents = currents.map_err(|refusal| format!("{refusal}"))?;
        searched.is_above(&lent.pattern[..inputs().count()], currents, &lent.sheet)?;
        coverage.patterns += 1;
    }
    Ok(())
}

#[cfg(test)]
mod tests {
    use super::*;
    use crate::comparison::faults;
    use crate::implementation::SECOND;

    const HOUR: Duration = Duration::from_secs(3600);

    /// The second implementation agrees with itself on the first blocks, and every one of these
    /// wrong implementations is found out on them.
    #[test]
    fn finds_each_fault() {
        let (coverage, none) = soak(&[SECOND; 2], 1, 0..60, HOUR);
        assert!(none.is_none(), "{none:?}");
        assert_eq!(coverage.blocks, 60);
        let faults = [
            (faults::INPUT_LOST, "Read: "),
            (faults::HIGH_DROP, "Envelope: "),
            (faults::SHEET_UNTOUCHED, "Simulate: "),
            (faults::LATE_SIMULATION, "Simulate: "),
            (faults::STORE_CLEARED, "Search: "),
            (faults::HIGH_LOWER, "Search: "),
            (faults::LATE_SEARCH, "Search: "),
            (faults::LIST_IGNORED, "Search: "),
            (faults::LIST_BY_NET, "Cone order: "),
            (faults::LIST_CLEARED, "Cone order: "),
            (faults::INPUT_DOUBLED, "Bound order: "),
            (faults::LIST_TOO_SHORT, "Bound order: "),
            (faults::HIGH_COUNT, "Bench: "),
            (faults::RECORDS_CLEARED, "Bench: "),
        ];
        for (wrong, operation) in faults {
            let (_, found) = soak(&[wrong, SECOND], 1, 0..60, HOUR);
            let found = found.expect(wrong.name);
            assert!(found.seen.starts_with(operation), "{}", found.seen);
            let again = soak(&[wrong, SECOND], 1, found.number..found.number + 1, HOUR);
            assert_eq!(again.1.expect("again").seen, found.seen);
        }
    }

    /// Two implementations that are wrong in the same way agree, but not with the simulations, with Read or with themselves.
    #[test]
    fn finds_a_common_fault() {
        for wrong in [
            faults::HIGH_LOWER,
            faults::LATE_SEARCH,
            faults::LATE_SIMULATION,
        ] {
            let (_, found) = soak(&[wrong; 2], 1, 0..60, HOUR);
            let seen = found.expect(wrong.name).seen;
            assert!(seen.starts_with("Search against Simulate: "), "{seen}");
        }
        let (_, found) = soak(&[faults::HIGH_COUNT; 2], 1, 0..60, HOUR);
        let seen = found.expect("a difference").seen;
        assert!(seen.starts_with("Bench against Read: "), "{seen}");
        for wrong in [faults::INPUT_DOUBLED, faults::LIST_TOO_SHORT] {
            let (_, found) = soak(&[wrong; 2], 1, 0..60, HOUR);
            let seen = found.expect(wrong.name).seen;
            assert!(seen.starts_with("Bound order by itself: "), "{seen}");
        }
    }
}
