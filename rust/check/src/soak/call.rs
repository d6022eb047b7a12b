//! Random calls, each short enough for the second implementation. What takes longest is the list by bounds of a full
//! block with 64 undecided inputs: some seconds, but seldom.

use crate::sample::{
    block_of_sums, block_with_a_cap, block_with_gaps, damage, lend_random_text, lower_peaks, noise,
    spoil, Arguments, Random, Record, Shape,
};
use zimgurav::kind::INPUT;
use zimgurav::{store_bytes, MOST_BUDGET, RECORD_BYTES};

/// The most records that the searches of one call evaluate, in all their cases: about half a second
/// of the second implementation.
const MOST_EVALUATED: u64 = 40_000;

/// The most evaluations that a split adds: a simulation and an envelope for each of four children,
/// and one of each child for the sheet.
const EVALUATIONS_OF_A_SPLIT: u64 = 12;

/// A random block, the arguments of a call and a bench text: mostly valid, sometimes damaged or spoilt.
pub fn random_call(random: &mut Random) -> Arguments {
    let mut block = random_block(random);
    if random.below(4) == 0 {
        lower_peaks(&mut block);
    }
    let budget = random.pick(&[7, 7, 20, 20, 60, 60, 60, 60, 60, 60, 400, 400, 400, 10_000]);
    let mut arguments = Arguments::random_up_to(budget, random, &block);
    while random.below(4) == 0 {
        damage(random, &mut arguments.file);
    }
    if random.below(64) == 0 {
        arguments.file = noise(random);
    }
    if random.below(16) == 0 {
        arguments.pattern.fill_with(|| random.byte(0, 255));
    }
    while random.below(5) == 0 {
        spoil(random, &mut arguments);
    }
    bound_splits(&mut arguments);
    let records = random_length(random);
    lend_random_text(random, records, &mut arguments);
    arguments
}

/// A random valid block, or one with too many records.
fn random_block(random: &mut Random) -> Vec<Record> {
    if random.below(128) == 0 {
        return block_of_sums(random);
    }
    match random.below(32) {
        0 => almost_with_a_cap(random),
        1..8 => block_with_gaps(random),
        8..16 => Shape::to_search(random).block(random),
        _ => {
            let records = random_length(random);
            Shape::random(random, records).block(random)
        }
    }
}

/// The block with a cap, but for the delay of a gate.
fn almost_with_a_cap(random: &mut Random) -> Vec<Record> {
    let mut block = block_with_a_cap();
    let inputs = 3;
    let gate = inputs + random.below(block.len() - inputs);
    block[gate][2] = random.byte(1, 12);
    block
}

/// How many records a block of any shape has: mostly few, seldom about as many as there can be.
fn random_length(random: &mut Random) -> usize {
    match random.below(128) {
        0 => 1024,
        1 => 1020 + random.below(10),
        2 | 3 => 513 + random.below(512),
        4..12 => 101 + random.below(412),
        12..52 => 17 + random.below(84),
        _ => 1 + random.below(16),
    }
}

/// Lowers a budget with which the search could take long. One that the case store is too short for
/// is refused anyway.
fn bound_splits(arguments: &mut Arguments) {
    let most = most_splits(&arguments.file);
    let accepted = arguments.budget <= MOST_BUDGET;
    if accepted && arguments.store.len() >= store_bytes(arguments.budget) {
        arguments.budget = arguments.budget.min(most);
    }
}

/// How large a budget may be: any where the block has few enough patterns, since a search splits
/// less often than there are patterns.
fn most_splits(file: &[u8]) -> u64 {
    let (records, _) = file.as_chunks::<RECORD_BYTES>();
    let inputs = records.iter().take_while(|record| record[0] == INPUT);
    let patterns = inputs.fold(1u64, |patterns, input| {
        patterns.saturating_mul(input[18].count_ones().into())
    });
    let affordable = MOST_EVALUATED / (EVALUATIONS_OF_A_SPLIT * records.len().max(1) as u64);
    if patterns <= affordable {
        MOST_BUDGET
    } else {
        affordable
    }
}
