//! The library against the second implementation on random and damaged files and bench texts, and on random
//! arguments.

use std::fmt::Debug;

use check::comparison::{self, Compared};
use check::implementation::{Operation, LIBRARY, SECOND};
use check::measure::full_blocks;
use check::sample::{
    block_of_sums, damage, has_half, lend_random_text, lower_peaks, noise, spoil, Arguments,
    Random, Record, Shape,
};
use check::second;
use zimgurav::{read, Counts, Currents, Outcome, Refusal, Word, RECORD_BYTES};

const FILES: usize = 240_000;

/// How many calls of Envelope there are, and of Simulate.
const CALLS: usize = 4_000;

/// How many calls of Search there are.
const SEARCHES: usize = 2_000;

/// How many full blocks with words above 32 bits there are.
const SUMS: usize = 40;

/// How many calls of Bench there are.
const TEXTS: usize = 40_000;

/// How many records a file has before it is damaged: mostly few, sometimes any number, sometimes
/// about the limit of 1,024.
fn random_length(random: &mut Random) -> usize {
    match random.below(32) {
        0 => random.below(1024),
        1 => 1020 + random.below(10),
        _ => random.below(80),
    }
}

/// A random block, which both implementations must accept unless it is empty or too long.
fn random_block(random: &mut Random) -> Vec<u8> {
    let records = random_length(random);
    if records == 0 {
        return Vec::new();
    }
    let shape = Shape::random(random, records);
    let file = shape.block(random).concat();
    let expected = if records <= 1024 {
        Ok(Counts {
            nets: records as u64,
            inputs: shape.inputs as u64,
        })
    } else {
        Err(Refusal {
            number: 2,
            place: 0,
        })
    };
    assert_eq!(read(&file), expected);
    assert_eq!(second::read(&file), expected);
    file
}

fn random_file(random: &mut Random) -> Vec<u8> {
    if random.below(64) == 0 {
        return noise(random);
    }
    let mut file = random_block(random);
    for _ in 0..random.pick(&[0, 1, 1, 1, 2, 4]) {
        damage(random, &mut file);
    }
    file
}

#[test]
fn random_and_damaged_files() {
    let mut random = Random::new(1);
    let mut reached = [0; 11];
    for turn in 0..FILES {
        let file = random_file(&mut random);
        let answer = read(&file);
        assert_eq!(answer, second::read(&file), "file {turn}: {file:?}");
        let number = answer.map_or_else(|refusal| refusal.number, |_| 0);
        reached[number as usize] += 1;
    }
    println!("accepted, then refusals 1 to 10: {reached:?}");
    assert!(reached[0] >= 40_000, "accepted too seldom: {reached:?}");
    assert!(
        reached.iter().all(|&times| times >= 2_000),
        "a refusal was reached too seldom: {reached:?}"
    );
}

/// A random block for Envelope and Simulate: mostly small, sometimes any, sometimes full.
fn block_of_any_size(random: &mut Random) -> Vec<Record> {
    let records = match random.below(32) {
        0 => 1024,
        1 | 2 => 1 + random.below(1024),
        _ => 1 + random.below(100),
    };
    let shape = Shape::random(random, records);
    block_of(random, &shape)
}

/// A random block of the shape, sometimes with low peaks.
fn block_of(random: &mut Random, shape: &Shape) -> Vec<Record> {
    let mut block = shape.block(random);
    if random.below(4) == 0 {
        lower_peaks(&mut block);
    }
    block
}

/// Random accepted arguments, of which some are spoilt.
fn random_arguments(random: &mut Random) -> Arguments {
    let block = block_of_any_size(random);
    let mut arguments = Arguments::random(random, &block);
    while random.below(6) == 0 {
        spoil(random, &mut arguments);
    }
    arguments
}

/// Makes a call in both implementations, which have to agree.
fn agreed<Answer: Copy + Debug + PartialEq>(
    call: Operation<Answer>,
    arguments: &Arguments,
    turn: usize,
) -> Compared<Answer> {
    match comparison::compare(&[LIBRARY, SECOND], call, arguments) {
        Ok(compared) => compared,
        Err(difference) => panic!("call {turn}: {difference}"),
    }
}

/// The answer to a call, on which both implementations have to agree.
fn compare<Answer: Copy + Debug + PartialEq>(
    call: Operation<Answer>,
    arguments: &Arguments,
    turn: usize,
) -> Result<Answer, Refusal> {
    agreed(call, arguments, turn).answer
}

/// Counts the accepted calls and the refusals by their numbers.
fn count<Answer>(reached: &mut [usize; 20], answer: Result<Answer, Refusal>) {
    let number = answer.map_or_else(|refusal| refusal.number, |_| 0);
    reached[number as usize] += 1;
}

#[test]
fn random_envelopes() {
    let mut random = Random::new(2);
    let mut reached = [0; 20];
    let (mut hops_mattered, mut overlaps) = (0, 0);
    for turn in 0..CALLS {
        let arguments = random_arguments(&mut random);
        let answer = compare(Arguments::envelope, &arguments, turn);
        count(&mut reached, answer);
        if answer.is_ok() {
            let overlap = second::envelope_overlaps(&arguments.file, arguments.hop_limit);
            overlaps += usize::from(overlap);
        }
        if answer.is_ok() && turn % 8 == 0 {
            let mut few = arguments.clone();
            let mut many = arguments.clone();
            many.hop_limit = 16;
            few.envelope(&SECOND).expect("accepted");
            many.envelope(&SECOND).expect("accepted");
            hops_mattered += usize::from(few.sheet != many.sheet);
        }
    }
    println!(
        "accepted, then refusals 1 to 19: {reached:?}; hop limits mattered {hops_mattered} times; \
         pulses overlap in {overlaps} blocks"
    );
    for number in [0, 11, 12, 15] {
        assert!(reached[number] >= 20, "reached too seldom: {reached:?}");
    }
    assert!(
        hops_mattered >= 50,
        "hop limits mattered {hops_mattered} times"
    );
    assert!(overlaps >= 1_000, "pulses overlap in {overlaps} blocks");
}

/// The arguments with the greatest peak in place of every other above 0, so that no pulse is rounded to 0.
fn with_the_greatest_peaks(arguments: &Arguments) -> Arguments {
    let mut arguments = arguments.clone();
    for record in arguments.file.as_chunks_mut::<RECORD_BYTES>().0 {
        for peak in record[14..18].as_chunks_mut::<2>().0 {
            if *peak != [0, 0] {
                *peak = [255, 255];
            }
        }
    }
    arguments
}

#[test]
fn random_simulations() {
    let mut random = Random::new(3);
    let mut reached = [0; 20];
    let (mut rounding_mattered, mut with_halves, mut overlaps) = (0, 0, 0);
    for turn in 0..CALLS {
        let arguments = random_arguments(&mut random);
        let answer = compare(Arguments::simulate, &arguments, turn);
        count(&mut reached, answer);
        let mut records = arguments.file.as_chunks().0.iter();
        with_halves += usize::from(answer.is_ok() && records.any(has_half));
        if answer.is_ok() {
            let overlap = second::simulation_overlaps(&arguments.file, &arguments.pattern);
            overlaps += usize::from(overlap);
        }
        if let (Ok(currents), 0) = (answer, turn % 8) {
            let mut greatest = with_the_greatest_peaks(&arguments);
            let later = greatest.simulate(&SECOND).expect("accepted").quiet;
            rounding_mattered += usize::from(currents.quiet < later);
        }
    }
    println!(
        "accepted, then refusals 1 to 19: {reached:?}; \
         a quiet tick is earlier by rounding {rounding_mattered} times; \
         {with_halves} blocks have a pulse with an exact half; \
         pulses overlap in {overlaps} blocks"
    );
    for number in [0, 12, 15, 16] {
        assert!(reached[number] >= 20, "reached too seldom: {reached:?}");
    }
    assert!(
        rounding_mattered >= 10,
        "rounding mattered {rounding_mattered} times"
    );
    assert!(
        with_halves >= 1_000,
        "{with_halves} blocks have a pulse with an exact half"
    );
    assert!(overlaps >= 500, "pulses overlap in {overlaps} blocks");
}

/// Full blocks with words above 32 bits, through all operations.
#[test]
fn random_sums() {
    let mut random = Random::new(6);
    let operations: [Operation<Currents>; 2] = [Arguments::envelope, Arguments::simulate];
    let mut wide = [0; 3];
    let mut count_wide = |operation: usize, arguments: &Arguments| {
        let above = arguments
            .sheet
            .iter()
            .any(|&word| word > Word::from(u32::MAX));
        wide[operation] += usize::from(above);
    };
    for turn in 0..SUMS {
        let block = block_of_sums(&mut random);
        let arguments = Arguments::random_up_to(7, &mut random, &block);
        for (place, call) in operations.into_iter().enumerate() {
            count_wide(place, &agreed(call, &arguments, turn).after);
        }
        count_wide(2, &agreed(Arguments::search, &arguments, turn).after);
    }
    println!("words above 32 bits in envelopes, simulations, searches: {wide:?}");
    assert!(wide.iter().all(|&times| times >= SUMS / 4), "{wide:?}");
}

/// A random block for Search: mostly small, since a search makes many evaluations.
fn block_to_search(random: &mut Random) -> Vec<Record> {
    let shape = if random.below(8) == 0 {
        let records = 1 + random.below(200);
        Shape::random(random, records)
    } else {
        Shape::to_search(random)
    };
    block_of(random, &shape)
}

/// Random arguments of Search, of which some are spoilt. Every buffer holds noise.
fn random_search(random: &mut Random) -> Arguments {
    let block = block_to_search(random);
    let mut arguments = Arguments::random(random, &block);
    arguments.pattern.fill_with(|| random.byte(0, 255));
    while random.below(8) == 0 {
        spoil(random, &mut arguments);
    }
    arguments
}

#[test]
fn random_searches() {
    let mut random = Random::new(4);
    let mut reached = [0; 20];
    let mut outcomes = [0; 3];
    let mut after_splits = [0; 3];
    let mut ended_earlier = 0;
    for turn in 0..SEARCHES {
        let arguments = random_search(&mut random);
        let answer = compare(Arguments::search, &arguments, turn);
        count(&mut reached, answer);
        if let Ok(found) = answer {
            outcomes[found.outcome as usize] += 1;
            after_splits[found.outcome as usize] += usize::from(found.splits > 0);
            let of_the_frame = arguments.clone().envelope(&SECOND);
            let quiet = of_the_frame.expect("accepted").quiet;
            ended_earlier += usize::from(0 < found.quiet && found.quiet < quiet);
        }
    }
    println!("accepted, then refusals 1 to 19: {reached:?}");
    println!("exact, within, spent: {outcomes:?}, after a split: {after_splits:?}");
    println!("quiet ticks before the envelope's: {ended_earlier}");
    for number in [11, 12, 13, 14, 15, 19] {
        assert!(reached[number] >= 10, "reached too seldom: {reached:?}");
    }
    assert!(
        after_splits.iter().all(|&times| times >= 50),
        "an outcome came too seldom after a split: {after_splits:?}"
    );
    assert!(
        ended_earlier >= 100,
        "the sheet hardly ever ended before the envelope's"
    );
}

/// The lists of both makers, for blocks of which some have no undecided input, and one or several.
#[test]
fn random_orders() {
    let mut random = Random::new(6);
    let mut reached = [[0; 20]; 2];
    let mut moved = [0; 2];
    for turn in 0..SEARCHES {
        let arguments = random_search(&mut random);
        let makers: [Operation<u64>; 2] = [Arguments::cone_order, Arguments::bound_order];
        for (maker, call) in makers.into_iter().enumerate() {
            let Compared { answer, after } = agreed(call, &arguments, turn);
            count(&mut reached[maker], answer);
            let inputs = answer.unwrap_or(0) as usize;
            moved[maker] += usize::from(!after.made[..inputs].is_sorted());
        }
    }
    println!("accepted, then refusals 1 to 19, by cones and by bounds: {reached:?}");
    println!("lists that are not by net: {moved:?}");
    for number in [0, 11, 12, 15] {
        assert!(reached[1][number] >= 10, "reached too seldom: {reached:?}");
    }
    assert!(reached[0][0] > reached[1][0], "{reached:?}");
    assert!(moved.iter().all(|&times| times >= 100), "{moved:?}");
}

/// How many records a text has before it is damaged: mostly few, seldom about as many as there can be.
fn records_of_a_text(random: &mut Random) -> usize {
    match random.below(128) {
        0 => 1020 + random.below(10),
        1 | 2 => 1 + random.below(1024),
        _ => 1 + random.below(24),
    }
}

#[test]
fn random_texts() {
    let mut random = Random::new(5);
    let mut reached = [0; 20];
    let mut arguments = Arguments::new(&[]);
    for turn in 0..TEXTS {
        let records = records_of_a_text(&mut random);
        lend_random_text(&mut random, records, &mut arguments);
        let answer = compare(Arguments::bench, &arguments, turn);
        count(&mut reached, answer);
    }
    println!("accepted, then refusals 1 to 19: {reached:?}");
    for number in [0, 2, 3, 5, 9, 10, 15, 17, 18] {
        assert!(reached[number] >= 50, "reached too seldom: {reached:?}");
    }
    let others = [1, 4, 6, 7, 8, 11, 12, 13, 14, 16, 19];
    assert!(others.iter().all(|&number| reached[number] == 0));
}

/// Compares searches of the largest block, 64 inputs and 960 gates, that spend this budget.
fn search_the_largest_block(budget: u64) {
    let [(_, arguments), _] = full_blocks();
    let arguments = arguments.with_budget(budget);
    let found = compare(Arguments::search, &arguments, 0).expect("accepted");
    assert_eq!(found.outcome, Outcome::Spent);
    assert_eq!(found.splits, budget);
}

#[test]
fn largest_block() {
    search_the_largest_block(20);
}

/// `cargo test --manifest-path rust/Cargo.toml -p check -- --ignored` runs it.
#[test]
#[ignore = "takes ten minutes"]
fn largest_block_and_budget() {
    search_the_largest_block(10_000);
}
