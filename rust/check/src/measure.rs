//! Times of Envelope, Simulate, Search, Bench and the makers of a list of inputs, taken of several implementations in
//! turn.

use std::fs;
use std::hint::black_box;
use std::path::Path;
use std::time::Duration;

use crate::implementation::{Implementation, Operation, LIBRARY, SECOND};
use crate::sample::{cone_list, Arguments, Random, Record, Shape};
use zimgurav::{Currents, Found, Refusal};

/// The clock of the time for which a thread has run, on x86-64 Linux.
const CLOCK_THREAD_CPUTIME_ID: i32 = 3;

extern "C" {
    fn clock_gettime(clock: i32, time: *mut [u64; 2]) -> i32;
}

/// How often the implementations are called.
#[derive(Clone, Copy)]
pub struct Turns {
    /// How often each implementation has its turn; an odd number, for the median.
    pub rounds: usize,
    /// How often it is called in a turn, so that none is timed with what another has left in the
    /// caches.
    pub calls: u32,
}

/// Two full blocks with 10 hops, 16 nodes, ratio 1,000, the inputs in the order of their cones and a random pattern, by
/// their names.
pub fn full_blocks() -> [(&'static str, Arguments); 2] {
    let wide = Shape {
        inputs: 64,
        gates: 960,
        reach: 1024,
        delay: 6,
        slope: 20,
    };
    let deep = Shape {
        inputs: 64,
        gates: 960,
        reach: 64,
        delay: 20,
        slope: 60,
    };
    [
        ("1,024 records, wide", arguments(&wide)),
        ("1,024 records, deep", arguments(&deep)),
    ]
}

/// A random block of the shape, with a table of 16 nodes.
fn arguments(shape: &Shape) -> Arguments {
    let mut random = Random::new(1);
    let block = shape.block(&mut random);
    with_table(&mut random, &block, (1..=256).collect())
}

/// The block `bench.blk` of a folder and its table `bench.tab`, with 10 hops, ratio 1,000, the inputs in
/// the order of their cones and a random pattern.
pub fn bench_block(folder: &Path) -> Arguments {
    let read = |name| fs::read(folder.join(name)).expect("a file of the folder");
    let (file, table) = (read("bench.blk"), read("bench.tab"));
    let words = table.as_chunks::<2>().0.iter();
    let table = words.copied().map(u16::from_le_bytes).collect();
    with_table(&mut Random::new(1), file.as_chunks().0, table)
}

/// The block and the table, with 10 hops, ratio 1,000, the inputs in the order of their cones and a random
/// pattern.
fn with_table(random: &mut Random, block: &[Record], table: Vec<u16>) -> Arguments {
    let mut arguments = Arguments::random(random, block);
    arguments.hop_limit = 10;
    arguments.table = table;
    arguments.ratio = 1_000;
    arguments.order = cone_list(&arguments.file);
    arguments
}

/// Prints the median times of Envelope and Simulate, and the ratio of the first implementation's to
/// each of the others'.
pub fn compare(name: &str, arguments: &Arguments, implementations: &[Implementation]) {
    let operations: [(&str, Operation<Currents>); 2] = [
        ("envelope", Arguments::envelope),
        ("simulate", Arguments::simulate),
    ];
    for (operation, call) in operations {
        let name = format!("{operation}, {name}");
        compare_operation(&name, call, arguments, implementations);
    }
}

/// Prints the median times of an operation, and the ratio of the first implementation's to each of the
/// others'.
pub fn compare_operation<Answer: Copy + PartialEq>(
    name: &str,
    call: Operation<Answer>,
    arguments: &Arguments,
    implementations: &[Implementation],
) {
    let turns = Turns {
        rounds: 31,
        calls: 10,
    };
    for (_, times) in medians(&[arguments], implementations, call, turns) {
        print!("{name}:");
        print_times(implementations, &times);
        println!();
    }
}

/// Prints the median times of Search with each of the budgets, the ratio of the first
/// implementation's to each of the others', and the first one's time for a split.
pub fn compare_searches(
    name: &str,
    call: Operation<Found>,
    arguments: &Arguments,
    budgets: &[u64],
    implementations: &[Implementation],
) {
    for &budget in budgets {
        let arguments = arguments.clone().with_budget(budget);
        let rounds = if budget <= 1_000 { 3 } else { 1 };
        let turns = Turns { rounds, calls: 1 };
        for (found, times) in medians(&[&arguments], implementations, call, turns) {
            print!("search, {name}, budget {budget}, {}:", found.outcome);
            print_times(implementations, &times);
            let splits = found.splits.max(1) as u32;
            println!(", {:.2?} a split", times[0] / splits);
        }
    }
}

/// Prints the median times of the makers of a list of inputs, and the ratio of the first implementation's
/// to each of the others'.
pub fn compare_makers(name: &str, arguments: &Arguments, implementations: &[Implementation]) {
    let makers: [(&str, Operation<u64>); 2] = [
        ("cone order", Arguments::cone_order),
        ("bound order", Arguments::bound_order),
    ];
    let turns = Turns {
        rounds: 3,
        calls: 1,
    };
    for (maker, call) in makers {
        for (_, times) in medians(&[arguments], implementations, call, turns) {
            print!("{maker}, {name}:");
            print_times(implementations, &times);
            println!();
        }
    }
}

/// Arguments of several sizes along one axis, the smallest first, with all else fixed.
pub struct Axis {
    /// What grows along it.
    pub name: &'static str,
    /// Each size, and the arguments of that size.
    pub sizes: Vec<(usize, Arguments)>,
}

/// Prints how an operation's time grows along an axis: for each size, the library's time as a ratio of
/// its time with the smallest size, and as a ratio of the second implementation's.
pub fn compare_sizes<Answer: Copy + PartialEq>(
    operation: &str,
    call: Operation<Answer>,
    axis: &Axis,
    turns: Turns,
) {
    let several: Vec<_> = axis.sizes.iter().map(|(_, arguments)| arguments).collect();
    let medians = medians(&several, &[LIBRARY, SECOND], call, turns);
    let smallest = medians[0].1[0];
    println!("{operation}, {}: of the smallest, of the second", axis.name);
    for ((size, _), (_, times)) in axis.sizes.iter().zip(&medians) {
        let growth = ratio(times[0], smallest);
        println!("{size:>7} {growth:>8.2} {:>8.3}", ratio(times[0], times[1]));
    }
}

/// Prints the implementations' times, and the ratio of the first one's to each.
fn print_times(implementations: &[Implementation], times: &[Duration]) {
    for (implementation, time) in implementations.iter().zip(times) {
        let ratio = ratio(times[0], *time);
        print!(" {} {time:.2?} ({ratio:.2})", implementation.name);
    }
}

/// The calls of one implementation with one set of arguments.
struct Calls<Answer> {
    lent: Arguments,
    answers: Vec<Result<Answer, Refusal>>,
    times: Vec<Duration>,
}

impl<Answer> Calls<Answer> {
    fn new(arguments: &Arguments) -> Self {
        Calls {
            lent: arguments.clone(),
            answers: Vec::new(),
            times: Vec::new(),
        }
    }

    /// One turn: calls the implementation, and keeps the last answer and the time of a call.
    fn turn(&mut self, implementation: &Implementation, call: Operation<Answer>, calls: u32) {
        let start = thread_time();
        for _ in 1..calls {
            let _ = black_box(call(black_box(&mut self.lent), implementation));
        }
        let answer = call(black_box(&mut self.lent), implementation);
        self.times.push((thread_time() - start) / calls);
        self.answers.push(answer);
    }
}

/// Calls the implementations in turn with each of the arguments, so that what slows the machine slows
/// all, and returns for each of the arguments the answer and the median time of a call of each
/// implementation.
fn medians<Answer: Copy + PartialEq>(
    several: &[&Arguments],
    implementations: &[Implementation],
    call: Operation<Answer>,
    turns: Turns,
) -> Vec<(Answer, Vec<Duration>)> {
    let calls_with = |arguments: &&Arguments| {
        let calls = implementations.iter().map(|_| Calls::new(arguments));
        calls.collect::<Vec<_>>()
    };
    let mut calls: Vec<_> = several.iter().map(calls_with).collect();
    for _ in 0..turns.rounds {
        for each in &mut calls {
            for (implementation, calls) in implementations.iter().zip(each) {
                calls.turn(implementation, call, turns.calls);
            }
        }
    }
    calls.into_iter().map(agreed).collect()
}

/// The answer and the median time of each implementation. All of them have to answer and write the
/// same.
fn agreed<Answer: Copy + PartialEq>(mut calls: Vec<Calls<Answer>>) -> (Answer, Vec<Duration>) {
    for each in &mut calls {
        each.lent.work.clear();
    }
    let first = &calls[0];
    let answer = first.answers[0];
    let mut answers = calls.iter().flat_map(|each| &each.answers);
    assert!(answers.all(|&each| each == answer), "one answer");
    let same = calls.iter().all(|each| each.lent == first.lent);
    assert!(same, "one content of each buffer");
    let medians = calls.into_iter().map(|each| median(each.times));
    (answer.expect("accepted"), medians.collect())
}

/// How long this thread has run. What the machine did for others meanwhile is not in it.
pub fn thread_time() -> Duration {
    let mut time = [0; 2];
    // SAFETY: the clock writes two numbers of 64 bits, seconds and nanoseconds.
    let status = unsafe { clock_gettime(CLOCK_THREAD_CPUTIME_ID, &mut time) };
    assert_eq!(status, 0, "the thread's clock");
    Duration::from_secs(time[0]) + Duration::from_nanos(time[1])
}

pub fn ratio(time: Duration, other: Duration) -> f64 {
    time.as_secs_f64() / other.as_secs_f64()
}

pub fn median(mut times: Vec<Duration>) -> Duration {
    times.sort();
    times[times.len() / 2]
}
