//! The time of Read on full blocks: the library beside the second implementation.

use std::hint::black_box;
use std::time::Duration;

use check::measure::{median, ratio, thread_time};
use check::sample::{gate, input, Random, Record, Shape};
use check::second;
use zimgurav::kind::{BUF, NOT};
use zimgurav::{read, Counts, Refusal};

const ROUNDS: usize = 501;
const READS: u32 = 20;

/// 64 inputs and 960 gates of every kind and pin count.
fn mixed() -> Vec<Record> {
    let shape = Shape {
        inputs: 64,
        gates: 960,
        reach: 1024,
        delay: 6,
        slope: 127,
    };
    shape.block(&mut Random::new(1))
}

/// 4 inputs, each at the head of a chain of 255 gates.
fn chains() -> Vec<Record> {
    let inputs = (0..4).map(|_| input(15));
    let gates = (4..1024).map(|net| gate(if net % 8 < 4 { NOT } else { BUF }, &[net - 4]));
    inputs.chain(gates).collect()
}

/// The time of one read, taken over several.
fn time(read: impl Fn(&[u8]) -> Result<Counts, Refusal>, file: &[u8]) -> Duration {
    let start = thread_time();
    for _ in 0..READS {
        let answer = read(black_box(file));
        assert!(black_box(answer).is_ok());
    }
    (thread_time() - start) / READS
}

/// Times both in turn, so that what slows the machine slows both.
fn compare(name: &str, block: &[Record]) {
    let file = block.concat();
    let rounds = (0..ROUNDS).map(|_| (time(read, &file), time(second::read, &file)));
    let (library, second): (Vec<_>, Vec<_>) = rounds.unzip();
    let (library, second) = (median(library), median(second));
    let ratio = ratio(library, second);
    println!("read, {name}: library {library:.2?}, second {second:.2?}, ratio {ratio:.2}");
}

fn main() {
    compare("1,024 records of every kind", &mixed());
    compare("1,024 records in four chains", &chains());
}
