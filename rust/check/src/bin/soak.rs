//! Compares the proved library with the second implementation on random blocks, until the time or the
//! number of blocks is over or the two differ.
//!
//! `./soak` at the repository's root builds the library and runs it.

use std::env;
use std::fs;
use std::path::Path;
use std::process::ExitCode;
use std::time::Duration;

use check::implementation::{LIBRARY, SECOND};
use check::sample::Arguments;
use check::soak::{soak, Difference};

const USAGE: &str = "usage: ./soak [--seconds S] [--count N] [--seed X] [--only K]";

/// Where the block of a difference is written.
const FOLDER: &str = concat!(env!("CARGO_MANIFEST_DIR"), "/../../target/soak");

/// What the command line asks for.
struct Options {
    seconds: u64,
    count: u64,
    seed: u64,
    /// The number of the one block to compare.
    only: Option<u64>,
}

/// The options of the command line: each a name and a number.
fn options(arguments: &[String]) -> Option<Options> {
    let mut options = Options {
        seconds: 60,
        count: 1_000_000,
        seed: 1,
        only: None,
    };
    for pair in arguments.chunks(2) {
        let [name, number] = pair else { return None };
        let number = number.parse().ok()?;
        match name.as_str() {
            "--seconds" => options.seconds = number,
            "--count" => options.count = number,
            "--seed" => options.seed = number,
            "--only" => options.only = Some(number),
            _ => return None,
        }
    }
    Some(options)
}

fn main() -> ExitCode {
    let arguments: Vec<String> = env::args().skip(1).collect();
    let Some(options) = options(&arguments) else {
        eprintln!("{USAGE}");
        return ExitCode::from(2);
    };
    let seed = options.seed;
    let numbers = match options.only {
        Some(number) => number..number.saturating_add(1),
        None => 0..options.count,
    };
    println!("seed      {seed}");
    let time = Duration::from_secs(options.seconds);
    let (coverage, difference) = soak(&[LIBRARY, SECOND], seed, numbers, time);
    println!("{coverage}");
    let Some(difference) = difference else {
        println!("no difference");
        return ExitCode::SUCCESS;
    };
    report(seed, &difference);
    ExitCode::FAILURE
}

/// Prints a difference and how to see it again, and writes its block, text and other arguments.
fn report(seed: u64, difference: &Difference) {
    let number = difference.number;
    println!("difference in block {number}: {}", difference.seen);
    println!("again: ./soak --seed {seed} --only {number}");
    let folder = Path::new(FOLDER);
    let name = format!("seed{seed}_block{number}");
    let arguments = &difference.arguments;
    let write = |kind: &str, bytes: &[u8]| fs::write(folder.join(format!("{name}.{kind}")), bytes);
    let written = fs::create_dir_all(folder)
        .and_then(|()| write("blk", &arguments.file))
        .and_then(|()| write("bench", &arguments.text))
        .and_then(|()| write("txt", described(arguments).as_bytes()));
    match written {
        Ok(()) => println!("written: target/soak/{name}.blk, {name}.bench and {name}.txt"),
        Err(error) => eprintln!("{name} was not written: {error}"),
    }
}

/// The arguments beside file and text. What the buffers hold follows from seed and number.
fn described(arguments: &Arguments) -> String {
    format!(
        "hop limit {}\nratio {}\nbudget {}\ntable {:?}\nlist of inputs {:?}\npattern {:?}\nsheet {} words\n\
         work buffer {} bytes\ncase store {} bytes\nlist {:?}\nrecord buffer {} bytes\n",
        arguments.hop_limit,
        arguments.ratio,
        arguments.budget,
        arguments.table,
        arguments.order,
        arguments.pattern,
        arguments.sheet.len(),
        arguments.work.len(),
        arguments.store.len(),
        arguments.list,
        arguments.records.len(),
    )
}
