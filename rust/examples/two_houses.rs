//! One house searches a block for a ceiling; the other simulates the worst pattern that the search handed over.

use std::env;
use std::fs;
use std::process::ExitCode;

use zimgurav::{
    store_bytes, work_bytes, Refusal, CONTACTS, ORDER_BYTES, PATTERN_BYTES, ROW_TICKS, SHEET_WORDS,
};

/// One bus node, with a resistance of 1 milliohm to each contact.
const TABLE: [u16; CONTACTS] = [1; CONTACTS];

fn main() -> ExitCode {
    let arguments: Vec<_> = env::args_os().skip(1).collect();
    let [path] = arguments.as_slice() else {
        eprintln!("usage: two_houses FILE");
        return ExitCode::from(2);
    };
    let file = match fs::read(path) {
        Ok(file) => file,
        Err(error) => {
            eprintln!("{}: {error}", path.display());
            return ExitCode::from(2);
        }
    };
    if let Err(refusal) = compare(&file) {
        println!("{refusal}");
    }
    ExitCode::SUCCESS
}

/// The list of the inputs, that with most gates in its fan-out cone first.
fn by_cones(file: &[u8]) -> Result<Vec<u8>, Refusal> {
    let mut order = [0; ORDER_BYTES];
    let inputs = zimgurav::cone_order(file, &mut order)?;
    Ok(order[..inputs as usize].to_vec())
}

fn compare(file: &[u8]) -> Result<(), Refusal> {
    let counts = zimgurav::read(file)?;
    let budget = 200;
    let mut ceiling = vec![0; SHEET_WORDS];
    let mut pattern = [0; PATTERN_BYTES];
    let mut work = vec![0; work_bytes(counts.nets)];
    let mut store = vec![0; store_bytes(budget)];
    let found = zimgurav::search(
        file,
        10,
        &TABLE,
        1000,
        budget,
        &by_cones(file)?,
        &mut ceiling,
        &mut pattern,
        &mut work,
        &mut store,
    )?;
    println!(
        "search: {}, U {}, L {}",
        found.outcome, found.upper, found.lower
    );

    let mut sheet = vec![0; SHEET_WORDS];
    let simulated = zimgurav::simulate(file, &TABLE, &mut sheet, &pattern, &mut work)?;
    println!("the pattern handed over drops {}", simulated.drop);
    let rows = sheet.chunks(ROW_TICKS).zip(ceiling.chunks(ROW_TICKS));
    for (contact, (row, limits)) in rows.enumerate() {
        let peak = row.iter().max().unwrap_or(&0);
        let limit = limits.iter().max().unwrap_or(&0);
        if *limit > 0 {
            println!(
                "contact {contact}: it draws up to {peak}, and no pattern draws above {limit}"
            );
        }
    }
    Ok(())
}
