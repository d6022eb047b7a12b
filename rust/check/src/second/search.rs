//! Search: takes file, hop limit, table, ratio, budget, list of inputs, sheet,
//! pattern, work buffer and case store, and returns outcome, U, L, splits, cases and
//! quiet tick, or the first refusal that applies.

use super::arguments::{
    check_budget, check_hop_limit, check_order, check_pattern_length, check_ratio, check_sheet,
    check_store, check_table, check_work,
};
use super::block::records;
use super::current::{quiet_tick, SHEET_WORDS};
use super::evaluation::Block;
use super::excitation::Excitation;
use super::frame::Frame;
use super::read::read;
use zimgurav::{Found, Outcome, Refusal, Word};

/// The length of a case's record: 64 bytes of input sets and 8 of its upper number.
pub const CASE_BYTES: usize = 72;

/// Where the upper number stands in a case's record.
const UPPER_AT: usize = 64;

/// Searches the file's block. Writes what it found into the sheet, the pattern and
/// the case store. Of the work buffer only the size matters here.
#[allow(clippy::too_many_arguments)]
pub fn search(
    file: &[u8],
    hop_limit: u64,
    table: &[u16],
    ratio: u64,
    budget: u64,
    order: &[u8],
    sheet: &mut [Word],
    pattern: &mut [u8],
    work: &mut [u8],
    store: &mut [u8],
) -> Result<Found, Refusal> {
    let counts = read(file)?;
    check_hop_limit(hop_limit)?;
    check_table(table)?;
    check_ratio(ratio)?;
    check_budget(budget)?;
    check_order(order, counts)?;
    check_sheet(sheet)?;
    check_pattern_length(pattern)?;
    check_work(work, counts)?;
    check_store(store, budget)?;

    let block = Block {
        records: &records(file),
        hop_limit,
        table,
    };
    let mut search = Search::start(&block, order);
    let outcome = search.run(ratio, budget);
    write_pattern(search.best_probe(), pattern);
    write_sheet(&block, &search.cases, sheet);
    write_store(&search.cases, store);
    Ok(search.found(outcome, quiet_tick(sheet)))
}

/// A case: a frame inside the block's, and its upper number.
struct Case {
    frame: Frame,
    upper: u64,
}

impl Case {
    /// The case's record: 64 bytes of input sets, 0 past the inputs, and its upper
    /// number, 8 bytes, low first.
    fn record(&self) -> [u8; CASE_BYTES] {
        let mut record = [0; CASE_BYTES];
        for (byte, set) in record.iter_mut().zip(&self.frame.sets) {
            *byte = set.code();
        }
        record[UPPER_AT..].copy_from_slice(&self.upper.to_le_bytes());
        record
    }
}

/// A probe that was simulated.
struct Probe {
    pattern: Vec<Excitation>,
    drop: u64,
}

/// A search on its way.
struct Search<'a> {
    block: &'a Block<'a>,
    /// The inputs in the order to be split.
    order: &'a [u8],
    /// The cases not split, in the order of the store.
    cases: Vec<Case>,
    /// The probes of all cases made, in the order in which they were.
    probes: Vec<Probe>,
    /// How many cases were split.
    splits: u64,
}

impl<'a> Search<'a> {
    /// The first case is the whole frame.
    fn start(block: &'a Block<'a>, order: &'a [u8]) -> Search<'a> {
        let frame = Frame::of_block(block.records);
        let mut search = Search {
            block,
            order,
            cases: Vec::new(),
            probes: Vec::new(),
            splits: 0,
        };
        // Without a parent, nothing is above its upper number.
        let first = search.make_case(frame, u64::MAX);
        search.cases.push(first);
        search
    }

    /// Makes a case. Each case made simulates its probe.
    fn make_case(&mut self, frame: Frame, upper_of_parent: u64) -> Case {
        let mut sheet = vec![0; SHEET_WORDS];
        let pattern = frame.probe();
        let drop = self.block.simulate(&pattern, &mut sheet);
        self.probes.push(Probe { pattern, drop });
        let upper = self.block.upper(&frame, upper_of_parent);
        Case { frame, upper }
    }

    /// Splits cases until there is an outcome.
    fn run(&mut self, ratio: u64, budget: u64) -> Outcome {
        loop {
            if let Some(outcome) = self.outcome(ratio, budget) {
                return outcome;
            }
            self.split();
        }
    }

    /// Before each split: exact if U = L; else within if 1000 × U ≤ ratio × L; else
    /// spent if splits = budget.
    fn outcome(&self, ratio: u64, budget: u64) -> Option<Outcome> {
        let (upper, lower) = (self.upper(), self.lower());
        if upper == lower {
            Some(Outcome::Exact)
        } else if 1000 * upper <= ratio * lower {
            Some(Outcome::Within)
        } else if self.splits == budget {
            Some(Outcome::Spent)
        } else {
            None
        }
    }

    /// The answer: outcome, U, L, splits, cases and quiet tick.
    fn found(&self, outcome: Outcome, quiet: u64) -> Found {
        Found {
            outcome,
            upper: self.upper(),
            lower: self.lower(),
            splits: self.splits,
            cases: self.cases.len() as u64,
            quiet,
        }
    }

    /// U is the greatest upper number of the cases not split.
    fn upper(&self) -> u64 {
        let uppers = self.cases.iter().map(|case| case.upper);
        uppers.max().expect("there is a case")
    }

    /// L is the greatest probe drop.
    fn lower(&self) -> u64 {
        let drops = self.probes.iter().map(|probe| probe.drop);
        drops.max().expect("there is a probe")
    }

    /// The pattern is the first probe to reach L.
    fn best_probe(&self) -> &[Excitation] {
        let lower = self.lower();
        let mut reaching = self.probes.iter().filter(|probe| probe.drop == lower);
        &reaching.next().expect("a probe reaches L").pattern
    }

    /// Splits the first case whose upper number is U. The first of its children
    /// takes the parent's place, the rest are appended.
    fn split(&mut self) {
        let upper = self.upper();
        let mut cases = self.cases.iter();
        let place = cases.position(|case| case.upper == upper);
        let place = place.expect("a case has U");
        let parent = &self.cases[place].frame;
        let input = self.input_to_split(parent);
        for (child, frame) in parent.split_at(input).into_iter().enumerate() {
            let case = self.make_case(frame, upper);
            if child == 0 {
                self.cases[place] = case;
            } else {
                self.cases.push(case);
            }
        }
        self.splits += 1;
    }

    /// The search splits a case at its first undecided input in the list's order.
    fn input_to_split(&self, frame: &Frame) -> usize {
        let mut inputs = self.order.iter().copied().map(usize::from);
        let first = inputs.find(|&input| frame.is_undecided(input));
        first.expect("a case to split is undecided")
    }
}

/// Writes the pattern. The bytes past the inputs are unchanged.
fn write_pattern(excitations: &[Excitation], pattern: &mut [u8]) {
    for (byte, excitation) in pattern.iter_mut().zip(excitations) {
        *byte = excitation.pattern_byte();
    }
}

/// Writes the greatest, at each place, over the sheets of the cases.
fn write_sheet(block: &Block, cases: &[Case], sheet: &mut [Word]) {
    sheet.fill(0);
    let mut of_case = vec![0; SHEET_WORDS];
    for case in cases {
        block.evaluate(&case.frame, &mut of_case);
        for (greatest, &word) in sheet.iter_mut().zip(&of_case) {
            *greatest = word.max(*greatest);
        }
    }
}

/// Writes the records of the cases. The bytes past them are unchanged.
fn write_store(cases: &[Case], store: &mut [u8]) {
    for (place, case) in store.chunks_exact_mut(CASE_BYTES).zip(cases) {
        place.copy_from_slice(&case.record());
    }
}
