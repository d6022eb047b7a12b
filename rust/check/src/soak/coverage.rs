//! What a soak has covered.

use std::fmt;
use std::time::Duration;

use crate::sample::{has_half, Arguments, KIND_WORDS};
use zimgurav::kind::INPUT;
use zimgurav::{Counts, Found, Outcome, Refusal, Word, CONTACTS, RECORD_BYTES};

/// The operations, in the order in which their answers are counted.
pub const OPERATIONS: [&str; 7] = [
    "Read",
    "Envelope",
    "Simulate",
    "Search",
    "Bench",
    "Cone order",
    "Bound order",
];

/// The accepted calls of an operation, then its refusals by number.
type Answers = [u64; 20];

/// The least numbers of records of the size classes, and the classes' names.
const SIZES: [(usize, &str); 7] = [
    (0, "none"),
    (1, "1"),
    (2, "2 to 16"),
    (17, "17 to 100"),
    (101, "101 to 512"),
    (513, "513 to 1,024"),
    (1025, "more"),
];

/// The least numbers of inputs of the classes, and the classes' names.
const INPUTS: [(usize, &str); 5] = [
    (1, "1"),
    (2, "2 to 8"),
    (9, "9 to 32"),
    (33, "33 to 63"),
    (64, "64"),
];

/// The least numbers of bus nodes of the classes, and the classes' names.
const NODES: [(usize, &str); 4] = [(1, "1"), (2, "2 to 8"), (9, "9 to 15"), (16, "16")];

/// The least numbers of undecided inputs of the classes, and the classes' names.
const UNDECIDED: [(usize, &str); 5] = [
    (0, "0"),
    (1, "1"),
    (2, "2"),
    (3, "3 to 16"),
    (17, "17 to 64"),
];

/// What a list may be, by whether it is the one of the cones and whether it is the one of the bounds.
const LISTS: [&str; 4] = ["neither", "by cones", "by bounds", "by both"];

/// A sum of numbers and the greatest of them.
#[derive(Default)]
struct Total {
    sum: u64,
    greatest: u64,
}

impl Total {
    fn add(&mut self, number: u64) {
        self.sum += number;
        self.greatest = self.greatest.max(number);
    }
}

impl fmt::Display for Total {
    fn fmt(&self, f: &mut fmt::Formatter) -> fmt::Result {
        write!(f, "{}, greatest {}", self.sum, self.greatest)
    }
}

/// Counts of what the blocks and calls of a soak were like.
#[derive(Default)]
pub struct Coverage {
    pub blocks: u64,
    /// The time of all blocks.
    pub elapsed: Duration,
    /// The longest time of a block, and the block's number.
    pub longest: (Duration, u64),
    /// Patterns that were simulated and held against a search, but for those handed over.
    pub patterns: u64,
    /// Cases, in the stores at the end, whose upper number is their parent's and not their own.
    pub capped: u64,
    sizes: [u64; 7],
    answers: [Answers; 7],
    inputs: [u64; 5],
    kinds: [u64; 8],
    pins: [u64; 4],
    /// Gates with a pulse that has an exact half.
    halves: u64,
    nodes: [u64; 4],
    hop_limits: [u64; 16],
    /// Gates of accepted envelopes, and those of them that had a gap filled.
    gates: u64,
    filled: u64,
    /// Accepted envelopes, and accepted simulations, in which pulses of a gate overlap.
    overlaps: [u64; 2],
    /// Sheets of accepted calls, and those of them with a word above 32 bits.
    sheets: u64,
    wide: u64,
    /// By outcome: without a split and after one.
    outcomes: [[u64; 2]; 3],
    splits: Total,
    cases: Total,
    /// Lists of accepted searches.
    lists: [u64; 4],
    /// Undecided inputs of blocks whose bounds were tried, and the blocks in which two inputs tie.
    undecided: [u64; 5],
    ties: u64,
    /// Records of accepted texts.
    records: Total,
}

/// Counts a number in its class, the last whose least number it reaches.
fn count_in(classes: &[(usize, &str)], counts: &mut [u64], number: usize) {
    let reached = classes.iter().filter(|(least, _)| *least <= number);
    counts[reached.count() - 1] += 1;
}

impl Coverage {
    /// Counts the block of a call, and what it is made of where it is accepted.
    pub fn count_block(&mut self, call: &Arguments, read: Result<Counts, Refusal>) {
        let (records, _) = call.file.as_chunks::<RECORD_BYTES>();
        self.blocks += 1;
        count_in(&SIZES, &mut self.sizes, records.len());
        let Ok(counts) = read else { return };
        count_in(&INPUTS, &mut self.inputs, counts.inputs as usize);
        for gate in records.iter().filter(|record| record[0] != INPUT) {
            self.kinds[usize::from(gate[0]) - 2] += 1;
            self.pins[usize::from(gate[3]) - 1] += 1;
            self.halves += u64::from(has_half(gate));
        }
    }

    /// Counts the answer of the operation at this place of [`OPERATIONS`].
    pub fn count_answer<Answer>(&mut self, operation: usize, answer: &Result<Answer, Refusal>) {
        let number = answer.as_ref().map_or_else(|refusal| refusal.number, |_| 0);
        self.answers[operation][number as usize] += 1;
    }

    /// Counts an accepted envelope of which so many gates had a gap filled.
    pub fn count_envelope(&mut self, call: &Arguments, counts: Counts, filled: u64) {
        count_in(&NODES, &mut self.nodes, call.table.len() / CONTACTS);
        self.hop_limits[call.hop_limit as usize - 1] += 1;
        self.gates += counts.nets - counts.inputs;
        self.filled += filled;
    }

    /// Counts whether pulses overlap in an accepted envelope.
    pub fn count_envelope_overlap(&mut self, overlap: bool) {
        self.overlaps[0] += u64::from(overlap);
    }

    /// Counts whether pulses overlap in an accepted simulation.
    pub fn count_simulation_overlap(&mut self, overlap: bool) {
        self.overlaps[1] += u64::from(overlap);
    }

    /// Counts the sheet that an accepted call left.
    pub fn count_sheet(&mut self, sheet: &[Word]) {
        self.sheets += 1;
        self.wide += u64::from(sheet.iter().any(|&word| word > Word::from(u32::MAX)));
    }

    /// Counts an accepted search.
    pub fn count_search(&mut self, found: &Found) {
        self.outcomes[found.outcome as usize][usize::from(found.splits > 0)] += 1;
        self.splits.add(found.splits);
        self.cases.add(found.cases);
    }

    /// Counts the list of an accepted search: whether it is the one of the cones and whether it is the
    /// one of the bounds.
    pub fn count_list(&mut self, [by_cones, by_bounds]: [bool; 2]) {
        self.lists[usize::from(by_cones) + 2 * usize::from(by_bounds)] += 1;
    }

    /// Counts a block whose bounds were tried: by its undecided inputs, and whether two of them tie.
    pub fn count_tried(&mut self, call: &Arguments, tie: bool) {
        let (records, _) = call.file.as_chunks::<RECORD_BYTES>();
        let inputs = records.iter().take_while(|record| record[0] == INPUT);
        let undecided = inputs.filter(|input| input[18].count_ones() > 1).count();
        count_in(&UNDECIDED, &mut self.undecided, undecided);
        self.ties += u64::from(tie);
    }

    /// Counts an accepted text of so many records.
    pub fn count_text(&mut self, records: u64) {
        self.records.add(records);
    }
}

/// The counts of classes behind their names.
fn named<'a>(names: impl IntoIterator<Item = &'a str>, counts: &[u64]) -> String {
    let pairs = names.into_iter().zip(counts);
    let words: Vec<String> = pairs
        .map(|(name, count)| format!("{name}: {count}"))
        .collect();
    words.join(", ")
}

/// The counts of classes behind the classes' names.
fn classes(classes: &[(usize, &'static str)], counts: &[u64]) -> String {
    named(classes.iter().map(|(_, name)| *name), counts)
}

/// What overlapping pulses have covered, in two lines.
fn write_sums(f: &mut fmt::Formatter, coverage: &Coverage) -> fmt::Result {
    let [envelopes, simulations] = coverage.overlaps;
    let [of_envelopes, of_simulations] = [1, 2].map(|operation| coverage.answers[operation][0]);
    write!(
        f,
        "overlaps  of pulses in {envelopes} of {of_envelopes} envelopes, "
    )?;
    writeln!(f, "in {simulations} of {of_simulations} simulations")?;
    let (wide, sheets) = (coverage.wide, coverage.sheets);
    writeln!(f, "words     above 32 bits in {wide} of {sheets} sheets")
}

/// A line for each operation: the accepted calls, then the refusals by number.
fn write_answers(f: &mut fmt::Formatter, answers: &[Answers; 7]) -> fmt::Result {
    write!(f, "answers       accepted")?;
    for number in 1..=19 {
        write!(f, "{number:>6}")?;
    }
    for (operation, counts) in OPERATIONS.iter().zip(answers) {
        write!(f, "\n  {operation:<12}{:>8}", counts[0])?;
        for count in &counts[1..] {
            write!(f, "{count:>6}")?;
        }
    }
    writeln!(f)
}

impl fmt::Display for Coverage {
    fn fmt(&self, f: &mut fmt::Formatter) -> fmt::Result {
        let (blocks, elapsed) = (self.blocks, self.elapsed.as_secs_f64());
        let (longest, number) = (self.longest.0.as_secs_f64(), self.longest.1);
        write!(f, "blocks    {blocks} in {elapsed:.1} s, ")?;
        writeln!(f, "the longest {longest:.2} s (block {number})")?;
        writeln!(f, "records   {}", classes(&SIZES, &self.sizes))?;
        write_answers(f, &self.answers)?;
        writeln!(f, "inputs    {}", classes(&INPUTS, &self.inputs))?;
        writeln!(f, "gates     {}", named(KIND_WORDS, &self.kinds))?;
        writeln!(f, "pins      {}", named(["1", "2", "3", "4"], &self.pins))?;
        let (halves, gates) = (self.halves, self.kinds.iter().sum::<u64>());
        writeln!(f, "halves    in pulses of {halves} of {gates} gates")?;
        writeln!(f, "nodes     {}", classes(&NODES, &self.nodes))?;
        writeln!(f, "hops      1 to 16: {:?}", self.hop_limits)?;
        let (gates, filled) = (self.gates, self.filled);
        writeln!(f, "filled    {filled} of {gates} gates of envelopes")?;
        write_sums(f, self)?;
        for outcome in [Outcome::Exact, Outcome::Within, Outcome::Spent] {
            let [without, after] = self.outcomes[outcome as usize];
            let name = outcome.to_string();
            writeln!(f, "{name:<10}{without} without a split, {after} after one")?;
        }
        writeln!(f, "splits    {}", self.splits)?;
        writeln!(f, "cases     {}; {} capped", self.cases, self.capped)?;
        writeln!(f, "patterns  {} held against searches", self.patterns)?;
        writeln!(f, "lists     {}", named(LISTS, &self.lists))?;
        writeln!(f, "undecided {}", classes(&UNDECIDED, &self.undecided))?;
        let (ties, tried) = (self.ties, self.undecided.iter().sum::<u64>());
        writeln!(f, "ties      of bounds in {ties} of {tried} blocks")?;
        write!(f, "texts     records {}", self.records)
    }
}

#[cfg(test)]
mod tests {
    use super::*;
    use crate::sample::input;

    #[test]
    fn sheets_with_a_word_above_32_bits() {
        let mut coverage = Coverage::default();
        coverage.count_sheet(&[0, 1, 0xffff_ffff]);
        assert_eq!((coverage.wide, coverage.sheets), (0, 1));
        coverage.count_sheet(&[0, 0x1_0000_0000, 0]);
        assert_eq!((coverage.wide, coverage.sheets), (1, 2));
        let lines = coverage.to_string();
        assert!(lines.contains("\nwords     above 32 bits in 1 of 2 sheets\n"));
    }

    #[test]
    fn lists_undecided_inputs_and_ties() {
        let mut coverage = Coverage::default();
        for is_list in [[true, true], [true, false], [true, false], [false, false]] {
            coverage.count_list(is_list);
        }
        for (sets, tie) in [(&[1, 2][..], false), (&[3, 8, 15], true), (&[15], false)] {
            let inputs: Vec<_> = sets.iter().map(|&set| input(set)).collect();
            coverage.count_tried(&Arguments::new(&inputs), tie);
        }
        let lines = coverage.to_string();
        let lists = "\nlists     neither: 1, by cones: 2, by bounds: 0, by both: 1\n";
        assert!(lines.contains(lists), "{lines}");
        let undecided = "\nundecided 0: 1, 1: 1, 2: 1, 3 to 16: 0, 17 to 64: 0\n";
        assert!(lines.contains(undecided), "{lines}");
        assert!(lines.contains("\nties      of bounds in 1 of 3 blocks\n"));
    }

    #[test]
    fn overlaps_of_envelopes_and_simulations() {
        let mut coverage = Coverage::default();
        for (operation, accepted) in [(1, 3), (2, 5)] {
            for _ in 0..accepted {
                coverage.count_answer(operation, &Ok(()));
            }
        }
        for overlap in [true, false, true] {
            coverage.count_envelope_overlap(overlap);
        }
        coverage.count_simulation_overlap(true);
        let line = "\noverlaps  of pulses in 2 of 3 envelopes, in 1 of 5 simulations\n";
        assert!(coverage.to_string().contains(line));
    }
}
