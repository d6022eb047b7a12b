//! Over many generated lines, right ones and wrong ones: a fault is found just where the library refuses the line.

use std::array;

use zimgurav::{refused, Refusal, BLOCK_BYTES, LIST_BYTES, LIST_ROW_BYTES};

use super::{fault, word};

/// A piece of each sentence that tells a fault; of some, several.
const SENTENCES: [&str; 42] = [
    "the line begins with a byte order mark, U+FEFF",
    "a name is missing before =",
    ", as other tools write it: a name has letters and digits alone, so this one",
    "has a ';': a name has letters and digits alone",
    ": a name has letters and digits alone",
    "has the byte \\xff: ",
    "has the byte \\x00: ",
    "has the character é, U+00E9: ",
    "has the character U+00A0: ",
    ": a name has letters from A to Z and a to z and digits alone",
    " letters and digits, and a name has at most 16",
    "and a name has at most 16: blanks are skipped, so that",
    "a second = stands on the line",
    "a kind is missing after =",
    "words are written in capitals: ",
    "there is no kind",
    "; the nearest is",
    "; the nearest are AND and NAND",
    "; here it is called NOT",
    ": a block has no latches",
    ": a constant is an input, whose set",
    "; the kinds are AND, NAND, OR, NOR, XOR, XNOR, NOT, BUF and BUFF",
    "there is no form",
    "a name and = are missing before",
    "= is missing before",
    "all inputs stand before all gates, and line 3 gives the gate g",
    "the opening bracket is missing after",
    "the closing bracket is missing",
    "the line ends inside the brackets",
    "only a comment, from # on, may stand after the closing bracket, but there stands",
    "a second ( stands inside the brackets",
    "a name is missing after the opening bracket",
    "a name is missing before the first comma, or",
    "a name is missing between two commas, or",
    "a name is missing after the last comma, or",
    "takes one name: write a line for each",
    "takes 1 pin, and the line gives",
    "takes 2 to 4 pins, and the line gives 1: a gate of one pin is a BUF or a NOT",
    "takes 2 to 4 pins, with commas between them",
    ": split the gate into several",
    ": split the gate into several, of which only the last inverts",
    "the forms are",
];

const NAMES: [&str; 6] = ["a", "b", "c", "n1", "INPUT", "abcdefghijklmnop"];

// What stands in the texts of other tools, and what is misspelled.

const OTHER_NAMES: [&str; 14] = [
    "a",
    "b",
    "a",
    "b",
    "a b",
    "n_1",
    "d[0]",
    "a;",
    "é",
    "\u{a0}b",
    "",
    "(a",
    "abcdefghijklmnopq",
    "abcdefgh ijklmnopq",
];

const OTHER_KINDS: [&str; 18] = [
    "NAND", "AND", "NOT", "nand", "Nand", "NADN", "XAND", "NAND2", "NAND2X1", "INV", "invx1",
    "BUFFER", "DFF", "gnd", "MUX", "a", "", "= OR",
];

const OTHER_DECLARATIONS: [&str; 9] = [
    "INPUT", "OUTPUT", "input", "Output", "INPUTS", "IN", "NAND", "y NAND", "y nor",
];

// What is put into a line.

const SIGNS: &[u8] = b"((())),,,==   \t\r#aabbB1INPUTANDORXF_[].$;+\0\x7f\xff\xff\xc3";

const WORDS: [&str; 10] = [
    "INPUT", "INPUT", "OUTPUT", "NAND", "NAND", "NOT", "nand", "é", "\u{a0}", "\u{feff}",
];

/// The generator xorshift64: the same numbers in every run.
struct Random(u64);

impl Random {
    fn below(&mut self, limit: usize) -> usize {
        self.0 ^= self.0 << 13;
        self.0 ^= self.0 >> 7;
        self.0 ^= self.0 << 17;
        (self.0 >> 16) as usize % limit
    }

    fn pick<T: Copy>(&mut self, choices: &[T]) -> T {
        choices[self.below(choices.len())]
    }

    fn piece(&mut self) -> &'static [u8] {
        let sign = self.below(SIGNS.len());
        match self.below(4) {
            0 => self.pick(&WORDS).as_bytes(),
            _ => &SIGNS[sign..=sign],
        }
    }

    /// A line of one of the forms, with up to five names in its brackets.
    fn form(&mut self, declarations: &[&str], kinds: &[&str], names: &[&str]) -> Vec<u8> {
        let more = self.below(5);
        let several: Vec<&str> = (0..=more).map(|_| self.pick(names)).collect();
        let (one, several) = (several[0], several.join(", "));
        let name = self.pick(names);
        let line = match self.below(6) {
            0 => format!("{}({one})", self.pick(declarations)),
            1 => format!("{}({several})", self.pick(declarations)),
            2 => format!("{name} = {}({one})", self.pick(kinds)),
            _ => format!("{name} = {}({several})", self.pick(kinds)),
        };
        line.into_bytes()
    }

    /// A line with right words and names.
    fn right(&mut self) -> Vec<u8> {
        let kinds: Vec<&str> = word::kinds().collect();
        self.form(&word::DECLARATIONS, &kinds, &NAMES)
    }

    /// A line with words and names of other tools.
    fn of_other_tools(&mut self) -> Vec<u8> {
        self.form(&OTHER_DECLARATIONS, &OTHER_KINDS, &OTHER_NAMES)
    }

    /// A line with right words and names, changed in one to three places: bytes are put in, or a byte is left out,
    /// replaced, or changed with the next one.
    fn damaged(&mut self) -> Vec<u8> {
        let mut line = self.right();
        for _ in 0..=self.below(3) {
            let from = self.below(line.len() + 1);
            let to = (from + self.below(2)).min(line.len());
            match self.below(4) {
                0 if from + 1 < line.len() => line.swap(from, from + 1),
                1 => drop(line.drain(from..to)),
                _ => drop(line.splice(from..to, self.piece().to_vec())),
            }
        }
        line
    }

    fn pieces(&mut self) -> Vec<u8> {
        let count = self.below(12);
        let pieces: Vec<&[u8]> = (0..count).map(|_| self.piece()).collect();
        pieces.concat()
    }

    /// Bytes of any value but that of a line's end.
    fn bytes(&mut self) -> Vec<u8> {
        let count = self.below(8);
        let bytes = (0..count).map(|_| self.below(256) as u8);
        bytes.filter(|byte| *byte != b'\n').collect()
    }
}

/// Whether the library refuses a line by 17, after these lines.
fn is_refused(earlier: &str, line: &[u8]) -> bool {
    let text = [earlier.as_bytes(), line].concat();
    let list: [u8; LIST_BYTES] = array::from_fn(|at| [0, 1, 1, 1, 1, 0, 1, 0][at % LIST_ROW_BYTES]);
    let answer = zimgurav::bench(&text, &list, &mut [0; BLOCK_BYTES]);
    let place = earlier.lines().count() as u64 + 1;
    match answer {
        Err(refusal) if refusal.number == refused::LINE => {
            assert_eq!(refusal.place, place);
            true
        }
        Err(Refusal { number, .. }) => {
            assert_eq!(number, refused::NAME);
            false
        }
        Ok(_) => false,
    }
}

/// The faults of a line, after two inputs and after a gate too; each is found just where the library refuses the line.
fn agreed(line: &[u8]) -> [Option<String>; 2] {
    const INPUTS: &str = "INPUT(a)\nINPUT(b)\n";
    let after_gate = format!("{INPUTS}g = NOT(a)\n");
    [(INPUTS, None), (&after_gate, Some((3, "g")))].map(|(earlier, gate)| {
        let fault = fault(line, gate);
        let refused = is_refused(earlier, line);
        assert_eq!(
            fault.is_some(),
            refused,
            "{}: {fault:?}",
            line.escape_ascii()
        );
        fault
    })
}

#[test]
fn a_fault_is_found_where_the_library_refuses() {
    let mut random = Random(0x9e37_79b9_7f4a_7c15);
    let sorts = [
        Random::right,
        Random::of_other_tools,
        Random::damaged,
        Random::pieces,
        Random::bytes,
    ];
    let mut found = [0; SENTENCES.len()];
    let mut right = 0;
    for sort in sorts.repeat(20_000) {
        let faults = agreed(&sort(&mut random));
        right += faults.iter().filter(|fault| fault.is_none()).count();
        let told = faults.into_iter().flatten();
        told.for_each(|fault| count(&fault, &mut found));
    }
    assert!(right > 20_000, "{right} right lines");
    let seldom = SENTENCES.iter().zip(found).filter(|(_, count)| *count < 50);
    assert_eq!(seldom.collect::<Vec<_>>(), []);
}

/// Counts the sentence that tells a fault.
fn count(fault: &str, found: &mut [usize; SENTENCES.len()]) {
    let mut known = false;
    for (piece, count) in SENTENCES.iter().zip(found) {
        known |= fault.contains(piece);
        *count += usize::from(fault.contains(piece));
    }
    assert!(known, "{fault}");
}
