//! The arguments of the operations.

use super::order::{cone_list, random_list};
use super::{plain_list, spread_text, Line, Random, Record};
use zimgurav::kind::INPUT;
use zimgurav::{
    store_bytes, work_bytes, Word, BLOCK_BYTES, CONTACTS, MOST_NODES, ORDER_BYTES, PATTERN_BYTES,
    SHEET_WORDS,
};

/// What a word of the sheet holds before a call.
const UNUSED_WORD: Word = 0xeeee_eeee_eeee_eeee;

/// What a byte of the work buffer, of the case store, of a list to be made and of the record buffer holds before a call.
const UNUSED_BYTE: u8 = 0xee;

/// Everything that the operations take and are lent.
#[derive(Clone, Debug, PartialEq, Eq)]
pub struct Arguments {
    pub file: Vec<u8>,
    pub hop_limit: u64,
    pub table: Vec<u16>,
    pub ratio: u64,
    pub budget: u64,
    /// The list of inputs that Search reads.
    pub order: Vec<u8>,
    pub sheet: Vec<Word>,
    pub pattern: Vec<u8>,
    pub work: Vec<u8>,
    pub store: Vec<u8>,
    /// The bytes to which the makers write a list of inputs.
    pub made: [u8; ORDER_BYTES],
    pub text: Vec<u8>,
    pub list: Vec<u8>,
    pub records: Vec<u8>,
}

impl Arguments {
    /// Accepted arguments for a valid block: 10 hops, one node of resistances of 1, ratio 1,000,
    /// budget 200, the inputs in the order of their cones, at each input the first allowed of l, h,
    /// hl, lh, a text of one input, the plain list, and buffers as short as they may be.
    pub fn new(block: &[Record]) -> Self {
        let mut pattern = vec![0; PATTERN_BYTES];
        for (byte, input) in pattern.iter_mut().zip(inputs(block)) {
            *byte = allowed(input)[0];
        }
        let file = block.concat();
        Arguments {
            order: cone_list(&file),
            file,
            hop_limit: 10,
            table: vec![1; CONTACTS],
            ratio: 1_000,
            budget: 200,
            sheet: vec![UNUSED_WORD; SHEET_WORDS],
            pattern,
            work: vec![UNUSED_BYTE; work_bytes(block.len() as u64)],
            store: vec![UNUSED_BYTE; store_bytes(200)],
            made: [UNUSED_BYTE; ORDER_BYTES],
            text: b"INPUT(a)".to_vec(),
            list: plain_list(),
            records: vec![UNUSED_BYTE; BLOCK_BYTES],
        }
    }

    /// Accepted arguments with this text, if that is accepted with the plain list.
    pub fn of_text(text: &[u8]) -> Self {
        let mut arguments = Arguments::new(&[]);
        arguments.text = text.to_vec();
        arguments
    }

    /// The same with this budget, and a case store as short as it may be.
    pub fn with_budget(mut self, budget: u64) -> Self {
        self.budget = budget;
        self.store = vec![UNUSED_BYTE; store_bytes(budget)];
        self
    }

    /// Random accepted arguments for a valid block, with a budget of at most 60.
    pub fn random(random: &mut Random, block: &[Record]) -> Self {
        Arguments::random_up_to(60, random, block)
    }

    /// Random accepted arguments for a valid block, with at most this budget, which is at least 7.
    /// The inputs are listed in any order. The buffers hold noise, as do the pattern's bytes past the
    /// inputs; the work buffer and the case store may be longer than they have to be.
    pub fn random_up_to(budget: usize, random: &mut Random, block: &[Record]) -> Self {
        let mut arguments = Arguments::new(block);
        let any = 1 + random.below(16);
        arguments.hop_limit = random.pick(&[1, 2, 3, any]) as u64;
        let nodes = 1 + random.below(MOST_NODES);
        arguments.table = (0..CONTACTS * nodes).map(|_| resistance(random)).collect();
        arguments.pattern.fill_with(|| random.byte(0, 255));
        for (byte, input) in arguments.pattern.iter_mut().zip(inputs(block)) {
            *byte = random.pick(&allowed(input));
        }
        let (close, any) = (random.below(1_000), random.below(9_001));
        arguments.ratio = random.pick(&[1_000, 1_000, 1_000 + close, 1_000 + any, 10_000]) as u64;
        let (few, any) = (random.below(8), random.below(budget + 1));
        arguments = arguments.with_budget(random.pick(&[0, few, few, any, budget]) as u64);
        for buffer in [&mut arguments.work, &mut arguments.store] {
            let length = buffer.len() + random.pick(&[0, 1, 71, 159, 160, 5000]);
            buffer.resize(length, 0);
            buffer.fill_with(|| random.byte(0, 255));
        }
        arguments.sheet.fill_with(|| random.bits());
        arguments.made.fill_with(|| random.byte(0, 255));
        arguments.order = random_list(random, &arguments);
        arguments
    }

    /// Lends the lines as a text with random blanks and comments, their list, and a record buffer of
    /// noise, which may be longer than it has to be.
    pub fn lend_text(&mut self, random: &mut Random, lines: &[Line], list: Vec<u8>) {
        self.text = spread_text(random, lines);
        self.list = list;
        let length = BLOCK_BYTES + random.pick(&[0, 1, 19, 20, 5000]);
        self.records.resize(length, 0);
        self.records.fill_with(|| random.byte(0, 255));
    }
}

/// The inputs, which come first.
fn inputs(block: &[Record]) -> impl Iterator<Item = &Record> {
    block.iter().take_while(|record| record[0] == INPUT)
}

/// The pattern bytes that an input's byte 18 allows.
pub fn allowed(input: &Record) -> Vec<u8> {
    (0..4).filter(|byte| input[18] & (1 << byte) != 0).collect()
}

/// The first bytes, for the inputs, of every pattern of the block's frame.
pub fn patterns(block: &[Record]) -> Vec<Vec<u8>> {
    let mut patterns = vec![Vec::new()];
    for input in inputs(block) {
        let longer = patterns.iter().flat_map(|pattern: &Vec<u8>| {
            let bytes = allowed(input).into_iter();
            bytes.map(|byte| [&pattern[..], &[byte]].concat())
        });
        patterns = longer.collect();
    }
    patterns
}

/// A resistance: 0, a small one, any, or the greatest.
fn resistance(random: &mut Random) -> u16 {
    let any = random.bits() as u16;
    random.pick(&[0, 1, 1 + any % 100, any, 65_535])
}
