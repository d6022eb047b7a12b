//! The sizes and ranges of what the calls take, as `include/zimgurav.h` names them.

/// The version of the calls.
///
/// It goes up with every change of what a call takes, answers or writes: two builds of one version
/// give the same answers, sheets, patterns, stores, lists and records. [`version`](crate::version) is
/// that of the linked library, which has to be this one.
pub const VERSION: u64 = 6;

/// A word of a sheet: a current in microamperes. The pulses of a gate add up, and so do the gates of
/// a contact, so that it can be above 32 bits.
pub type Word = u64;

/// The bytes of a record of a block file.
pub const RECORD_BYTES: usize = 20;

/// The least bytes of a record buffer: as many as the records of the largest block have.
pub const BLOCK_BYTES: usize = RECORD_BYTES * MOST_NETS as usize;

/// The bytes of a row of a list: a kind's contact, delay, rise, fall and two peaks.
pub const LIST_ROW_BYTES: usize = 8;

/// The bytes of a list: a row for each kind of gate, AND first.
pub const LIST_BYTES: usize = 8 * LIST_ROW_BYTES;

/// The contacts: rows of a sheet, and resistances of a bus node in a table.
pub const CONTACTS: usize = 16;

/// The ticks of a row of a sheet: its words.
pub const ROW_TICKS: usize = 512;

/// The words of a sheet: its rows, contact 0 first.
pub const SHEET_WORDS: usize = CONTACTS * ROW_TICKS;

/// The bytes of a pattern.
pub const PATTERN_BYTES: usize = 64;

/// The bytes that a maker writes of a list of inputs: one for each input, 0 past them.
pub const ORDER_BYTES: usize = 64;

/// The bytes of a case in the case store.
pub const CASE_BYTES: usize = 72;

/// The numbers of an answer.
pub const ANSWER_NUMBERS: usize = 8;

/// The bytes of stack that are enough for any call.
pub const STACK_BYTES: usize = 80 << 10;

/// The most nets of a block: its records.
pub const MOST_NETS: u64 = 1024;

/// The most inputs of a block.
pub const MOST_INPUTS: u64 = 64;

/// The greatest hop limit. The least is 1.
pub const MOST_HOPS: u64 = 16;

/// The most bus nodes of a table. The least number is 1.
pub const MOST_NODES: usize = 16;

/// The least ratio.
pub const LEAST_RATIO: u64 = 1_000;

/// The greatest ratio.
pub const MOST_RATIO: u64 = 10_000;

/// The greatest budget. The least is 0.
pub const MOST_BUDGET: u64 = 10_000;

/// The least bytes of the work buffer for a block of so many nets.
pub const fn work_bytes(nets: u64) -> usize {
    160 * nets as usize
}

/// The least bytes of the case store for such a budget.
pub const fn store_bytes(budget: u64) -> usize {
    CASE_BYTES * (1 + 3 * budget as usize)
}
