//! The functions of the proved static library, as `include/zimgurav.h` declares them.
//!
//! # Safety
//!
//! The pointers that a call takes are aligned and not null, and each is good for as many elements as
//! its length says, or for the array that it is of: `*const` for reading, `*mut` for reading and writing. What a
//! `*mut` points to overlaps nothing else that the call takes. Until the call returns, no other
//! thread writes what it takes, or reads what it may write.

use crate::{Word, ANSWER_NUMBERS, ORDER_BYTES};

/// The numbers of an answer.
///
/// The first is 0 where the call was accepted. Else it is the refusal's number, and the second is
/// its place. The rest are 0.
pub type Answer = [u64; ANSWER_NUMBERS];

unsafe extern "C" {
    /// The version of the library.
    pub safe fn zimgurav_version() -> u64;

    /// Reads a block file. Accepted: 0, nets, inputs, then 0.
    ///
    /// # Safety
    ///
    /// As the [module](self) says.
    pub fn zimgurav_read(file: *const u8, file_length: usize, answer: *mut Answer);

    /// Writes the envelope of a block into the sheet. Accepted: 0, drop, quiet tick (the last at
    /// which some row of the sheet is not 0; 0 for an empty sheet), then 0.
    ///
    /// # Safety
    ///
    /// As the [module](self) says.
    pub fn zimgurav_envelope(
        file: *const u8,
        file_length: usize,
        hop_limit: u64,
        table: *const u16,
        table_length: usize,
        sheet: *mut Word,
        sheet_length: usize,
        work: *mut u8,
        work_length: usize,
        answer: *mut Answer,
    );

    /// Writes the currents of a block under a pattern into the sheet. Accepted: 0, drop, quiet
    /// tick (as of an envelope), then 0.
    ///
    /// # Safety
    ///
    /// As the [module](self) says.
    pub fn zimgurav_simulate(
        file: *const u8,
        file_length: usize,
        table: *const u16,
        table_length: usize,
        sheet: *mut Word,
        sheet_length: usize,
        pattern: *const u8,
        pattern_length: usize,
        work: *mut u8,
        work_length: usize,
        answer: *mut Answer,
    );

    /// Searches for bounds on the greatest drop. Accepted: 0, outcome (0 exact, 1 within, 2
    /// spent), upper bound, lower bound, splits, cases, quiet tick (as of an envelope), then 0.
    ///
    /// # Safety
    ///
    /// As the [module](self) says.
    pub fn zimgurav_search(
        file: *const u8,
        file_length: usize,
        hop_limit: u64,
        table: *const u16,
        table_length: usize,
        ratio: u64,
        budget: u64,
        order: *const u8,
        order_length: usize,
        sheet: *mut Word,
        sheet_length: usize,
        pattern: *mut u8,
        pattern_length: usize,
        work: *mut u8,
        work_length: usize,
        store: *mut u8,
        store_length: usize,
        answer: *mut Answer,
    );

    /// Writes a list of the inputs, by the gates in their fan-out cones. Accepted: 0, inputs, then 0.
    ///
    /// # Safety
    ///
    /// As the [module](self) says.
    pub fn zimgurav_cone_order(
        file: *const u8,
        file_length: usize,
        order: *mut [u8; ORDER_BYTES],
        answer: *mut Answer,
    );

    /// Writes a list of the inputs, by the upper numbers of the cases that a split at them makes.
    /// Accepted: 0, inputs, then 0.
    ///
    /// # Safety
    ///
    /// As the [module](self) says.
    pub fn zimgurav_bound_order(
        file: *const u8,
        file_length: usize,
        hop_limit: u64,
        table: *const u16,
        table_length: usize,
        work: *mut u8,
        work_length: usize,
        order: *mut [u8; ORDER_BYTES],
        answer: *mut Answer,
    );

    /// Writes the records of a bench text. Accepted: 0, how many records, then 0.
    ///
    /// # Safety
    ///
    /// As the [module](self) says.
    pub fn zimgurav_bench(
        text: *const u8,
        text_length: usize,
        list: *const u8,
        list_length: usize,
        records: *mut u8,
        records_length: usize,
        answer: *mut Answer,
    );
}
