//! The checks of the arguments other than the file: refusals 11 to 16 of document
//! 01, and 19 of the request for a list of inputs. They come after Read's.

use super::block::Record;
use super::current::SHEET_WORDS;
use super::excitation::{Excitation, Signal, UncertaintySet};
use super::read::refuse_if;
use super::search::CASE_BYTES;
use zimgurav::{Counts, Refusal, Word};

/// How many bytes of the work buffer a net needs.
const WORK_BYTES_A_NET: u64 = 160;

/// How many bytes the pattern has.
const PATTERN_BYTES: usize = 64;

/// Refusal 11: The hop limit is not 1 to 16.
pub fn check_hop_limit(hop_limit: u64) -> Result<(), Refusal> {
    refuse_if(!(1..=16).contains(&hop_limit), 11, 0)
}

/// Refusal 12: The table's length is not a multiple of 16 from 16 to 256.
pub fn check_table(table: &[u16]) -> Result<(), Refusal> {
    let length = table.len();
    let right = length.is_multiple_of(16) && (16..=256).contains(&length);
    refuse_if(!right, 12, 0)
}

/// Refusal 13: The ratio is not 1,000 to 10,000.
pub fn check_ratio(ratio: u64) -> Result<(), Refusal> {
    refuse_if(!(1_000..=10_000).contains(&ratio), 13, 0)
}

/// Refusal 14: The budget exceeds 10,000.
pub fn check_budget(budget: u64) -> Result<(), Refusal> {
    refuse_if(budget > 10_000, 14, 0)
}

/// Refusal 19, after 14 and before every 15: the list is not each input's net exactly
/// once. One whose length is not the number of inputs is not either.
pub fn check_order(order: &[u8], counts: Counts) -> Result<(), Refusal> {
    let mut nets = order.to_vec();
    nets.sort();
    let each_once = nets.into_iter().map(u64::from).eq(0..counts.inputs);
    refuse_if(!each_once, 19, 0)
}

/// Refusal 15, place 1: the sheet is not exactly 8,192 words.
pub fn check_sheet(sheet: &[Word]) -> Result<(), Refusal> {
    refuse_if(sheet.len() != SHEET_WORDS, 15, 1)
}

/// Refusal 15, place 2: the pattern is not exactly 64 bytes.
pub fn check_pattern_length(pattern: &[u8]) -> Result<(), Refusal> {
    refuse_if(pattern.len() != PATTERN_BYTES, 15, 2)
}

/// Refusal 15, place 3: the work buffer is not at least 160 bytes a net.
pub fn check_work(work: &[u8], counts: Counts) -> Result<(), Refusal> {
    let length = work.len() as u64;
    refuse_if(length < WORK_BYTES_A_NET * counts.nets, 15, 3)
}

/// Refusal 15, place 4: the case store is not at least 72 × (1 + 3 × budget)
/// bytes. The budget has passed its check.
pub fn check_store(store: &[u8], budget: u64) -> Result<(), Refusal> {
    let length = store.len() as u64;
    refuse_if(length < CASE_BYTES as u64 * (1 + 3 * budget), 15, 4)
}

/// Refusal 16: A pattern byte for an input is above 3 or not allowed by byte 18.
/// The place is the input net, of several the lowest.
///
/// Returns the excitations of the inputs, by net number. Byte i of a pattern is
/// for input net i; bytes past the inputs are not read.
pub fn check_pattern(pattern: &[u8], records: &[Record]) -> Result<Vec<Excitation>, Refusal> {
    let mut excitations = Vec::new();
    for (net, record) in records.iter().enumerate() {
        if record.is_input() {
            let allowed = UncertaintySet::of_code(record.allowed);
            match Excitation::of_pattern_byte(pattern[net]) {
                Some(excitation) if allowed.has(excitation) => excitations.push(excitation),
                _ => {
                    return Err(Refusal {
                        number: 16,
                        place: net as u64,
                    })
                }
            }
        }
    }
    Ok(excitations)
}
