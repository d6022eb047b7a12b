//! Read: takes a block file and returns its counts of nets and inputs, or the
//! first of refusals 1 to 10 of document 01 that applies.
//!
//! Whole-file checks come first, then records by net number, with checks 4 to
//! 10 made on one record before the next. Each check is one function that says
//! whether its refusal applies; the functions stand in the order of document 01.

use super::block::{arrival, Record, RECORD_BYTES};
use zimgurav::kind;
use zimgurav::{Counts, Refusal};

/// The most records a block may have.
const MOST_RECORDS: usize = 1024;

/// The most inputs a block may have.
const MOST_INPUTS: u64 = 64;

/// The latest arrival a net may have, in ticks.
const LATEST_ARRIVAL: u16 = 255;

/// What the records before the one being checked have shown.
struct Before {
    /// How many of them are inputs.
    inputs: u64,
    /// How many of them are gates.
    gates: u64,
    /// The arrival of each of them, by net number.
    arrivals: [u16; MOST_RECORDS],
}

/// Read takes the file and returns its counts of nets and inputs. A refusal
/// returns its number and a place.
pub fn read(file: &[u8]) -> Result<Counts, Refusal> {
    check_file(file)?;
    let mut before = Before {
        inputs: 0,
        gates: 0,
        arrivals: [0; MOST_RECORDS],
    };
    let (records, _) = file.as_chunks::<RECORD_BYTES>();
    for (net, bytes) in records.iter().enumerate() {
        let record = Record::parse(bytes);
        check_record(&record, net, &before)?;
        before.arrivals[net] = arrival(&record, &before.arrivals);
        if record.is_input() {
            before.inputs += 1;
        } else {
            before.gates += 1;
        }
    }
    Ok(Counts {
        nets: before.inputs + before.gates,
        inputs: before.inputs,
    })
}

/// The whole-file checks, 1 to 3. Their place is 0.
fn check_file(file: &[u8]) -> Result<(), Refusal> {
    refuse_if(length_is_not_a_multiple_of_20(file), 1, 0)?;
    refuse_if(more_than_1024_records(file), 2, 0)?;
    refuse_if(no_record_or_first_is_not_an_input(file), 3, 0)
}

/// The checks of one record, 4 to 10. Their place is the net.
fn check_record(record: &Record, net: usize, before: &Before) -> Result<(), Refusal> {
    let place = net as u64;
    refuse_if(kind_is_unknown(record), 4, place)?;
    refuse_if(input_is_after_a_gate_or_the_65th(record, before), 5, place)?;
    let pin_count = record.pin_count.into();
    refuse_if(pin_count_is_wrong(record.kind, pin_count), 6, place)?;
    refuse_if(byte_meant_to_be_zero_is_not(record), 7, place)?;
    refuse_if(used_pin_is_not_below_its_net(record, net), 8, place)?;
    refuse_if(value_is_outside_its_range(record), 9, place)?;
    refuse_if(arrival_exceeds_255(record, before), 10, place)
}

/// Returns the refusal of this number and place if something is wrong.
pub fn refuse_if(wrong: bool, number: u64, place: u64) -> Result<(), Refusal> {
    if wrong {
        Err(Refusal { number, place })
    } else {
        Ok(())
    }
}

/// Refusal 1: The length is not a multiple of 20.
fn length_is_not_a_multiple_of_20(file: &[u8]) -> bool {
    !file.len().is_multiple_of(RECORD_BYTES)
}

/// Refusal 2: There are more than 1,024 records.
fn more_than_1024_records(file: &[u8]) -> bool {
    file.len() / RECORD_BYTES > MOST_RECORDS
}

/// Refusal 3: There is no record, or the first kind is not 1.
///
/// The kind is byte 0 of a record, so the first kind is byte 0 of the file.
fn no_record_or_first_is_not_an_input(file: &[u8]) -> bool {
    match file.first() {
        None => true,
        Some(&first_kind) => first_kind != kind::INPUT,
    }
}

/// Refusal 4: The kind is 0 or above 9.
fn kind_is_unknown(record: &Record) -> bool {
    record.kind == 0 || record.kind > kind::BUF
}

/// Refusal 5: An input stands after a gate, or is the 65th.
fn input_is_after_a_gate_or_the_65th(record: &Record, before: &Before) -> bool {
    record.is_input() && (before.gates > 0 || before.inputs == MOST_INPUTS)
}

/// Refusal 6: A gate's pin count is wrong for its kind.
///
/// Kinds 2 to 5 take 2 to 4 pins, as do 6 and 7; 8 and 9 take 1. An input is no
/// gate, so this refusal never falls on it.
pub fn pin_count_is_wrong(kind: u8, pin_count: usize) -> bool {
    match kind {
        kind::AND..=kind::NOR | kind::XOR..=kind::XNOR => !(2..=4).contains(&pin_count),
        kind::NOT..=kind::BUF => pin_count != 1,
        _ => false,
    }
}

/// Refusal 7: A non-zero byte stands in bytes 1 to 17 or 19 of an input, or in
/// an unused pin, byte 18 or byte 19 of a gate.
fn byte_meant_to_be_zero_is_not(record: &Record) -> bool {
    if record.is_input() {
        record.contact != 0
            || record.delay != 0
            || record.pin_count != 0
            || record.pins != [0; 4]
            || record.rise != 0
            || record.fall != 0
            || record.peak_lh != 0
            || record.peak_hl != 0
            || record.byte_19 != 0
    } else {
        record.unused_pins().any(|pin| pin != 0) || record.allowed != 0 || record.byte_19 != 0
    }
}

/// Refusal 8: A used pin is not below its own net.
fn used_pin_is_not_below_its_net(record: &Record, net: usize) -> bool {
    record.used_pins().any(|pin| usize::from(pin) >= net)
}

/// Refusal 9: A gate's contact, delay, rise or fall, or an input's byte 18 (1 to
/// 15), is outside its range.
///
/// The contact is 0 to 15, the delay 1 to 63, the rise and the fall each 1 to 127.
pub fn value_is_outside_its_range(record: &Record) -> bool {
    if record.is_gate() {
        record.contact > 15
            || !(1..=63).contains(&record.delay)
            || !(1..=127).contains(&record.rise)
            || !(1..=127).contains(&record.fall)
    } else {
        !(1..=15).contains(&record.allowed)
    }
}

/// Refusal 10: The arrival exceeds 255.
fn arrival_exceeds_255(record: &Record, before: &Before) -> bool {
    arrival(record, &before.arrivals) > LATEST_ARRIVAL
}
