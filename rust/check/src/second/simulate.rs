//! Simulate: takes file, table, sheet, pattern and work buffer, and returns
//! sheet, drop and quiet tick, or the first refusal of document 01 that applies.

use super::arguments::{check_pattern, check_pattern_length, check_sheet, check_table, check_work};
use super::block::{records, Record};
use super::current::{has_overlap, write_currents};
use super::excitation::Excitation;
use super::read::read;
use super::waveform::Waveform;
use zimgurav::{Currents, Refusal, Word};

/// Writes the currents of the pattern into the sheet and returns their drop and
/// quiet tick. Of the work buffer only the size matters here.
pub fn simulate(
    file: &[u8],
    table: &[u16],
    sheet: &mut [Word],
    pattern: &[u8],
    work: &mut [u8],
) -> Result<Currents, Refusal> {
    let counts = read(file)?;
    check_table(table)?;
    check_sheet(sheet)?;
    check_pattern_length(pattern)?;
    check_work(work, counts)?;
    let records = records(file);
    let excitations = check_pattern(pattern, &records)?;

    Ok(write_simulation(&records, &excitations, table, sheet))
}

/// Whether pulses of a gate overlap in the simulation of a valid block's file with a
/// pattern that its inputs allow.
pub fn simulation_overlaps(file: &[u8], pattern: &[u8]) -> bool {
    let records = records(file);
    let excitations = check_pattern(pattern, &records).expect("an accepted pattern");
    let waveforms = waveforms(&records, &excitations);
    let mut nets = records.iter().zip(&waveforms);
    nets.any(|(record, waveform)| record.is_gate() && has_overlap(record, waveform))
}

/// Writes the currents of the inputs' excitations into the sheet and returns
/// their drop and quiet tick.
pub fn write_simulation(
    records: &[Record],
    excitations: &[Excitation],
    table: &[u16],
    sheet: &mut [Word],
) -> Currents {
    let waveforms = waveforms(records, excitations);
    write_currents(records, &waveforms, table, sheet)
}

/// The excitation of each net at each tick, by net number.
fn waveforms(records: &[Record], excitations: &[Excitation]) -> Vec<Waveform<Excitation>> {
    let mut waveforms = Vec::new();
    for (net, record) in records.iter().enumerate() {
        if record.is_input() {
            waveforms.push(Waveform::of_input(excitations[net]));
        } else {
            waveforms.push(Waveform::of_gate(record, &waveforms));
        }
    }
    waveforms
}
