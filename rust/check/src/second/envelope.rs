//! Envelope: takes file, hop limit, table, sheet and work buffer, and returns
//! sheet, drop and quiet tick, or the first refusal of document 01 that applies.

use super::arguments::{check_hop_limit, check_sheet, check_table, check_work};
use super::block::{records, Record};
use super::current::{has_overlap, write_currents};
use super::excitation::UncertaintySet;
use super::fill::fill;
use super::frame::Frame;
use super::read::read;
use super::waveform::Waveform;
use zimgurav::{Currents, Refusal, Word};

/// Writes the envelope of the file's block into the sheet and returns its drop
/// and quiet tick. Of the work buffer only the size matters here.
pub fn envelope(
    file: &[u8],
    hop_limit: u64,
    table: &[u16],
    sheet: &mut [Word],
    work: &mut [u8],
) -> Result<Currents, Refusal> {
    let counts = read(file)?;
    check_hop_limit(hop_limit)?;
    check_table(table)?;
    check_sheet(sheet)?;
    check_work(work, counts)?;

    let records = records(file);
    let frame = Frame::of_block(&records);
    Ok(write_envelope(&records, &frame, hop_limit, table, sheet))
}

/// How many gates of a valid block's file have a gap of their sets filled.
pub fn gates_filled(file: &[u8], hop_limit: u64) -> u64 {
    let records = records(file);
    let filled = filled_waveforms(&records, &Frame::of_block(&records), hop_limit);
    let nets = records.iter().zip(&filled);
    let changed = nets.filter(|(record, waveform)| {
        record.is_gate() && Waveform::of_gate(record, &filled).ticks != waveform.ticks
    });
    changed.count() as u64
}

/// Whether pulses of a gate overlap in the envelope of a valid block's file.
pub fn envelope_overlaps(file: &[u8], hop_limit: u64) -> bool {
    let records = records(file);
    let filled = filled_waveforms(&records, &Frame::of_block(&records), hop_limit);
    let mut nets = records.iter().zip(&filled);
    nets.any(|(record, waveform)| record.is_gate() && has_overlap(record, waveform))
}

/// Writes the envelope of a frame into the sheet and returns its drop and quiet
/// tick.
pub fn write_envelope(
    records: &[Record],
    frame: &Frame,
    hop_limit: u64,
    table: &[u16],
    sheet: &mut [Word],
) -> Currents {
    let waveforms = filled_waveforms(records, frame, hop_limit);
    write_currents(records, &waveforms, table, sheet)
}

/// The sets of each net at each tick, by net number: an input's from the frame, a
/// gate's raw sets with their gaps filled. Ticks before 0 and input nets are
/// never filled.
fn filled_waveforms(
    records: &[Record],
    frame: &Frame,
    hop_limit: u64,
) -> Vec<Waveform<UncertaintySet>> {
    let mut waveforms = Vec::new();
    for (net, record) in records.iter().enumerate() {
        if record.is_input() {
            waveforms.push(Waveform::of_input(frame.sets[net]));
        } else {
            let mut waveform = Waveform::of_gate(record, &waveforms);
            fill(&mut waveform.ticks, hop_limit);
            waveforms.push(waveform);
        }
    }
    waveforms
}
