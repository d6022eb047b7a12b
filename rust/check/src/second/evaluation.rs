//! The sheet, drop and upper number of a frame inside the block's.

use super::block::Record;
use super::current::SHEET_WORDS;
use super::envelope::write_envelope;
use super::excitation::Excitation;
use super::frame::Frame;
use super::simulate::write_simulation;
use zimgurav::Word;

/// What simulations and envelopes of the block's cases are made of.
pub struct Block<'a> {
    pub records: &'a [Record],
    pub hop_limit: u64,
    pub table: &'a [u16],
}

impl Block<'_> {
    /// Writes the currents of a pattern into the sheet and returns their drop.
    pub fn simulate(&self, pattern: &[Excitation], sheet: &mut [Word]) -> u64 {
        write_simulation(self.records, pattern, self.table, sheet).drop
    }

    /// Writes the sheet of a frame and returns its drop: of one with every input
    /// decided the simulation's, of another the envelope's.
    pub fn evaluate(&self, frame: &Frame, sheet: &mut [Word]) -> u64 {
        if frame.is_decided() {
            self.simulate(&frame.probe(), sheet)
        } else {
            write_envelope(self.records, frame, self.hop_limit, self.table, sheet).drop
        }
    }

    /// The upper number of a case: with every input decided its simulated drop, of
    /// another its envelope's drop; never above its parent's.
    pub fn upper(&self, frame: &Frame, upper_of_parent: u64) -> u64 {
        let mut sheet = vec![0; SHEET_WORDS];
        self.evaluate(frame, &mut sheet).min(upper_of_parent)
    }
}
