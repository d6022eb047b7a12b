//! The records of the block file of document 01, taken apart into their fields, and
//! the arrivals and fan-out cones of their nets.
//!
//! A record is 20 bytes. Nothing is checked here: a field holds whatever its
//! bytes say, and the refusals are left to the reader.

use zimgurav::kind;

/// The length of a record in bytes.
pub const RECORD_BYTES: usize = 20;

/// A record of the block file, field by field in the order of its bytes.
pub struct Record {
    /// Byte 0: 1 input, 2 AND, 3 NAND, 4 OR, 5 NOR, 6 XOR, 7 XNOR, 8 NOT, 9 BUF.
    pub kind: u8,
    /// Byte 1: the contact, 0 to 15.
    pub contact: u8,
    /// Byte 2: the delay D, 1 to 63 ticks.
    pub delay: u8,
    /// Byte 3: how many of the four pins are used.
    pub pin_count: u8,
    /// Bytes 4 to 11: the four pin nets. Unused ones are 0.
    pub pins: [u16; 4],
    /// Byte 12: the rise r, 1 to 127 ticks.
    pub rise: u8,
    /// Byte 13: the fall f, 1 to 127 ticks.
    pub fall: u8,
    /// Bytes 14 and 15: the peak for lh, in microamperes.
    pub peak_lh: u16,
    /// Bytes 16 and 17: the peak for hl, in microamperes.
    pub peak_hl: u16,
    /// Byte 18, inputs only: the allowed excitations, a sum of 1 (l), 2 (h),
    /// 4 (hl), 8 (lh).
    pub allowed: u8,
    /// Byte 19: always 0.
    pub byte_19: u8,
}

impl Record {
    /// Takes the fields from the 20 bytes of a record.
    pub fn parse(bytes: &[u8; RECORD_BYTES]) -> Record {
        Record {
            kind: bytes[0],
            contact: bytes[1],
            delay: bytes[2],
            pin_count: bytes[3],
            pins: [
                two_bytes(bytes, 4),
                two_bytes(bytes, 6),
                two_bytes(bytes, 8),
                two_bytes(bytes, 10),
            ],
            rise: bytes[12],
            fall: bytes[13],
            peak_lh: two_bytes(bytes, 14),
            peak_hl: two_bytes(bytes, 16),
            allowed: bytes[18],
            byte_19: bytes[19],
        }
    }

    /// Whether the record is an input.
    pub fn is_input(&self) -> bool {
        self.kind == kind::INPUT
    }

    /// Whether the record is a gate.
    pub fn is_gate(&self) -> bool {
        matches!(self.kind, kind::AND..=kind::BUF)
    }

    /// The pins within the pin count.
    pub fn used_pins(&self) -> impl Iterator<Item = u16> + '_ {
        self.pins.iter().copied().take(self.pin_count.into())
    }

    /// The pins past the pin count.
    pub fn unused_pins(&self) -> impl Iterator<Item = u16> + '_ {
        self.pins.iter().copied().skip(self.pin_count.into())
    }
}

/// The two-byte number that starts at byte `at`. Two-byte numbers have the low
/// byte first.
fn two_bytes(bytes: &[u8; RECORD_BYTES], at: usize) -> u16 {
    u16::from_le_bytes([bytes[at], bytes[at + 1]])
}

/// The records of a file, by net number.
pub fn records(file: &[u8]) -> Vec<Record> {
    let (records, _) = file.as_chunks::<RECORD_BYTES>();
    records.iter().map(Record::parse).collect()
}

/// Arrival: 0 for an input; for a gate the greatest arrival of its pins plus D.
///
/// The record's used pins are nets whose arrivals are given, by net number.
pub fn arrival(record: &Record, arrivals: &[u16]) -> u16 {
    if record.is_input() {
        return 0;
    }
    let mut greatest = 0;
    for pin in record.used_pins() {
        greatest = greatest.max(arrivals[usize::from(pin)]);
    }
    greatest + u16::from(record.delay)
}

/// How many gates stand in the net's fan-out cone: gates it feeds, directly or
/// through others, each counted once. Pins are below their gates.
pub fn cone(net: usize, records: &[Record]) -> usize {
    let mut fed = vec![false; records.len()];
    for (gate, record) in records.iter().enumerate() {
        let mut pins = record.used_pins().map(usize::from);
        fed[gate] = pins.any(|pin| pin == net || fed[pin]);
    }
    fed.iter().filter(|&&fed| fed).count()
}

#[cfg(test)]
mod tests {
    use super::*;
    use crate::sample::{gate, input};
    use zimgurav::kind::{AND, BUF, NOT};

    /// Block S: the cone of net 0 is 2.
    #[test]
    fn cone_of_block_s() {
        let block = [input(15), gate(BUF, &[0]), gate(NOT, &[0])];
        assert_eq!(cone(0, &records(&block.concat())), 2);
    }

    /// Net 3 feeds net 4 by two pins and net 5 through it; net 6 is fed by net 1 alone.
    #[test]
    fn cones_count_each_gate_once() {
        let block = [
            input(15),
            input(15),
            input(15),
            gate(AND, &[0, 1]),
            gate(AND, &[3, 3]),
            gate(AND, &[4, 3, 0]),
            gate(NOT, &[1]),
        ];
        let records = records(&block.concat());
        let cones = [0, 1, 2, 3, 4, 5, 6].map(|net| cone(net, &records));
        assert_eq!(cones, [3, 4, 0, 2, 1, 0, 0]);
    }
}
