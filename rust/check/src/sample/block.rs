//! Records and random valid blocks.

use super::Random;
use zimgurav::kind::{AND, BUF, INPUT, NAND, NOT, XOR};
use zimgurav::{MOST_NETS, RECORD_BYTES};

/// The bytes of a net.
pub type Record = [u8; RECORD_BYTES];

/// An input that allows the excitations of `allowed`, its byte 18.
pub fn input(allowed: u8) -> Record {
    let mut record = [0; RECORD_BYTES];
    record[0] = INPUT;
    record[18] = allowed;
    record
}

/// A gate with these pins, at contact 0, with delay, rise and fall of 1 tick and peaks of 0.
pub fn gate(kind: u8, pins: &[u16]) -> Record {
    let mut record = [0; RECORD_BYTES];
    record[0] = kind;
    record[2] = 1;
    record[3] = pins.len() as u8;
    for (place, pin) in record[4..12].chunks_exact_mut(2).zip(pins) {
        place.copy_from_slice(&pin.to_le_bytes());
    }
    record[12] = 1;
    record[13] = 1;
    record
}

/// The gate with this contact, delay, rise, fall, peak for lh and peak for hl.
pub fn drawing(
    mut gate: Record,
    [contact, delay, rise, fall]: [u8; 4],
    [lh, hl]: [u16; 2],
) -> Record {
    gate[1] = contact;
    gate[2] = delay;
    gate[12] = rise;
    gate[13] = fall;
    gate[14..16].copy_from_slice(&lh.to_le_bytes());
    gate[16..18].copy_from_slice(&hl.to_le_bytes());
    gate
}

/// The gate at contact 0, with a delay of 1, as one that draws its peaks for lh and hl at the tick of
/// the transition alone.
pub fn peaks(gate: Record, peaks: [u16; 2]) -> Record {
    drawing(gate, [0, 1, 1, 1], peaks)
}

/// The gate as one that draws nothing, with this delay.
pub fn silent(gate: Record, delay: u8) -> Record {
    drawing(gate, [0, delay, 1, 1], [0, 0])
}

/// Lowers the peaks of the gates below 16, so that many a pulse is rounded to 0 before it ends.
pub fn lower_peaks(block: &mut [Record]) {
    for gate in block.iter_mut().filter(|record| record[0] != INPUT) {
        for peak in gate[14..18].as_chunks_mut().0 {
            *peak = [peak[0] % 16, 0];
        }
    }
}

/// Whether a pulse of the record has an exact half at some tick, before it is rounded.
pub fn has_half(record: &Record) -> bool {
    let slopes = [record[12], record[13]].map(u32::from);
    let peaks = record[14..18].as_chunks().0.iter();
    let mut peaks = peaks.map(|&bytes| u32::from(u16::from_le_bytes(bytes)));
    peaks.any(|peak| {
        let half = |step, steps| 2 * (peak * step % steps) == steps;
        slopes
            .iter()
            .any(|&steps| (1..steps).any(|step| half(step, steps)))
    })
}

/// Document 01's block S: an input of set 15, BUF and NOT of it.
pub fn block_s() -> Vec<Record> {
    let drawn = |kind| peaks(gate(kind, &[0]), [10, 0]);
    vec![input(15), drawn(BUF), drawn(NOT)]
}

/// Document 01's block F: two inputs of set 15, NOT of net 0, NAND of nets 1 and 2.
pub fn block_f() -> Vec<Record> {
    let not = drawing(gate(NOT, &[0]), [0, 1, 1, 2], [10, 20]);
    let nand = drawing(gate(NAND, &[1, 2]), [1, 2, 2, 2], [30, 31]);
    vec![input(15), input(15), not, nand]
}

/// A block with a child above its parent. With two hops net 11 may rise at ticks 2, 4 to 8 and 10, and
/// tick 3 is filled. Where net 1 is l, it may rise at ticks 2, 8 and 10, and tick 9 is filled, at which
/// nets 13 and 14 draw 200.
pub fn block_with_a_cap() -> Vec<Record> {
    let delayed = |net, delay| silent(gate(BUF, &[net]), delay);
    vec![
        input(1 + 8),
        input(1 + 8),
        input(15),
        delayed(0, 1),
        delayed(0, 7),
        delayed(0, 9),
        delayed(1, 2),
        delayed(1, 3),
        delayed(1, 4),
        delayed(1, 5),
        silent(gate(XOR, &[6, 7, 8, 9]), 1),
        peaks(gate(XOR, &[3, 4, 5, 10]), [10, 0]),
        delayed(2, 8),
        peaks(gate(BUF, &[12]), [100, 0]),
        peaks(gate(NOT, &[12]), [100, 0]),
    ]
}

/// A block whose last net switches at each of so many ticks, 2 or more, where its one input switches: XORs, up to four
/// nets at a time, of the input after delays of 0, 1, 2 and so on. No gate draws, and each has a delay of 1.
///
/// The last net's first transition is at the tick that has the number of XORs in a row: 4 for 65 to 256 ticks.
pub fn switching_at(ticks: u16, allowed: u8) -> Vec<Record> {
    let mut block = vec![input(allowed)];
    for pin in 1..ticks {
        block.push(silent(gate(BUF, &[pin - 1]), 1));
    }
    let mut nets: Vec<u16> = (0..ticks).collect();
    while nets.len() > 1 {
        let first = block.len() as u16;
        for pins in nets.chunks(4) {
            let kind = if pins.len() == 1 { BUF } else { XOR };
            block.push(silent(gate(kind, pins), 1));
        }
        nets = (first..block.len() as u16).collect();
    }
    block
}

/// A full block of which 690 gates switch at each of 250 ticks in a row, mostly at one contact and with the greatest
/// slopes and peak, so that words are above 32 bits.
pub fn block_of_sums(random: &mut Random) -> Vec<Record> {
    let mut block = switching_at(250, random.pick(&[8, 12, 15]));
    let last = block.len() as u16 - 1;
    let contacts = random.pick(&[1, 1, 1, 16]);
    let slope = random.pick(&[127, 127, 127, 126]);
    let peaks = random.pick(&[[65_535; 2], [65_535; 2], [65_535, 65_534], [65_000, 65_535]]);
    while block.len() < MOST_NETS as usize {
        let contact = (block.len() % contacts) as u8;
        let kind = random.pick(&[BUF, NOT]);
        block.push(drawing(
            gate(kind, &[last]),
            [contact, 1, slope, slope],
            peaks,
        ));
    }
    block
}

/// What a random block looks like.
pub struct Shape {
    /// How many inputs: 1 to 64.
    pub inputs: usize,
    /// How many gates.
    pub gates: usize,
    /// A pin is one of this many nets before its gate, at least 1. The fewer, the deeper the block.
    pub reach: usize,
    /// The greatest delay, 1 to 63.
    pub delay: u8,
    /// The greatest rise and fall, 1 to 127. The smaller, the more of a pulse is seen beside others.
    pub slope: u8,
}

impl Shape {
    /// A random shape of a block of `records` records, at least 1.
    pub fn random(random: &mut Random, records: usize) -> Self {
        let few = 1 + random.below(8);
        let any = 1 + random.below(64);
        let inputs = random.pick(&[1, few, any, 64]).min(records);
        Shape {
            inputs,
            gates: records - inputs,
            reach: random.pick(&[1, 2, 8, 64, 1024]),
            delay: random.pick(&[1, 6, 63]),
            slope: random.pick(&[1, 4, 127]),
        }
    }

    /// A random shape of a small block to search, mostly such that the envelope is above every drop,
    /// so that there is something to split.
    pub fn to_search(random: &mut Random) -> Self {
        let (few, any) = (1 + random.below(6), 1 + random.below(16));
        Shape {
            inputs: random.pick(&[few, few, few, any]),
            gates: 4 + random.below(36),
            reach: random.pick(&[4, 16, 1024]),
            delay: random.pick(&[1, 3, 6]),
            slope: random.pick(&[1, 4, 20]),
        }
    }

    /// A random block of this shape that Read accepts as long as it has at most 1,024 records.
    pub fn block(&self, random: &mut Random) -> Vec<Record> {
        let mut records = Vec::with_capacity(self.inputs + self.gates);
        let mut arrivals = vec![0; self.inputs];
        for _ in 0..self.inputs {
            records.push(input(random.byte(1, 15)));
        }
        for _ in 0..self.gates {
            let (record, arrival) = self.random_gate(random, &arrivals);
            records.push(record);
            arrivals.push(arrival);
        }
        records
    }

    /// A random gate after the nets with these arrivals, and its own arrival.
    fn random_gate(&self, random: &mut Random, arrivals: &[u8]) -> (Record, u8) {
        let kind = random.byte(AND, BUF);
        let pin_count = if kind < NOT { 2 + random.below(3) } else { 1 };
        let reach = self.reach.min(arrivals.len());
        let mut pins = [0; 4];
        for pin in &mut pins[..pin_count] {
            let net = arrivals.len() - 1 - random.below(reach);
            // Nothing can follow an arrival of 255, so that such a pin is moved to an input.
            *pin = if arrivals[net] < 255 {
                net
            } else {
                random.below(self.inputs)
            } as u16;
        }
        let mut record = gate(kind, &pins[..pin_count]);
        let pin_arrivals = pins.map(|pin| arrivals[usize::from(pin)]);
        let latest = pin_arrivals.into_iter().max().unwrap_or(0);
        let delay = random.byte(1, self.delay.min(255 - latest));
        record[1] = random.byte(0, 15);
        record[2] = delay;
        record[12] = random.byte(1, self.slope);
        record[13] = random.byte(1, self.slope);
        for peak in record[14..18].chunks_exact_mut(2) {
            let any = random.bits() as u16;
            peak.copy_from_slice(&random.pick(&[0, 65_535, any, any]).to_le_bytes());
        }
        (record, latest + delay)
    }
}

/// A random block of which a few gates draw, and which may switch at many ticks that are not
/// neighbours, so that gaps are filled.
pub fn block_with_gaps(random: &mut Random) -> Vec<Record> {
    let shape = Shape {
        inputs: 2 + random.below(4),
        gates: 8 + random.below(24),
        reach: random.pick(&[8, 16, 1024]),
        delay: random.pick(&[12, 24]),
        slope: random.pick(&[1, 2]),
    };
    let mut block = shape.block(random);
    for record in &mut block[shape.inputs..] {
        if random.below(4) != 0 {
            *record = silent(*record, record[2]);
        }
    }
    block
}

#[cfg(test)]
mod tests {
    use super::*;

    /// Whether a gate with this rise, fall and peaks has a pulse with an exact half.
    fn gate_has_half([rise, fall]: [u8; 2], peaks: [u16; 2]) -> bool {
        has_half(&drawing(gate(BUF, &[0]), [0, 1, rise, fall], peaks))
    }

    /// 31 / 2, 2 / 4 and 65,535 × 63 / 126 are halves; whole numbers, thirds and 127ths are not.
    #[test]
    fn halves() {
        assert!(gate_has_half([2, 1], [31, 0]));
        assert!(gate_has_half([1, 4], [0, 2]));
        assert!(gate_has_half([127, 126], [0, 65_535]));
        assert!(!gate_has_half([2, 4], [4, 8]));
        assert!(!gate_has_half([6, 3], [4, 2]));
        assert!(!gate_has_half([127, 127], [65_535, 65_534]));
        assert!(!has_half(&input(15)));
    }

    /// The input and 249 delays of it, 63 XORs of these, 16 of those, 4 and 1. The last net switches four ticks after
    /// the net that it follows: the last of the delays arrives at tick 249.
    #[test]
    fn nets_that_switch_at_250_ticks() {
        let block = switching_at(250, 8);
        assert_eq!(block.len(), 250 + 63 + 16 + 4 + 1);
        let pins = |record: &Record| record[3];
        assert_eq!(block[250..].iter().map(pins).max(), Some(4));
        assert_eq!(block[250 + 62], silent(gate(XOR, &[248, 249]), 1));
        assert_eq!(block[333], silent(gate(XOR, &[329, 330, 331, 332]), 1));
    }

    /// Five delays: four of them are joined, the fifth is passed on.
    #[test]
    fn a_net_that_is_left_over_is_passed_on() {
        let block = switching_at(5, 15);
        let joins = [
            silent(gate(XOR, &[0, 1, 2, 3]), 1),
            silent(gate(BUF, &[4]), 1),
            silent(gate(XOR, &[5, 6]), 1),
        ];
        assert_eq!(block[5..], joins);
    }
}
