//! Damage to block files and to the other arguments of a call.

use super::{spoil_list, Arguments, Random};
use zimgurav::kind::INPUT;
use zimgurav::{store_bytes, PATTERN_BYTES, RECORD_BYTES, SHEET_WORDS};

/// Values at the edges of the fields' ranges and just past them.
const EDGES: [u8; 14] = [0, 1, 2, 4, 5, 9, 10, 15, 16, 63, 64, 127, 128, 255];

/// Damages a file in one random way. It may stay valid.
pub fn damage(random: &mut Random, file: &mut Vec<u8>) {
    let records = file.len() / RECORD_BYTES;
    if records == 0 {
        file.push(random.byte(0, 255));
        return;
    }
    let net = random.below(records);
    let other = random.below(records);
    let at = RECORD_BYTES * net;
    match random.below(13) {
        0 => file.truncate(random.below(file.len())),
        1 => file[at + random.below(RECORD_BYTES)] = random.byte(0, 255),
        2 | 3 => file[at + random.below(RECORD_BYTES)] = random.pick(&EDGES),
        4 => file[at] = random.byte(0, 10),
        5 => file[at + 3] = random.byte(0, 5),
        6 => slow_down(&mut file[at..]),
        7 | 8 => rewire(random, &mut file[at..at + RECORD_BYTES], net),
        9 => drop(file.drain(at..at + RECORD_BYTES)),
        10 => file.copy_within(at..at + RECORD_BYTES, RECORD_BYTES * other),
        11 => file.resize(file.len() + 1 + random.below(19), 0),
        _ => repeat(file, at, RECORD_BYTES * other),
    }
}

/// Makes a call fail, mostly, in one of the ways that the arguments can be wrong.
pub fn spoil(random: &mut Random, arguments: &mut Arguments) {
    match random.below(13) {
        0 => damage(random, &mut arguments.file),
        1 => arguments.hop_limit = random.pick(&[0, 17, 1 << 32, u64::MAX]),
        2 => arguments.table.truncate(random.pick(&[0, 1, 15, 17, 255])),
        3 => {
            let near = [0, SHEET_WORDS - 1, SHEET_WORDS + 1];
            arguments.sheet.resize(random.pick(&near), 1);
        }
        4 => {
            let near = [0, PATTERN_BYTES - 1, PATTERN_BYTES + 1];
            arguments.pattern.resize(random.pick(&near), 1);
        }
        5 => arguments
            .work
            .truncate(random.below(8 * arguments.file.len() + 1)),
        6 => arguments.ratio = random.pick(&[0, 999, 10_001, 1 << 32, u64::MAX]),
        7 => arguments.budget = random.pick(&[10_000, 10_001, 1 << 32, u64::MAX]),
        8 => {
            let least = store_bytes(arguments.budget.min(60));
            arguments.store.truncate(random.pick(&[0, 71, least - 1]));
        }
        9 | 10 => spoil_list(random, &mut arguments.order),
        _ => {
            let net = random.pick(&[0, 1, 5, 63]);
            if let Some(byte) = arguments.pattern.get_mut(net) {
                *byte = random.byte(0, 5);
            }
        }
    }
}

/// A file of bytes with no plan, of which every other begins as an input does.
pub fn noise(random: &mut Random) -> Vec<u8> {
    let length = random.pick(&[1, RECORD_BYTES]) * random.below(40);
    let mut file: Vec<u8> = (0..length).map(|_| random.byte(0, 255)).collect();
    if let (Some(kind), 0) = (file.first_mut(), random.below(2)) {
        *kind = INPUT;
    }
    file
}

/// Gives the gates of the records the greatest delay.
fn slow_down(records: &mut [u8]) {
    for record in records.chunks_exact_mut(RECORD_BYTES) {
        if record[0] != INPUT {
            record[2] = 63;
        }
    }
}

/// Turns a pin of a record to a net near the record's own, or to any.
fn rewire(random: &mut Random, record: &mut [u8], net: usize) {
    let own = net as u16;
    let any = random.bits() as u16;
    let pin = random.pick(&[own.wrapping_sub(1), own, own + 1, own + 256, any]);
    let place = 4 + 2 * random.below(4);
    record[place..place + 2].copy_from_slice(&pin.to_le_bytes());
}

/// Puts a copy of the record at one byte before the record at another.
fn repeat(file: &mut Vec<u8>, from: usize, to: usize) {
    let record = file[from..from + RECORD_BYTES].to_vec();
    file.splice(to..to, record);
}
