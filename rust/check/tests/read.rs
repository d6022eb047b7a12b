//! Read at the edges of every check. The expected answers are written from document 01, and both
//! the library and the second implementation must give them.

use check::sample::{self, gate, input, Record};
use check::second;
use zimgurav::kind::{AND, BUF, INPUT, NAND, NOT, XNOR};
use zimgurav::{raw, read, Counts, Refusal, ANSWER_NUMBERS};

#[track_caller]
fn answers(file: &[u8], expected: Result<Counts, Refusal>) {
    assert_eq!(read(file), expected, "the library");
    assert_eq!(second::read(file), expected, "the second implementation");
}

#[track_caller]
fn accepted(block: &[Record], nets: u64, inputs: u64) {
    answers(&block.concat(), Ok(Counts { nets, inputs }));
}

#[track_caller]
fn refused(block: &[Record], number: u64, place: u64) {
    answers(&block.concat(), Err(Refusal { number, place }));
}

/// A record with one byte changed.
fn with(mut record: Record, byte: usize, value: u8) -> Record {
    record[byte] = value;
    record
}

/// A buffer of net `pin` with this delay.
fn buffer(pin: u16, delay: u8) -> Record {
    with(gate(BUF, &[pin]), 2, delay)
}

/// An input and buffers of it, `nets` records together.
fn fan(nets: usize) -> Vec<Record> {
    let mut block = vec![gate(BUF, &[0]); nets];
    block[0] = input(15);
    block
}

/// An input and a chain of buffers with these delays: the arrival of the last is their sum.
fn chain(delays: &[u8]) -> Vec<Record> {
    let gates = (0..).zip(delays).map(|(pin, &delay)| buffer(pin, delay));
    [input(15)].into_iter().chain(gates).collect()
}

mod whole_file {
    use super::*;

    #[track_caller]
    fn refused_file(file: &[u8], number: u64) {
        answers(file, Err(Refusal { number, place: 0 }));
    }

    #[test]
    fn ragged_length() {
        let block = fan(1026).concat();
        for record in [0, 1, 1022, 1023, 1024, 1025] {
            for length in 1..20 {
                refused_file(&block[..20 * record + length], 1);
            }
        }
    }

    #[test]
    fn ragged_length_whatever_the_file_holds() {
        for value in [0, 1, 9, 10, 255] {
            refused_file(&[value; 19], 1);
            refused_file(&[value; 21], 1);
        }
    }

    #[test]
    fn record_limit() {
        accepted(&fan(1023), 1023, 1);
        accepted(&fan(1024), 1024, 1);
        refused(&fan(1025), 2, 0);
        refused(&fan(2048), 2, 0);
    }

    #[test]
    fn too_many_records_whatever_they_hold() {
        for value in [0, 1, 255] {
            refused_file(&[value; 20 * 1025], 2);
        }
        let mut block = fan(1025);
        block[0][0] = AND;
        refused(&block, 2, 0);
    }

    #[test]
    fn no_record() {
        refused_file(&[], 3);
    }

    #[test]
    fn first_kind() {
        for kind in (0..=255).filter(|&kind| kind != INPUT) {
            refused(&[with(input(15), 0, kind)], 3, 0);
            refused(&[gate(kind, &[0, 0]), input(15)], 3, 0);
            refused_file(&[kind; 20], 3);
        }
    }

    #[test]
    fn first_kind_of_a_full_block() {
        let mut block = fan(1024);
        block[0][0] = BUF;
        refused(&block, 3, 0);
    }
}

mod kinds_and_inputs {
    use super::*;

    #[test]
    fn unknown_kind() {
        for kind in [0, 10, 11, 128, 255] {
            refused(&[input(15), gate(kind, &[0])], 4, 1);
            refused(&[input(15), gate(BUF, &[0]), gate(kind, &[0, 0])], 4, 2);
            refused(&[input(15), with(input(15), 0, kind)], 4, 1);
            let mut block = fan(1024);
            block[1023][0] = kind;
            refused(&block, 4, 1023);
        }
    }

    #[test]
    fn block_without_gates() {
        accepted(&[input(15)], 1, 1);
        accepted(&[input(1), input(8)], 2, 2);
        accepted(&[input(15); 64], 64, 64);
    }

    #[test]
    fn input_limit() {
        let mut block = vec![input(15); 64];
        block.push(gate(AND, &[0, 63]));
        accepted(&block, 65, 64);
        refused(&[input(15); 65], 5, 64);
        refused(&[input(15); 66], 5, 64);
        block.insert(0, input(15));
        refused(&block, 5, 64);
    }

    #[test]
    fn input_after_a_gate() {
        refused(&[input(15), gate(NOT, &[0]), input(15)], 5, 2);
        refused(&[input(15), input(15), gate(NOT, &[0]), input(15)], 5, 3);
        let mut block = fan(1024);
        block[1023] = input(15);
        refused(&block, 5, 1023);
    }
}

mod pin_counts {
    use super::*;

    #[test]
    fn by_kind() {
        for kind in AND..=BUF {
            for count in 0..=5 {
                let block = [input(15), with(gate(kind, &[]), 3, count)];
                let right = match kind {
                    AND..=XNOR => [2, 3, 4].contains(&count),
                    _ => count == 1,
                };
                if right {
                    accepted(&block, 2, 1);
                } else {
                    refused(&block, 6, 1);
                }
            }
        }
    }

    #[test]
    fn far_too_many() {
        for kind in AND..=BUF {
            for count in [6, 64, 127, 128, 255] {
                refused(&[input(15), with(gate(kind, &[]), 3, count)], 6, 1);
            }
        }
    }
}

mod stray_bytes {
    use super::*;

    const VALUES: [u8; 4] = [1, 2, 128, 255];

    #[test]
    fn of_an_input() {
        for byte in (1..=17).chain([19]) {
            for value in VALUES {
                let stray = with(input(15), byte, value);
                refused(&[stray], 7, 0);
                refused(&[input(15), stray, gate(NOT, &[0])], 7, 1);
            }
        }
    }

    #[test]
    fn of_unused_pins() {
        for (kind, count) in [(NOT, 1), (BUF, 1), (AND, 2), (XNOR, 3), (NAND, 4)] {
            let clean = gate(kind, &[0; 4][..count]);
            accepted(&[input(15), clean], 2, 1);
            for byte in 4 + 2 * count..12 {
                for value in VALUES {
                    refused(&[input(15), with(clean, byte, value)], 7, 1);
                }
            }
        }
    }

    #[test]
    fn of_the_last_two_bytes_of_a_gate() {
        for kind in AND..=BUF {
            let count = if kind < NOT { 4 } else { 1 };
            let clean = gate(kind, &[0; 4][..count]);
            for byte in [18, 19] {
                for value in VALUES {
                    refused(&[input(15), with(clean, byte, value)], 7, 1);
                }
            }
        }
    }
}

mod pins {
    use super::*;

    /// Nets 0 to 257, then the gate, net 258.
    fn block_with(gate: Record) -> Vec<Record> {
        let mut block = fan(258);
        block.push(gate);
        block
    }

    /// Gates of every pin count with net 0 at each pin but one, which has net `pin`.
    fn gates_with(pin: u16) -> impl Iterator<Item = Record> {
        let places = (1..=4).flat_map(|count| (0..count).map(move |place| (count, place)));
        places.map(move |(count, place)| {
            let mut pins = [0; 4];
            pins[place] = pin;
            gate(if count == 1 { BUF } else { AND }, &pins[..count])
        })
    }

    #[test]
    fn below_the_net() {
        for pin in [0, 1, 3, 255, 256, 257] {
            for gate in gates_with(pin) {
                accepted(&block_with(gate), 259, 1);
            }
        }
    }

    #[test]
    fn at_the_net_or_above() {
        for pin in [258, 259, 511, 512, 513, 514, 768, 1024, 32_768, 65_535] {
            for gate in gates_with(pin) {
                refused(&block_with(gate), 8, 258);
            }
        }
    }

    #[test]
    fn at_the_first_gate() {
        for gate in gates_with(0) {
            accepted(&[input(15), gate], 2, 1);
        }
        for pin in [1, 2, 256] {
            for gate in gates_with(pin) {
                refused(&[input(15), gate, buffer(0, 1)], 8, 1);
            }
        }
    }

    #[test]
    fn at_the_last_net_of_a_full_block() {
        let mut block = fan(1024);
        block[1023] = gate(AND, &[1022, 0]);
        accepted(&block, 1024, 1);
        block[1023] = gate(AND, &[0, 1023]);
        refused(&block, 8, 1023);
    }

    #[test]
    fn one_net_at_several() {
        accepted(&[input(15), gate(AND, &[0, 0])], 2, 1);
        let block = [input(15), input(15), gate(XNOR, &[1, 0, 1, 1])];
        accepted(&block, 3, 2);
    }
}

mod ranges {
    use super::*;

    /// Sets one byte of a gate of each kind to good values and to values outside its range.
    #[track_caller]
    fn gate_byte(byte: usize, good: &[u8], bad: &[u8]) {
        for kind in AND..=BUF {
            let count = if kind < NOT { 2 } else { 1 };
            let gate = gate(kind, &[0; 2][..count]);
            for &value in good {
                accepted(&[input(15), with(gate, byte, value)], 2, 1);
            }
            for &value in bad {
                refused(&[input(15), with(gate, byte, value)], 9, 1);
            }
        }
    }

    #[test]
    fn contact() {
        gate_byte(1, &[0, 1, 15], &[16, 128, 255]);
    }

    #[test]
    fn delay() {
        gate_byte(2, &[1, 2, 63], &[0, 64, 128, 255]);
    }

    #[test]
    fn rise() {
        gate_byte(12, &[1, 2, 127], &[0, 128, 255]);
    }

    #[test]
    fn fall() {
        gate_byte(13, &[1, 2, 127], &[0, 128, 255]);
    }

    #[test]
    fn peaks_are_free() {
        for peak_lh in [0, 1, 255, 256, 65_535_u16] {
            for peak_hl in [0, 1, 255, 256, 65_535_u16] {
                let mut record = gate(NAND, &[0, 0]);
                record[14..16].copy_from_slice(&peak_lh.to_le_bytes());
                record[16..18].copy_from_slice(&peak_hl.to_le_bytes());
                accepted(&[input(15), record], 2, 1);
            }
        }
    }

    #[test]
    fn allowed_excitations() {
        for allowed in 1..=15 {
            accepted(&[input(allowed)], 1, 1);
            accepted(&[input(15), input(allowed)], 2, 2);
        }
        for allowed in [0, 16, 17, 31, 128, 255] {
            refused(&[input(allowed)], 9, 0);
            refused(&[input(15), input(allowed)], 9, 1);
        }
    }
}

mod arrivals {
    use super::*;

    #[test]
    fn at_the_limit() {
        accepted(&chain(&[63, 63, 63, 63, 3]), 6, 1);
        refused(&chain(&[63, 63, 63, 63, 4]), 10, 5);
        refused(&chain(&[63; 6]), 10, 5);
    }

    #[test]
    fn of_single_ticks() {
        accepted(&chain(&[1; 255]), 256, 1);
        refused(&chain(&[1; 256]), 10, 256);
        refused(&chain(&[1; 300]), 10, 256);
    }

    #[test]
    fn is_the_greatest_of_the_pins() {
        // Net 4 arrives at 250, net 5 at 1.
        let mut block = chain(&[63, 63, 63, 61]);
        block.push(buffer(0, 1));
        for count in 2..=4 {
            for late in 0..count {
                let mut pins = [0, 5, 3, 1];
                pins[late] = 4;
                let record = gate(AND, &pins[..count]);
                block.push(with(record, 2, 5));
                accepted(&block, 7, 1);
                block[6][2] = 6;
                refused(&block, 10, 6);
                block.pop();
            }
        }
    }

    #[test]
    fn is_no_sum_over_pins() {
        let mut block = chain(&[50, 50, 50, 50]);
        block.push(with(gate(XNOR, &[4, 4, 3, 4]), 2, 55));
        accepted(&block, 6, 1);
    }

    #[test]
    fn of_another_path_is_left_alone() {
        let mut block = chain(&[63, 63, 63, 63, 3]);
        block.push(buffer(0, 63));
        block.push(buffer(6, 63));
        accepted(&block, 8, 1);
    }

    #[test]
    fn of_a_net_above_255() {
        // Net 260 arrives at 255; net 4, which has the same low byte, at 1.
        let mut block = fan(256);
        block.extend((0..4).map(|step| buffer(if step == 0 { 0 } else { 255 + step }, 63)));
        block.push(buffer(259, 3));
        block.push(buffer(4, 1));
        accepted(&block, 262, 1);
        block[261] = buffer(260, 1);
        refused(&block, 10, 261);
    }
}

mod order {
    use super::*;

    /// Ways to make a gate fail one check; the gate is AND of net 0 three times with a delay of 2.
    /// Each entry has the check, the byte and its value. Net 5 arrives at 254.
    const GATE_FAULTS: [(u64, usize, u8); 20] = [
        (4, 0, 0),
        (4, 0, 10),
        (4, 0, 255),
        (6, 3, 0),
        (6, 3, 1),
        (6, 3, 5),
        (7, 10, 1),
        (7, 11, 1),
        (7, 18, 1),
        (7, 19, 1),
        (8, 4, 7),
        (8, 5, 1),
        (8, 6, 7),
        (9, 1, 16),
        (9, 12, 0),
        (9, 12, 128),
        (9, 13, 0),
        (9, 13, 128),
        (9, 2, 64),
        (10, 8, 5),
    ];

    const INPUT_FAULTS: [(u64, usize, u8); 5] =
        [(7, 1, 1), (7, 17, 1), (7, 19, 1), (9, 18, 0), (9, 18, 16)];

    fn plain_gate() -> Record {
        with(gate(AND, &[0, 0, 0]), 2, 2)
    }

    /// Nets 0 to 5, the last with an arrival of 254, and then these records.
    fn block_with(records: &[Record]) -> Vec<Record> {
        let mut block = chain(&[63, 63, 63, 63, 2]);
        block.extend(records);
        block
    }

    #[test]
    fn each_gate_fault_alone() {
        accepted(&block_with(&[plain_gate(), plain_gate()]), 8, 1);
        for (check, byte, value) in GATE_FAULTS {
            let faulty = with(plain_gate(), byte, value);
            refused(&block_with(&[faulty, plain_gate()]), check, 6);
            refused(&block_with(&[plain_gate(), faulty]), check, 7);
        }
    }

    #[test]
    fn the_earlier_check_of_a_gate_wins() {
        for (first, byte, value) in GATE_FAULTS {
            let faulty = with(plain_gate(), byte, value);
            for (later, byte, value) in GATE_FAULTS {
                if first < later {
                    let doubly_faulty = with(faulty, byte, value);
                    refused(&block_with(&[doubly_faulty]), first, 6);
                }
            }
        }
    }

    #[test]
    fn the_earlier_check_of_an_input_wins() {
        for (check, byte, value) in INPUT_FAULTS {
            let faulty = with(input(15), byte, value);
            refused(&[input(15), faulty], check, 1);
            // Check 5 comes before either.
            refused(&block_with(&[faulty]), 5, 6);
            let mut inputs = vec![input(15); 64];
            inputs.push(faulty);
            refused(&inputs, 5, 64);
            for allowed in [0, 16] {
                let doubly_faulty = with(faulty, 18, allowed);
                refused(&[input(15), doubly_faulty], check, 1);
                refused(&block_with(&[doubly_faulty]), 5, 6);
            }
        }
    }

    #[test]
    fn the_earlier_record_wins() {
        for (check, byte, value) in GATE_FAULTS {
            let faulty = with(plain_gate(), byte, value);
            for (_, byte, value) in GATE_FAULTS {
                let later = with(plain_gate(), byte, value);
                refused(&block_with(&[faulty, later]), check, 6);
            }
            refused(&block_with(&[faulty, input(15)]), check, 6);
            refused(&[input(0), faulty], 9, 0);
            refused(&[with(input(15), 19, 1), faulty], 7, 0);
        }
        refused(&block_with(&[input(15), with(input(15), 0, 0)]), 5, 6);
    }

    #[test]
    fn the_whole_file_comes_first() {
        for (_, byte, value) in GATE_FAULTS {
            let faulty = with(plain_gate(), byte, value);
            let mut block = block_with(&[faulty]);
            block[0][0] = NOT;
            refused(&block, 3, 0);
            block.resize(1025, faulty);
            refused(&block, 2, 0);
        }
    }
}

mod examples {
    use super::*;

    #[test]
    fn block_s() {
        let block = sample::block_s();
        assert_eq!(
            block.concat(),
            include_bytes!("../../../examples/block_s.blk")
        );
        accepted(&block, 3, 1);
    }

    #[test]
    fn block_f() {
        let block = sample::block_f();
        assert_eq!(
            block.concat(),
            include_bytes!("../../../examples/block_f.blk")
        );
        accepted(&block, 4, 2);
    }
}

/// All eight numbers, over what stood there before.
#[test]
fn whole_answer() {
    let answer = |file: &[u8]| {
        let mut answer = [u64::MAX; ANSWER_NUMBERS];
        // SAFETY: both pointers are good for their lengths, and the answer is a buffer of its own.
        unsafe { raw::zimgurav_read(file.as_ptr(), file.len(), &mut answer) };
        answer
    };
    assert_eq!(answer(&fan(7).concat()), [0, 7, 1, 0, 0, 0, 0, 0]);
    assert_eq!(
        answer(&[input(15); 64].concat()),
        [0, 64, 64, 0, 0, 0, 0, 0]
    );
    assert_eq!(answer(&[]), [3, 0, 0, 0, 0, 0, 0, 0]);
    assert_eq!(answer(&[1]), [1, 0, 0, 0, 0, 0, 0, 0]);
    assert_eq!(answer(&fan(1025).concat()), [2, 0, 0, 0, 0, 0, 0, 0]);
    assert_eq!(answer(&[input(15); 65].concat()), [5, 64, 0, 0, 0, 0, 0, 0]);
    assert_eq!(answer(&chain(&[63; 5]).concat()), [10, 5, 0, 0, 0, 0, 0, 0]);
}
