//! Envelope and Simulate on document 01's examples, at the ends of their ranges, with all kinds of
//! buffers, and against each other. The expected currents are written from document 01 and the requests
//! that change it, and both the library and the second implementation must give them.

use std::ops::RangeInclusive;

use check::implementation::{Operation, LIBRARY, SECOND};
use check::sample::{
    self, drawing, gate, input, patterns, silent, switching_at, Arguments, Random, Record, Shape,
};
use check::second::simulation_overlaps;
use zimgurav::excitation::{H, HL, L, LH};
use zimgurav::kind::{AND, BUF, NAND, NOR, NOT, OR, XNOR, XOR};
use zimgurav::{work_bytes, Currents, Refusal, Word, RECORD_BYTES, ROW_TICKS, SHEET_WORDS};

/// Checks the drop, the quiet tick and every word of the sheet. A row is written from tick 0 and is
/// 0 after what is written; the contacts that have no row draw nothing.
#[track_caller]
fn gives(
    arguments: &Arguments,
    call: Operation<Currents>,
    drop: u64,
    quiet: u64,
    rows: &[(usize, &[Word])],
) {
    let mut sheet = vec![0; SHEET_WORDS];
    for &(contact, row) in rows {
        let start = ROW_TICKS * contact;
        sheet[start..start + row.len()].copy_from_slice(row);
    }
    for implementation in [LIBRARY, SECOND] {
        let name = implementation.name;
        let mut lent = arguments.clone();
        let answer = call(&mut lent, &implementation);
        assert_eq!(answer, Ok(Currents { drop, quiet }), "{name}");
        let different = (0..SHEET_WORDS).find(|&word| lent.sheet[word] != sheet[word]);
        if let Some(word) = different {
            let (contact, tick) = (word / ROW_TICKS, word % ROW_TICKS);
            let (is, not) = (lent.sheet[word], sheet[word]);
            panic!("{name}: {is} instead of {not} at contact {contact}, tick {tick}");
        }
    }
}

#[track_caller]
fn envelope_gives(arguments: &Arguments, drop: u64, quiet: u64, rows: &[(usize, &[Word])]) {
    gives(arguments, Arguments::envelope, drop, quiet, rows);
}

#[track_caller]
fn simulate_gives(arguments: &Arguments, drop: u64, quiet: u64, rows: &[(usize, &[Word])]) {
    gives(arguments, Arguments::simulate, drop, quiet, rows);
}

/// Accepted arguments with this pattern at the first inputs.
fn with_pattern(block: &[Record], excitations: &[u8]) -> Arguments {
    let mut arguments = Arguments::new(block);
    arguments.pattern[..excitations.len()].copy_from_slice(excitations);
    arguments
}

/// Both operations, with a pattern of lh at net 0, the only input, which allows nothing else.
#[track_caller]
fn both_give(block: &[Record], drop: u64, quiet: u64, rows: &[(usize, &[Word])]) {
    let arguments = with_pattern(block, &[LH]);
    simulate_gives(&arguments, drop, quiet, rows);
    envelope_gives(&arguments, drop, quiet, rows);
}

/// The whole number nearest to product / steps, of two that are as near the even one. Distances are multiplied by
/// `steps`, which makes them whole numbers too.
fn nearest(product: Word, steps: Word) -> Word {
    let below = product / steps;
    let neighbours = [below, below + 1].into_iter();
    let nearest = neighbours.min_by_key(|whole| ((whole * steps).abs_diff(product), whole % 2));
    nearest.expect("one of two")
}

/// A pulse from its start to its end, by the rule.
fn pulse_row(slopes: [u8; 2], peak: u16) -> Vec<Word> {
    let [rise, fall] = slopes.map(Word::from);
    let part = |step, steps| nearest(Word::from(peak) * step, steps);
    let rising = (0..rise).map(|step| part(step, rise));
    let falling = (0..=fall).rev().map(|step| part(step, fall));
    rising.chain(falling).collect()
}

/// The last tick at which the row is not 0, and 0 if none is.
fn last_current(row: &[Word]) -> u64 {
    row.iter().rposition(|&current| current != 0).unwrap_or(0) as u64
}

mod block_f {
    use super::*;

    /// Block F with resistances 2 and 1 at contacts 0 and 1.
    fn arguments(excitations: [u8; 2]) -> Arguments {
        let mut arguments = with_pattern(&sample::block_f(), &excitations);
        arguments.table = vec![0; 16];
        arguments.table[..2].copy_from_slice(&[2, 1]);
        arguments
    }

    /// Net 3 may switch at ticks 2 and 3, and its greater pulse is that of 31: 0, 16, 31, 16, 0 from tick 0 and from
    /// tick 1. At tick 2 the node drops 2 * 10 + 47.
    #[test]
    fn envelope() {
        let rows: [(usize, &[Word]); 2] = [(0, &[0, 20, 10, 0]), (1, &[0, 16, 47, 47, 16, 0])];
        envelope_gives(&arguments([L, L]), 67, 4, &rows);
        for hop_limit in 1..=16 {
            let arguments = Arguments {
                hop_limit,
                ..arguments([L, L])
            };
            envelope_gives(&arguments, 67, 4, &rows);
        }
    }

    /// Net 3 falls at tick 2 and rises at tick 3: pulses 0, 16, 31, 16, 0 from tick 0 and 0, 15, 30, 15, 0 from
    /// tick 1. At tick 2 they have 31 + 15, and the node drops 2 * 10 + 46.
    #[test]
    fn both_lh() {
        let rows: [(usize, &[Word]); 2] = [(0, &[0, 20, 10, 0]), (1, &[0, 16, 46, 46, 15])];
        simulate_gives(&arguments([LH, LH]), 66, 4, &rows);
    }

    /// Net 2 falls at tick 1; net 3 has h, as net 1 is low.
    #[test]
    fn lh_and_l() {
        simulate_gives(&arguments([LH, L]), 40, 2, &[(0, &[0, 20, 10])]);
    }

    /// Net 2 rises at tick 1, and net 3 falls at tick 3, as net 1 is high.
    #[test]
    fn hl_and_h() {
        let rows: [(usize, &[Word]); 2] = [(0, &[0, 10, 5]), (1, &[0, 0, 16, 31, 16])];
        simulate_gives(&arguments([HL, H]), 31, 4, &rows);
    }

    #[test]
    fn no_transition() {
        for excitations in [[L, L], [L, H], [H, L], [H, H]] {
            simulate_gives(&arguments(excitations), 0, 0, &[]);
        }
    }
}

mod block_s {
    use super::*;

    fn arguments(excitation: u8) -> Arguments {
        with_pattern(&sample::block_s(), &[excitation])
    }

    /// U is 20 before any split.
    #[test]
    fn envelope() {
        envelope_gives(&arguments(L), 20, 1, &[(0, &[0, 20])]);
    }

    /// L is 10, whichever of the two gates rises.
    #[test]
    fn simulate() {
        simulate_gives(&arguments(LH), 10, 1, &[(0, &[0, 10])]);
        simulate_gives(&arguments(HL), 10, 1, &[(0, &[0, 10])]);
        simulate_gives(&arguments(H), 0, 0, &[]);
        simulate_gives(&arguments(L), 0, 0, &[]);
    }
}

mod pulses {
    use super::*;

    /// One buffer at contact 0 that rises, seen by both operations.
    #[track_caller]
    fn pulse([rise, fall]: [u8; 2], peak: u16, quiet: u64, row: &[Word]) {
        let buffer = drawing(gate(BUF, &[0]), [0, 1, rise, fall], [peak, 0]);
        both_give(&[input(8), buffer], peak.into(), quiet, &[(0, row)]);
    }

    /// The pulse that the rule gives.
    #[track_caller]
    fn pulse_by_rule(slopes: [u8; 2], peak: u16) {
        let row = pulse_row(slopes, peak);
        pulse(slopes, peak, last_current(&row), &row);
    }

    #[test]
    fn of_31() {
        pulse([2, 2], 31, 3, &[0, 16, 31, 16, 0]);
    }

    #[test]
    fn of_33() {
        pulse([2, 2], 33, 3, &[0, 16, 33, 16, 0]);
    }

    #[test]
    fn of_7() {
        pulse([3, 1], 7, 3, &[0, 2, 5, 7]);
        pulse([1, 3], 7, 3, &[0, 7, 5, 2]);
    }

    #[test]
    fn of_nothing() {
        pulse([127, 127], 0, 0, &[]);
    }

    /// A peak of 1 is rounded to 0 up to a half: of 127 steps it has 1 from step 64 on. A peak of 3 has 1.5 at step 5
    /// of 10, which becomes 2.
    #[test]
    fn of_1_and_3() {
        let row = |from: usize, to: usize| [vec![0; from], vec![1; to + 1 - from]].concat();
        pulse([127, 127], 1, 190, &row(64, 190));
        pulse([127, 1], 1, 127, &row(64, 127));
        pulse([1, 127], 1, 64, &row(1, 64));
        pulse([2, 2], 1, 2, &[0, 0, 1]);
        pulse([1, 10], 3, 9, &[0, 3, 3, 2, 2, 2, 2, 1, 1, 1]);
    }

    /// The peak is half the number of steps, so that step k has k / 2.
    #[test]
    fn of_halves() {
        let halves = [0, 0, 1, 2, 2, 2, 3, 4, 4, 4, 5, 6, 6, 6, 7, 8, 8];
        for steps in (2..=16).step_by(2) {
            let rising = &halves[..=usize::from(steps)];
            let peak = u16::from(steps / 2);
            pulse([steps, 1], peak, steps.into(), rising);
            let falling = [0].iter().chain(rising.iter().rev());
            let falling: Vec<Word> = falling.copied().collect();
            pulse([1, steps], peak, u64::from(steps) - 1, &falling);
        }
    }

    /// Whether one of the peaks has an exact half at this step: with an even number below it, and with an odd one.
    fn have_halves(peaks: RangeInclusive<u16>, step: u8, steps: u8) -> [bool; 2] {
        let [step, steps] = [step, steps].map(u16::from);
        [0, 1].map(|odd| {
            let mut products = peaks.clone().map(|peak| peak * step);
            products.any(|product| 2 * (product % steps) == steps && product / steps % 2 == odd)
        })
    }

    /// An exact half can occur at each step that has fewer factors 2 than the number of steps. With peaks up to twice
    /// that number it occurs at each of them with an even number below it, and with an odd one.
    #[test]
    fn of_every_half_in_few_steps() {
        for steps in (2..=16_u8).step_by(2) {
            let peaks = 0..=2 * u16::from(steps);
            for step in 1..steps {
                let can_occur = step.trailing_zeros() < steps.trailing_zeros();
                assert_eq!(have_halves(peaks.clone(), step, steps), [can_occur; 2]);
            }
            for peak in peaks {
                pulse_by_rule([steps, 1], peak);
                pulse_by_rule([1, steps], peak);
            }
        }
    }

    /// The two greatest peaks: exact halves, and what is closest to a half where there is none.
    #[test]
    fn of_the_greatest_peaks() {
        for (peak, step, steps, current) in [
            (65_535, 1, 2, 32_768),     // 32,767 1/2
            (65_535, 21, 126, 10_922),  // 10,922 1/2
            (65_535, 63, 126, 32_768),  // 32,767 1/2
            (65_535, 105, 126, 54_612), // 54,612 1/2
            (65_534, 4, 126, 2_080),    // 2,080 4/9
            (65_534, 5, 126, 2_601),    // 2,600 5/9
            (65_535, 21, 127, 10_836),  // 10,836 63/127
            (65_535, 106, 127, 54_699), // 54,698 64/127
            (65_534, 95, 127, 49_021),  // 49,021 63/127
            (65_534, 32, 127, 16_513),  // 16,512 64/127
        ] {
            assert_eq!(nearest(peak * step, steps), current);
        }
        for steps in [2, 126, 127] {
            for peak in [65_534, 65_535] {
                pulse_by_rule([steps, 1], peak);
                pulse_by_rule([1, steps], peak);
            }
        }
    }

    /// 65,535 is 516 × 127 + 3, and 3 × k / 127 is nearest to 1 from k 22 on, to 2 from 64 and to 3 from 106.
    #[test]
    fn of_the_greatest_peak_and_slopes() {
        let more = |k| [22, 64, 106].iter().filter(|&&from| from <= k).count();
        let steps = (0..=127).chain((0..127).rev());
        let row: Vec<Word> = steps.map(|k| 516 * k + more(k) as Word).collect();
        pulse([127, 127], 65_535, 253, &row);
    }

    /// Each rise and each fall, for both edges, with one of these peaks at each contact.
    #[test]
    fn of_all_slopes() {
        let peaks = [
            0, 1, 2, 3, 31, 33, 62, 63, 64, 126, 127, 128, 32_767, 32_768, 65_534, 65_535,
        ];
        let drop = peaks.iter().map(|&peak| u64::from(peak)).sum();
        for rise in 1..=127 {
            let fall = 128 - rise;
            let rows = peaks.map(|peak| pulse_row([rise, fall], peak));
            let quiet = rows.iter().map(|row| last_current(row)).max();
            let rows: Vec<(usize, &[Word])> = (0..).zip(rows.iter().map(|row| &row[..])).collect();
            for kind in [BUF, NOT] {
                let gates = (0..).zip(peaks).map(|(contact, peak)| {
                    let edges = if kind == BUF { [peak, 0] } else { [0, peak] };
                    drawing(gate(kind, &[0]), [contact, 1, rise, fall], edges)
                });
                let block: Vec<Record> = [input(8)].into_iter().chain(gates).collect();
                both_give(&block, drop, quiet.expect("16 rows"), &rows);
            }
        }
    }

    /// Arrival 255 at the end of a chain: with a delay of 1 the last pulse ends at tick 508. The tick before
    /// has a 127th of the peak, which is rounded to 0 if the peak is below 64.
    #[test]
    fn at_the_latest_arrival() {
        let mut block = vec![input(8)];
        for (pin, delay) in (0..).zip([63, 63, 63, 63, 2]) {
            block.push(silent(gate(BUF, &[pin]), delay));
        }
        block.push(gate(BUF, &[5]));
        for (peak, quiet) in [(65_535, 507), (64, 507), (63, 506)] {
            block[6] = drawing(gate(BUF, &[5]), [15, 1, 127, 127], [peak, 1]);
            let row = [vec![0; 254], pulse_row([127, 127], peak)].concat();
            both_give(&block, peak.into(), quiet, &[(15, &row)]);
        }

        block[6][2] = 2;
        let arguments = with_pattern(&block, &[LH]);
        for call in [Arguments::envelope, Arguments::simulate] {
            for implementation in [LIBRARY, SECOND] {
                let refusal = Refusal {
                    number: 10,
                    place: 6,
                };
                let mut lent = arguments.clone();
                assert_eq!(call(&mut lent, &implementation), Err(refusal));
                assert!(lent == arguments);
            }
        }
    }

    /// A pulse starts D before its transition. The pulses of a gate are added, and so are those of two gates.
    #[test]
    fn of_one_gate_and_of_two() {
        // Net 3 has lh at tick 10, hl at 12: pulses 0, 10, 20, 30, 20, 10 from tick 6 and 0, 20, 40, 60, 40, 20 from
        // tick 8.
        let xor = drawing(gate(XOR, &[1, 2]), [3, 4, 3, 3], [30, 60]);
        let block = [
            input(8),
            silent(gate(BUF, &[0]), 6),
            silent(gate(BUF, &[0]), 8),
            xor,
        ];
        let row = [0, 0, 0, 0, 0, 0, 0, 10, 20, 50, 60, 70, 40, 20];
        simulate_gives(&with_pattern(&block, &[LH]), 70, 13, &[(3, &row)]);
        let two = [&block[..], &[xor]].concat();
        let row = row.map(|current| 2 * current);
        simulate_gives(&with_pattern(&two, &[LH]), 140, 13, &[(3, &row)]);
    }
}

/// Pulses of one gate that are in progress at the same tick.
mod sums {
    use super::*;

    /// Adds a pulse that starts at this tick to the row.
    fn add_pulse(row: &mut [Word], start: usize, pulse: &[Word]) {
        for (current, &more) in row[start..].iter_mut().zip(pulse) {
            *current += more;
        }
    }

    /// Pulses that start at each of the neighbouring ticks. At tick t they have every age from t less the last start to
    /// t less the first, so that they have the sum of the pulse up to the one, less that before the other.
    fn run_of_pulses(starts: RangeInclusive<usize>, pulse: &[Word]) -> Vec<Word> {
        let up_to =
            |age: usize| -> u128 { pulse.iter().take(age + 1).copied().map(u128::from).sum() };
        let sum = |tick: usize| {
            let oldest = tick.checked_sub(*starts.start());
            let too_young = tick.checked_sub(*starts.end() + 1);
            oldest.map_or(0, up_to) - too_young.map_or(0, up_to)
        };
        let sums = (0..ROW_TICKS).map(sum);
        sums.map(|sum| Word::try_from(sum).expect("64 bits"))
            .collect()
    }

    /// A pulse in rising numbers has the sum of 1 to 4 once all of its ages are there.
    #[test]
    fn of_a_run_by_hand() {
        let row = run_of_pulses(2..=6, &[0, 1, 2, 3, 4]);
        assert_eq!(row[..12], [0, 0, 0, 1, 3, 6, 10, 10, 9, 7, 4, 0]);
    }

    /// The gate rises at tick 9 and falls so many ticks later: 0, 30, 60, 40, 20, 0 from tick 6 on and 0, 15, 30, 20, 10,
    /// 0 from as many ticks later. From four ticks on they do not overlap: the second starts at the first's last tick.
    #[test]
    fn from_the_first_tick_to_the_last() {
        let rows: [&[Word]; 6] = [
            &[30, 75, 70, 40, 10],
            &[30, 60, 55, 50, 20, 10],
            &[30, 60, 40, 35, 30, 20, 10],
            &[30, 60, 40, 20, 15, 30, 20, 10],
            &[30, 60, 40, 20, 0, 15, 30, 20, 10],
            &[30, 60, 40, 20, 0, 0, 15, 30, 20, 10],
        ];
        for (later, row) in (1..).zip(rows) {
            let block = [
                input(8),
                silent(gate(BUF, &[0]), 6),
                silent(gate(BUF, &[0]), 6 + later),
                drawing(gate(XOR, &[1, 2]), [5, 3, 2, 3], [60, 30]),
            ];
            let row = [&[0; 7][..], row].concat();
            let drop = row.iter().copied().max().expect("a row");
            both_give(&block, drop, last_current(&row), &[(5, &row)]);
        }
    }

    /// A gate over delays of an input that rises or stays low: it may rise at each of the ticks, and but for the first
    /// of them fall.
    fn may_switch_at(ticks: &[u8], slopes: [u8; 2], peaks: [u16; 2], hop_limit: u64) -> Arguments {
        let mut block = vec![input(1 + 8)];
        for tick in ticks {
            block.push(silent(gate(BUF, &[0]), tick - 1));
        }
        let pins: Vec<u16> = (1..).take(ticks.len()).collect();
        let timing = [0, 1, slopes[0], slopes[1]];
        block.push(drawing(gate(XOR, &pins), timing, peaks));
        Arguments {
            hop_limit,
            ..with_pattern(&block, &[LH])
        }
    }

    /// The gate may rise at ticks 2 to 4, of which tick 3 is filled or not: pulses 0, 30, 60, 40, 20 from ticks 1, 2 and 3
    /// on. Under lh that with three delays rises at ticks 2 and 4 and falls at 3, that with two rises at 2 and falls at 4.
    #[test]
    fn of_a_run() {
        let run = [0, 0, 30, 90, 130, 120, 60, 20];
        let two = [0, 0, 30, 60, 70, 80, 40, 20];
        let arguments = |ticks: &[u8], hop_limit| may_switch_at(ticks, [2, 3], [60, 0], hop_limit);
        for hop_limit in 1..=16 {
            envelope_gives(&arguments(&[2, 3, 4], hop_limit), 130, 7, &[(0, &run)]);
        }
        simulate_gives(&arguments(&[2, 3, 4], 1), 80, 7, &[(0, &two)]);
        envelope_gives(&arguments(&[2, 4], 1), 130, 7, &[(0, &run)]);
        envelope_gives(&arguments(&[2, 4], 2), 80, 7, &[(0, &two)]);
        let one = [0, 0, 30, 60, 40, 20];
        simulate_gives(&arguments(&[2, 4], 1), 60, 5, &[(0, &one)]);
    }

    /// Each value is rounded before it is added: two of 15.5 have 16 + 16, and so have two of 16.5.
    #[test]
    fn of_rounded_values() {
        for (peak, drop) in [(31, 16 + 16), (33, 33)] {
            let arguments = may_switch_at(&[2, 4], [2, 2], [peak, peak], 16);
            let row: [Word; 7] = [0, 0, 16, peak.into(), 16 + 16, peak.into(), 16];
            simulate_gives(&arguments, drop, 6, &[(0, &row)]);
            envelope_gives(&arguments, drop, 6, &[(0, &row)]);
        }
    }

    /// The input may have both edges, and so may its buffer at tick 1: pulses of one tick, then such as go on.
    #[test]
    fn of_a_tick_that_allows_both_edges() {
        for [lh, hl] in [[30, 20], [20, 30], [30, 30], [0, 30]] {
            let block = |slopes: [u8; 2]| {
                let timing = [0, 1, slopes[0], slopes[1]];
                [input(12), drawing(gate(BUF, &[0]), timing, [lh, hl])]
            };
            envelope_gives(&Arguments::new(&block([1, 1])), 30, 1, &[(0, &[0, 30])]);
            let row = [0, 15, 30, 20, 10];
            envelope_gives(&Arguments::new(&block([2, 3])), 30, 4, &[(0, &row)]);
            for (edge, peak) in [(LH, Word::from(lh)), (HL, hl.into())] {
                let quiet = u64::from(peak != 0);
                let arguments = with_pattern(&block([1, 1]), &[edge]);
                simulate_gives(&arguments, peak, quiet, &[(0, &[0, peak])]);
            }
        }
    }

    /// The gate may rise at ticks 2, 4 and 9, and fall at ticks 4 and 9. With one hop it may rise at ticks 2 to 9 and fall
    /// at ticks 4 to 9: each of these is filled for both edges, and counts once.
    #[test]
    fn of_ticks_filled_for_both_edges() {
        for (peaks, [first, later]) in [
            ([10, 25], [10, 25]),
            ([25, 10], [25, 25]),
            ([10, 10], [10, 10]),
        ] {
            let gives = |hop_limit, row: [Word; 10]| {
                let arguments = may_switch_at(&[2, 4, 9], [1, 1], peaks, hop_limit);
                envelope_gives(&arguments, later, 9, &[(0, &row)]);
            };
            gives(3, [0, 0, first, 0, later, 0, 0, 0, 0, later]);
            gives(
                1,
                [0, 0, first, first, later, later, later, later, later, later],
            );
        }
    }

    /// The greatest rise and fall: a pulse draws for 253 ticks.
    const SLOPES: [u8; 2] = [127, 127];

    /// The block whose last net switches at so many ticks from tick 4 on, and draws with these peaks at this contact.
    fn switching(ticks: u16, allowed: u8, contact: u8, peaks: [u16; 2]) -> Vec<Record> {
        let mut block = switching_at(ticks, allowed);
        let last = block.last_mut().expect("a gate");
        *last = drawing(*last, [contact, 1, SLOPES[0], SLOPES[1]], peaks);
        block
    }

    /// The last net switches at ticks 4 to 253, or 4 to 255, the latest arrival. Of the ages 1 to 253 at which a pulse
    /// draws, 250 of 250 pulses are there at most: all but 1, 2 and 253, or but 1, 252 and 253. 252 of 252 are all but one.
    #[test]
    fn of_every_tick() {
        let pulse = pulse_row(SLOPES, 65_535);
        let whole = 127 * 65_535;
        for (ticks, missing) in [(250, 516 + 1_032 + 516), (252, 516)] {
            let last = 2 + usize::from(ticks);
            let row = run_of_pulses(3..=last, &pulse);
            let (drop, quiet) = (whole - missing, last as u64 + 253);
            for allowed in [8, 12, 15] {
                let block = switching(ticks, allowed, 9, [65_535; 2]);
                let mut arguments = with_pattern(&block, &[LH]);
                simulate_gives(&arguments, drop, quiet, &[(9, &row)]);
                for hop_limit in [1, 2, 10, 16] {
                    arguments.hop_limit = hop_limit;
                    envelope_gives(&arguments, drop, quiet, &[(9, &row)]);
                }
            }
        }
    }

    /// The last net rises and falls in turn, whichever edge the input has. Its pulses are added one by one. Where the
    /// input may have either edge, every tick allows both.
    #[test]
    fn of_every_tick_with_two_peaks() {
        let peaks = [40_000, 65_535];
        let [lh, hl] = peaks.map(|peak| pulse_row(SLOPES, peak));
        let mut row = vec![0; ROW_TICKS];
        for start in (3..=252).step_by(2) {
            add_pulse(&mut row, start, &lh);
            add_pulse(&mut row, start + 1, &hl);
        }
        let drop = row.iter().copied().max().expect("a row");
        for edge in [LH, HL] {
            let arguments = with_pattern(&switching(250, 15, 0, peaks), &[edge]);
            simulate_gives(&arguments, drop, 505, &[(0, &row)]);
        }
        let ceiling = run_of_pulses(3..=252, &hl);
        let arguments = Arguments::new(&switching(250, 15, 0, peaks));
        let drop = 127 * 65_535 - 2 * 516 - 1_032;
        envelope_gives(&arguments, drop, 505, &[(0, &ceiling)]);
    }

    /// Checks a call with the greatest resistances, of which the sheet was worked out in 128 bits.
    #[track_caller]
    fn gives_at_the_greatest(
        arguments: &Arguments,
        call: Operation<Currents>,
        sheet: &[[u128; ROW_TICKS]; 16],
    ) {
        let total = |tick: usize| sheet.iter().map(|row| row[tick]).sum::<u128>();
        let most = (0..ROW_TICKS).map(total).max().expect("512 ticks");
        let drop = u64::try_from(65_535 * most).expect("64 bits");
        let quiet = (0..ROW_TICKS).rfind(|&tick| total(tick) != 0);
        let words = |row: &[u128; ROW_TICKS]| row.map(|sum| Word::try_from(sum).expect("64 bits"));
        let rows: Vec<[Word; ROW_TICKS]> = sheet.iter().map(words).collect();
        let rows: Vec<(usize, &[Word])> = (0..).zip(rows.iter().map(|row| &row[..])).collect();
        let quiet = quiet.expect("a current") as u64;
        gives(arguments, call, drop, quiet, &rows);
    }

    /// Adds a gate's row to that of its contact.
    fn add_row(sheet: &mut [[u128; ROW_TICKS]; 16], contact: usize, row: &[Word]) {
        for (sum, &current) in sheet[contact].iter_mut().zip(row) {
            *sum += u128::from(current);
        }
    }

    /// As many gates as there can be: 1,018 that with one hop may switch at every tick from 1 to 255, as they join the
    /// input with itself after five delays, of 254 ticks together; and these five draw too. At tick 253 a gate of the
    /// first has all ages of a pulse, which have 127 * 65,535 together.
    #[test]
    fn of_the_largest_envelope() {
        let delays = [63, 63, 63, 63, 2];
        let pulse = pulse_row(SLOPES, 65_535);
        for contacts in [1, 16] {
            let draw = |gate: Record, net: usize, delay| {
                let contact = (net % contacts) as u8;
                drawing(gate, [contact, delay, SLOPES[0], SLOPES[1]], [65_535; 2])
            };
            let mut block = vec![input(15)];
            let mut sheet = [[0; ROW_TICKS]; 16];
            let mut start = 0;
            for (net, delay) in (1..).zip(delays) {
                block.push(draw(gate(BUF, &[net as u16 - 1]), net, delay));
                add_row(
                    &mut sheet,
                    net % contacts,
                    &run_of_pulses(start..=start, &pulse),
                );
                start += usize::from(delay);
            }
            let run = run_of_pulses(0..=254, &pulse);
            assert_eq!(run[253], 127 * 65_535);
            for net in 6..1024 {
                block.push(draw(gate(XOR, &[0, 5]), net, 1));
                add_row(&mut sheet, net % contacts, &run);
            }
            assert_eq!(contacts == 1, sheet[0][253] > 1 << 32);
            let mut arguments = Arguments::new(&block);
            arguments.hop_limit = 1;
            arguments.table = vec![65_535; 256];
            gives_at_the_greatest(&arguments, Arguments::envelope, &sheet);
        }
    }

    /// 690 buffers of a net that switches at ticks 4 to 253, so that each has pulses from ticks 4 to 253 on too: words
    /// above 32 bits of one pattern.
    #[test]
    fn of_the_largest_simulation() {
        let run = run_of_pulses(4..=253, &pulse_row(SLOPES, 65_535));
        for contacts in [1, 16] {
            let mut block = switching_at(250, 15);
            let last = block.len() as u16 - 1;
            let mut sheet = [[0; ROW_TICKS]; 16];
            for net in block.len()..1024 {
                let timing = [(net % contacts) as u8, 1, SLOPES[0], SLOPES[1]];
                block.push(drawing(gate(BUF, &[last]), timing, [65_535; 2]));
                add_row(&mut sheet, net % contacts, &run);
            }
            let highest = sheet[0].iter().max().expect("512 ticks");
            assert_eq!(contacts == 1, *highest > 1 << 32);
            let mut arguments = with_pattern(&block, &[LH]);
            arguments.table = vec![65_535; 256];
            gives_at_the_greatest(&arguments, Arguments::simulate, &sheet);
            gives_at_the_greatest(&arguments, Arguments::envelope, &sheet);
        }
    }
}

mod runs {
    use super::*;

    /// A gate that may rise at exactly these ticks, through as many delays, and draws 10 at each.
    fn may_rise_at(ticks: &[u8], hop_limit: u64) -> Arguments {
        let mut block = vec![input(1 + 8)];
        for tick in ticks {
            block.push(silent(gate(BUF, &[0]), tick - 1));
        }
        let pins: Vec<u16> = (1..).take(ticks.len()).collect();
        block.push(drawing(gate(XOR, &pins), [0, 1, 1, 1], [10, 0]));
        Arguments {
            hop_limit,
            ..Arguments::new(&block)
        }
    }

    #[track_caller]
    fn filled(ticks: &[u8], hop_limit: u64, expected: &[usize]) {
        let mut row = [0; 256];
        for &tick in expected {
            row[tick] = 10;
        }
        // The gate draws at the ticks of its edges alone.
        let quiet = u64::from(ticks[ticks.len() - 1]);
        let arguments = may_rise_at(ticks, hop_limit);
        envelope_gives(&arguments, 10, quiet, &[(0, &row)]);
    }

    #[test]
    fn at_2_4_9() {
        for hop_limit in 3..=16 {
            filled(&[2, 4, 9], hop_limit, &[2, 4, 9]);
        }
        filled(&[2, 4, 9], 2, &[2, 3, 4, 9]);
        filled(&[2, 4, 9], 1, &[2, 3, 4, 5, 6, 7, 8, 9]);
    }

    #[test]
    fn at_2_4_6() {
        filled(&[2, 4, 6], 3, &[2, 4, 6]);
        filled(&[2, 4, 6], 2, &[2, 3, 4, 6]);
        filled(&[2, 4, 6], 1, &[2, 3, 4, 5, 6]);
    }

    #[test]
    fn neighbours_are_one() {
        filled(&[2, 3, 7], 2, &[2, 3, 7]);
        filled(&[2, 3, 7, 8], 2, &[2, 3, 7, 8]);
        filled(&[2, 3, 7, 9], 2, &[2, 3, 7, 8, 9]);
    }

    #[test]
    fn the_shortest_gap_is_the_last() {
        filled(&[2, 7, 9], 2, &[2, 7, 8, 9]);
        filled(&[2, 6, 9, 11], 3, &[2, 6, 9, 10, 11]);
        filled(&[2, 6, 9, 11], 2, &[2, 6, 7, 8, 9, 10, 11]);
    }

    /// Filled sets, not raw ones, are what the next gate sees: net 7 has lh after ticks 2, 3 and 4 of
    /// net 6, and not after tick 9, when net 5 is low. From raw sets it would have two runs.
    #[test]
    fn are_filled_before_the_next_gate() {
        let block = [
            input(1 + 8),
            input(4),
            silent(gate(BUF, &[0]), 1),
            silent(gate(BUF, &[0]), 3),
            silent(gate(BUF, &[0]), 8),
            silent(gate(BUF, &[1]), 6),
            drawing(gate(XOR, &[2, 3, 4]), [0, 1, 1, 1], [10, 0]),
            drawing(gate(AND, &[6, 5]), [7, 20, 1, 1], [5, 0]),
        ];
        let arguments = Arguments {
            hop_limit: 2,
            ..Arguments::new(&block)
        };
        let rows: [(usize, &[Word]); 2] = [
            (0, &[0, 0, 10, 10, 10, 0, 0, 0, 0, 10]),
            (7, &[0, 0, 0, 5, 5, 5]),
        ];
        envelope_gives(&arguments, 15, 9, &rows);
    }

    /// Gaps of l are filled as those of an edge are: net 4 has l up to tick 1 and from tick 12 on, and
    /// net 5 rises at tick 6 only if net 4 may have l at tick 5. With one hop, ticks 3 and 6 are then
    /// one run of net 5.
    #[test]
    fn of_a_held_level() {
        let block = [
            input(8),
            silent(gate(BUF, &[0]), 1),
            silent(gate(BUF, &[0]), 10),
            silent(gate(BUF, &[0]), 5),
            silent(gate(XOR, &[1, 2]), 1),
            drawing(gate(OR, &[4, 3]), [0, 1, 1, 1], [10, 0]),
        ];
        let mut arguments = Arguments::new(&block);
        envelope_gives(&arguments, 10, 3, &[(0, &[0, 0, 0, 10])]);
        arguments.hop_limit = 2;
        envelope_gives(&arguments, 10, 3, &[(0, &[0, 0, 0, 10])]);
        arguments.hop_limit = 1;
        envelope_gives(&arguments, 10, 6, &[(0, &[0, 0, 0, 10, 10, 10, 10])]);
    }
}

mod gates {
    use super::*;

    /// A gate of this kind over inputs with these excitations: `edge` is what its transition
    /// draws, 10 for lh and 20 for hl, or 0 if it has none.
    #[track_caller]
    fn draws(kind: u8, excitations: &[u8], edge: Word) {
        let pins: Vec<u16> = (0..).take(excitations.len()).collect();
        let mut block: Vec<Record> = excitations.iter().map(|&byte| input(1 << byte)).collect();
        block.push(drawing(gate(kind, &pins), [0, 1, 1, 1], [10, 20]));
        let arguments = with_pattern(&block, excitations);
        let quiet = u64::from(edge != 0);
        simulate_gives(&arguments, edge, quiet, &[(0, &[0, edge])]);
        envelope_gives(&arguments, edge, quiet, &[(0, &[0, edge])]);
    }

    #[test]
    fn of_one_pin() {
        draws(BUF, &[LH], 10);
        draws(BUF, &[HL], 20);
        draws(NOT, &[LH], 20);
        draws(NOT, &[HL], 10);
        draws(NOT, &[H], 0);
    }

    #[test]
    fn of_two_pins() {
        draws(AND, &[LH, H], 10);
        draws(AND, &[LH, HL], 0);
        draws(NAND, &[LH, H], 20);
        draws(OR, &[HL, L], 20);
        draws(OR, &[HL, LH], 0);
        draws(NOR, &[HL, L], 10);
        draws(XOR, &[H, LH], 20);
        draws(XOR, &[LH, HL], 0);
        draws(XNOR, &[H, LH], 10);
    }

    /// Three NAND pins are not joined by NAND twice.
    #[test]
    fn of_several_pins() {
        draws(NAND, &[H, H, LH], 20);
        draws(NAND, &[L, H, LH], 0);
        draws(NAND, &[H, H, H, HL], 10);
        draws(NOR, &[L, L, LH], 20);
        draws(NOR, &[H, L, LH], 0);
        draws(NOR, &[L, L, L, HL], 10);
        draws(XNOR, &[L, L, LH], 20);
        draws(XNOR, &[H, H, H, LH], 10);
        draws(XOR, &[LH, LH, LH], 10);
        draws(XOR, &[LH, LH, LH, LH], 0);
    }

    /// A net on two pins is one net for Simulate and two independent ones for Envelope.
    #[test]
    fn with_one_net_on_two_pins() {
        let xor = drawing(gate(XOR, &[0, 0]), [0, 1, 1, 1], [10, 0]);
        let arguments = with_pattern(&[input(1 + 8), xor], &[LH]);
        simulate_gives(&arguments, 0, 0, &[]);
        envelope_gives(&arguments, 10, 1, &[(0, &[0, 10])]);
    }
}

mod drops {
    use super::*;

    #[test]
    fn without_gates() {
        for inputs in [1, 2, 64] {
            let arguments = with_pattern(&vec![input(8); inputs], &[LH; 64][..inputs]);
            envelope_gives(&arguments, 0, 0, &[]);
            simulate_gives(&arguments, 0, 0, &[]);
        }
    }

    /// Currents of different ticks are not added.
    #[test]
    fn are_of_one_tick() {
        let block = [
            input(8),
            drawing(gate(BUF, &[0]), [0, 1, 1, 1], [10, 0]),
            drawing(gate(BUF, &[1]), [1, 1, 1, 1], [10, 0]),
        ];
        let rows: [(usize, &[Word]); 2] = [(0, &[0, 10]), (1, &[0, 0, 10])];
        let arguments = with_pattern(&block, &[LH]);
        simulate_gives(&arguments, 10, 2, &rows);
        envelope_gives(&arguments, 10, 2, &rows);
    }

    /// Each node of each table has its own row of resistances; the greatest of them counts.
    #[test]
    fn are_of_one_node() {
        let block: Vec<Record> = (0..17)
            .map(|net| match net {
                0 => input(8),
                _ => drawing(gate(BUF, &[0]), [net - 1, 1, 1, 1], [1, 0]),
            })
            .collect();
        let rows: Vec<(usize, &[Word])> = (0..16).map(|contact| (contact, &[0, 1][..])).collect();
        for nodes in 1..=16 {
            for node in 0..nodes {
                for contact in 0..16 {
                    let mut arguments = with_pattern(&block, &[LH]);
                    arguments.table = vec![1; 16 * nodes];
                    arguments.table[16 * node + contact] = 65_535;
                    simulate_gives(&arguments, 65_535 + 15, 1, &rows);
                    if nodes % 5 == 1 {
                        envelope_gives(&arguments, 65_535 + 15, 1, &rows);
                    }
                }
            }
        }
    }

    /// As many gates as there can be, each with the greatest peak, at the greatest resistance.
    #[test]
    fn at_their_greatest() {
        for (contacts, delay) in [(1, 1), (16, 1), (16, 63)] {
            let mut block = vec![input(8)];
            for net in 1..1024 {
                let contact = (net % contacts) as u8;
                block.push(drawing(
                    gate(BUF, &[0]),
                    [contact, delay, 1, 1],
                    [65_535; 2],
                ));
            }
            let mut arguments = with_pattern(&block, &[LH]);
            arguments.table = vec![65_535; 256];
            let gates: Vec<Word> = (0..16)
                .map(|contact| (1..1024).filter(|net| net % contacts == contact).count() as Word)
                .collect();
            let row: Vec<[Word; 2]> = gates.iter().map(|gates| [0, 65_535 * gates]).collect();
            let rows: Vec<(usize, &[Word])> = (0..).zip(row.iter().map(|row| &row[..])).collect();
            let drop = 65_535 * 65_535 * 1023;
            simulate_gives(&arguments, drop, 1, &rows);
            envelope_gives(&arguments, drop, 1, &rows);
        }
    }
}

mod quiet_ticks {
    use super::*;

    /// A pulse from tick S on ends at S + rise + fall, and has current at the tick before, as the peak is not below
    /// the fall. S is at most 254, rise and fall 127.
    #[test]
    fn are_each_of_1_to_507() {
        for quiet in 1..=507_u16 {
            let start = (quiet - 1).min(254);
            let rise = (quiet - start).min(127);
            let fall = quiet + 1 - start - rise;
            let mut block = vec![input(8)];
            let mut arrival = 0;
            while arrival < start {
                let delay = (start - arrival).min(63);
                let pin = block.len() as u16 - 1;
                block.push(silent(gate(BUF, &[pin]), delay as u8));
                arrival += delay;
            }
            let last = gate(BUF, &[block.len() as u16 - 1]);
            let contact = quiet % 16;
            let timing = [contact as u8, 1, rise as u8, fall as u8];
            block.push(drawing(last, timing, [127, 0]));
            let pulse = pulse_row([rise as u8, fall as u8], 127);
            let row = [vec![0; start as usize], pulse].concat();
            both_give(&block, 127, quiet.into(), &[(contact as usize, &row)]);
        }
    }

    /// All contacts draw, and one of them for longer than the others.
    #[test]
    fn are_of_the_row_that_ends_last() {
        for last in 0..16 {
            let mut block = vec![input(8)];
            let mut rows: Vec<(usize, &[Word])> = Vec::new();
            for contact in 0..16 {
                let (fall, row): (_, &[Word]) = if contact == last {
                    (4, &[0, 4, 3, 2, 1])
                } else {
                    (2, &[0, 4, 2])
                };
                let timing = [contact as u8, 1, 1, fall];
                block.push(drawing(gate(BUF, &[0]), timing, [4, 0]));
                rows.push((contact, row));
            }
            both_give(&block, 16 * 4, 4, &rows);
        }
    }

    /// Contact 1 draws longest, and its current drops nothing.
    #[test]
    fn are_of_rows_without_a_resistance_too() {
        let mut arguments = with_pattern(&sample::block_f(), &[HL, H]);
        arguments.table[1] = 0;
        let envelope: [(usize, &[Word]); 2] = [(0, &[0, 20, 10]), (1, &[0, 16, 47, 47, 16])];
        envelope_gives(&arguments, 20, 4, &envelope);
        let hl_and_h: [(usize, &[Word]); 2] = [(0, &[0, 10, 5]), (1, &[0, 0, 16, 31, 16])];
        simulate_gives(&arguments, 10, 4, &hl_and_h);
    }

    /// Net 2 switches last, and its pulses would be the longest.
    #[test]
    fn are_not_of_a_gate_without_peaks() {
        let block = [
            input(8),
            drawing(gate(BUF, &[0]), [0, 1, 1, 1], [10, 0]),
            drawing(gate(BUF, &[1]), [3, 63, 127, 127], [0, 0]),
        ];
        both_give(&block, 10, 1, &[(0, &[0, 10])]);
    }

    #[test]
    fn are_not_of_an_edge_without_a_peak() {
        let falling = drawing(gate(BUF, &[0]), [0, 1, 1, 2], [0, 10]);
        let block = [input(15), falling];
        simulate_gives(&with_pattern(&block, &[LH]), 0, 0, &[]);
        simulate_gives(&with_pattern(&block, &[HL]), 10, 2, &[(0, &[0, 10, 5])]);
        envelope_gives(&with_pattern(&block, &[LH]), 10, 2, &[(0, &[0, 10, 5])]);
    }

    /// Net 3 has lh at tick 10, hl at 12: pulses from ticks 6 and 8. The second would end at tick 20, but is rounded to 1
    /// at ticks 10 to 15 and to 0 at all others.
    #[test]
    fn are_not_of_the_last_pulse_where_that_rounds_to_0() {
        let block = [
            input(8),
            silent(gate(BUF, &[0]), 6),
            silent(gate(BUF, &[0]), 8),
            drawing(gate(XOR, &[1, 2]), [3, 4, 3, 9], [60, 1]),
        ];
        let row = [
            0, 0, 0, 0, 0, 0, 0, 20, 40, 60, 54, 48, 41, 34, 28, 21, 13, 7,
        ];
        both_give(&block, 60, 17, &[(3, &row)]);
    }
}

mod buffers {
    use super::*;

    /// Blocks of several shapes, each with random arguments.
    fn samples(seed: u64, count: usize) -> impl Iterator<Item = Arguments> {
        let mut random = Random::new(seed);
        (0..count).map(move |_| {
            let records = 1 + random.below(120);
            let shape = Shape::random(&mut random, records);
            let block = shape.block(&mut random);
            Arguments::random(&mut random, &block)
        })
    }

    const OPERATIONS: [Operation<Currents>; 2] = [Arguments::envelope, Arguments::simulate];

    /// What is only read stays as it was.
    #[test]
    fn to_read_are_unchanged() {
        for arguments in samples(2, 200) {
            for call in OPERATIONS {
                let mut lent = arguments.clone();
                call(&mut lent, &LIBRARY).expect("accepted");
                assert!(lent.file == arguments.file);
                assert!(lent.table == arguments.table);
                assert!(lent.pattern == arguments.pattern);
            }
        }
    }

    /// What stood in the sheet and the work buffer, and how long the work buffer is, do not matter.
    #[test]
    fn to_write_may_hold_anything() {
        let mut random = Random::new(3);
        for arguments in samples(3, 100) {
            let least = work_bytes((arguments.file.len() / RECORD_BYTES) as u64);
            for call in OPERATIONS {
                let mut clean = arguments.clone();
                clean.sheet.fill(0);
                clean.work = vec![0; least];
                let answer = call(&mut clean, &LIBRARY);
                assert!(answer.is_ok());
                for more in [0, 1, 160, 1 << 16] {
                    let mut dirty = arguments.clone();
                    dirty.sheet.fill_with(|| random.bits());
                    dirty.work.resize(least + more, 0);
                    dirty.work.fill_with(|| random.byte(0, 255));
                    assert_eq!(call(&mut dirty, &LIBRARY), answer);
                    assert!(dirty.sheet == clean.sheet);
                    // Once more, with what the call left in its buffers.
                    assert_eq!(call(&mut dirty, &LIBRARY), answer);
                    assert!(dirty.sheet == clean.sheet);
                }
            }
        }
    }

    /// Bytes past the inputs are not read.
    #[test]
    fn of_the_pattern_past_the_inputs() {
        let buffer = drawing(gate(BUF, &[1]), [0, 1, 1, 1], [10, 0]);
        let mut arguments = with_pattern(&[input(15), input(15), buffer], &[L, LH]);
        for byte in [0, 3, 4, 255] {
            arguments.pattern[2..].fill(byte);
            simulate_gives(&arguments, 10, 1, &[(0, &[0, 10])]);
        }
    }
}

mod soundness {
    use super::*;

    /// Each word of each pattern's sheet, as the second implementation has it, its drop and its quiet tick are
    /// at most those of the library's envelope.
    #[test]
    fn every_pattern_is_below_the_envelope() {
        let mut random = Random::new(4);
        let (mut reached, mut quiet_before, mut overlaps) = (0, 0, 0);
        for _ in 0..100 {
            let inputs = 1 + random.below(4);
            let shape = Shape {
                inputs,
                ..Shape::random(&mut random, 40)
            };
            let block = shape.block(&mut random);
            let mut ceiling = Arguments::random(&mut random, &block);
            let envelope = ceiling.envelope(&LIBRARY).expect("accepted");
            let mut under = ceiling.clone();
            for pattern in patterns(&block) {
                under.pattern[..inputs].copy_from_slice(&pattern);
                let currents = under.simulate(&SECOND).expect("accepted");
                assert!(currents.drop <= envelope.drop);
                assert!(currents.quiet <= envelope.quiet);
                let mut words = under.sheet.iter().zip(&ceiling.sheet);
                assert!(words.all(|(current, ceiling)| current <= ceiling));
                reached += usize::from(0 < currents.drop && currents.drop < envelope.drop);
                quiet_before += usize::from(0 < currents.quiet && currents.quiet < envelope.quiet);
                overlaps += usize::from(simulation_overlaps(&under.file, &under.pattern));
            }
        }
        println!("above 0 and below the envelope's: {reached} drops, {quiet_before} quiet ticks");
        println!("patterns with pulses that overlap: {overlaps}");
        assert!(reached >= 100, "the envelope is hardly ever above a drop");
        assert!(quiet_before >= 100, "a pattern hardly ever ends before");
        assert!(overlaps >= 100, "pulses hardly ever overlap");
    }

    /// After the quiet tick every row is 0. At it one is not, unless the sheet is empty: then it is 0.
    #[test]
    fn rows_are_0_after_the_quiet_tick() {
        let mut random = Random::new(5);
        let mut empty = 0;
        for _ in 0..200 {
            let shape = Shape::random(&mut random, 100);
            let block = shape.block(&mut random);
            let mut arguments = Arguments::random(&mut random, &block);
            for call in [Arguments::envelope, Arguments::simulate] {
                let currents = call(&mut arguments, &LIBRARY).expect("accepted");
                let quiet = currents.quiet as usize;
                let rows = || arguments.sheet.chunks_exact(ROW_TICKS);
                for row in rows() {
                    assert!(row[quiet + 1..].iter().all(|&current| current == 0));
                }
                if arguments.sheet.iter().all(|&current| current == 0) {
                    assert_eq!(quiet, 0);
                    empty += 1;
                } else {
                    assert!(rows().any(|row| row[quiet] != 0));
                }
            }
        }
        println!("empty sheets: {empty}");
        assert!((10..300).contains(&empty), "{empty} of 400 are empty");
    }
}
