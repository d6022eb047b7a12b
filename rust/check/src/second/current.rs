//! Currents: pulses, the sheet, the drop and the quiet tick.

use super::block::Record;
use super::excitation::{Excitation, Signal};
use super::waveform::Waveform;
use std::cmp::Ordering;
use zimgurav::{Currents, Word};

/// How many contacts there are.
const CONTACTS: usize = 16;

/// How many ticks a row of the sheet has.
const ROW_TICKS: usize = 512;

/// How many words the sheet has: 16 rows of 512 ticks.
pub const SHEET_WORDS: usize = CONTACTS * ROW_TICKS;

/// The currents of one gate or one contact, tick by tick.
type Row = [Word; ROW_TICKS];

/// Writes the sheet that the waveforms give, and returns the drop and the quiet
/// tick. The sheet has 16 rows of 512 ticks, contact 0 first.
pub fn write_currents<S: Signal>(
    records: &[Record],
    waveforms: &[Waveform<S>],
    table: &[u16],
    sheet: &mut [Word],
) -> Currents {
    let contacts = contact_currents(records, waveforms);
    for (place, contact) in sheet.chunks_exact_mut(ROW_TICKS).zip(&contacts) {
        place.copy_from_slice(contact);
    }
    Currents {
        drop: drop(&contacts, table),
        quiet: quiet_tick(sheet),
    }
}

/// A contact's current is the sum over its gates. Inputs draw none.
fn contact_currents<S: Signal>(records: &[Record], waveforms: &[Waveform<S>]) -> Vec<Row> {
    let mut contacts = vec![[0; ROW_TICKS]; CONTACTS];
    for (record, waveform) in records.iter().zip(waveforms) {
        if record.is_gate() {
            let current = gate_current(record, waveform);
            let contact = &mut contacts[usize::from(record.contact)];
            for tick in 0..ROW_TICKS {
                contact[tick] += current[tick];
            }
        }
    }
    contacts
}

/// A simulated gate's current is the sum of its pulses; its envelope is the sum,
/// over ticks 0 to 255, of the greater pulse that the set at that tick allows.
///
/// Each tick at which a gate has hl or lh gives a pulse, P being the peak for
/// that edge. A pulse starts at the transition tick minus D.
fn gate_current<S: Signal>(gate: &Record, waveform: &Waveform<S>) -> Row {
    let pulse_lh = pulse(gate.peak_lh, gate.rise, gate.fall);
    let pulse_hl = pulse(gate.peak_hl, gate.rise, gate.fall);
    let mut current = [0; ROW_TICKS];
    for (tick, &signal) in waveform.ticks.iter().enumerate() {
        let pulse = greater_pulse(signal, &pulse_lh, &pulse_hl);
        for (k, after_k_ticks) in pulse.into_iter().enumerate() {
            current[tick - usize::from(gate.delay) + k] += after_k_ticks;
        }
    }
    current
}

/// Whether two pulses of a gate draw current at the same tick.
pub fn has_overlap<S: Signal>(gate: &Record, waveform: &Waveform<S>) -> bool {
    let pulse_lh = pulse(gate.peak_lh, gate.rise, gate.fall);
    let pulse_hl = pulse(gate.peak_hl, gate.rise, gate.fall);
    let mut drawing = [false; ROW_TICKS];
    for (tick, &signal) in waveform.ticks.iter().enumerate() {
        let pulse = greater_pulse(signal, &pulse_lh, &pulse_hl);
        for (k, after_k_ticks) in pulse.into_iter().enumerate() {
            let at = tick - usize::from(gate.delay) + k;
            if after_k_ticks != 0 && drawing[at] {
                return true;
            }
            drawing[at] |= after_k_ticks != 0;
        }
    }
    false
}

/// The greater, after each number of ticks, of the pulses that a gate with this
/// signal may have: a tick that allows both edges has one pulse. Nothing where it
/// allows none.
fn greater_pulse<S: Signal>(signal: S, pulse_lh: &[Word], pulse_hl: &[Word]) -> Vec<Word> {
    match (signal.has(Excitation::Lh), signal.has(Excitation::Hl)) {
        (false, false) => Vec::new(),
        (true, false) => pulse_lh.to_vec(),
        (false, true) => pulse_hl.to_vec(),
        (true, true) => {
            let both = pulse_lh.iter().zip(pulse_hl);
            both.map(|(&lh, &hl)| lh.max(hl)).collect()
        }
    }
}

/// A pulse, from its start until it is 0 for good: after k ticks it is P × k / r for
/// k up to r, P × (r + f − k) / f up to r + f, each quotient rounded by itself.
fn pulse(peak: u16, rise: u8, fall: u8) -> Vec<Word> {
    let (p, r, f) = (Word::from(peak), Word::from(rise), Word::from(fall));
    let mut currents = Vec::new();
    for k in 0..=r + f {
        if k <= r {
            currents.push(nearest(p * k, r));
        } else {
            currents.push(nearest(p * (r + f - k), f));
        }
    }
    currents
}

/// Number / divisor, rounded to the nearest microampere, an exact half to the even
/// one.
fn nearest(number: Word, divisor: Word) -> Word {
    let below = number / divisor;
    let above = below + 1;
    let rest = number % divisor;
    match (2 * rest).cmp(&divisor) {
        Ordering::Less => below,
        Ordering::Greater => above,
        Ordering::Equal if below.is_multiple_of(2) => below,
        Ordering::Equal => above,
    }
}

/// The drop, in nanovolts, is the greatest over nodes and ticks of the sum of
/// resistance × current. The table has a row of 16 resistances per bus node.
fn drop(contacts: &[Row], table: &[u16]) -> u64 {
    let mut greatest = 0;
    for node in table.chunks_exact(CONTACTS) {
        for tick in 0..ROW_TICKS {
            let mut sum = 0;
            for (&resistance, contact) in node.iter().zip(contacts) {
                sum += u64::from(resistance) * contact[tick];
            }
            greatest = greatest.max(sum);
        }
    }
    greatest
}

/// The quiet tick: the last tick at which some row of the sheet is not 0, and 0 for an
/// empty sheet.
pub fn quiet_tick(sheet: &[Word]) -> u64 {
    let mut quiet = 0;
    for row in sheet.chunks_exact(ROW_TICKS) {
        for (tick, &current) in (0..).zip(row) {
            if current != 0 {
                quiet = quiet.max(tick);
            }
        }
    }
    quiet
}

#[cfg(test)]
mod tests {
    use super::*;
    use crate::sample::{drawing, gate};
    use crate::second::excitation::UncertaintySet;
    use zimgurav::kind::BUF;

    /// P 31, r 2, f 2: 15.5 becomes 16.
    #[test]
    fn pulse_of_31() {
        assert_eq!(pulse(31, 2, 2), [0, 16, 31, 16, 0]);
    }

    /// P 7, r 3: 0, 2, 5, 7.
    #[test]
    fn pulse_of_7() {
        assert_eq!(pulse(7, 3, 1), [0, 2, 5, 7, 0]);
        assert_eq!(pulse(7, 1, 3), [0, 7, 5, 2, 0]);
    }

    /// A 127th of 65,535 is 516 and 3 / 127, and 126 of them are 65,018 and 124 / 127.
    #[test]
    fn pulse_at_the_limits() {
        let longest = pulse(65_535, 127, 127);
        assert_eq!(longest.len(), 255);
        assert_eq!(longest[..3], [0, 516, 1_032]);
        assert_eq!(longest[126..=128], [65_019, 65_535, 65_019]);
        assert_eq!(longest[252..], [1_032, 516, 0]);
        assert_eq!(pulse(0, 1, 1), [0, 0, 0]);
    }

    #[test]
    fn halves_become_even() {
        assert_eq!(nearest(33, 2), 16);
        assert_eq!(nearest(31, 2), 16);
        assert_eq!(nearest(29, 2), 14);
        assert_eq!(nearest(1, 2), 0);
        assert_eq!(nearest(65_535, 2), 32_768);
    }

    /// Where another whole number is as near, the rounded one is even.
    #[test]
    fn no_whole_number_is_nearer() {
        let mut halves = 0;
        for divisor in 1..=16 {
            for number in 0..=400 {
                let rounded = nearest(number, divisor);
                let distance = |whole: Word| (whole * divisor).abs_diff(number);
                for other in (0..=number + 1).filter(|&other| other != rounded) {
                    assert!(distance(rounded) <= distance(other), "{number} / {divisor}");
                    if distance(rounded) == distance(other) {
                        assert!(rounded.is_multiple_of(2), "{number} / {divisor}");
                        halves += 1;
                    }
                }
            }
        }
        // An even divisor has a half for one of as many numbers in a row: 2 has 200, 4 has 100.
        assert_eq!(halves, 200 + 100 + 67 + 50 + 40 + 33 + 29 + 25);
    }

    /// The current of a gate with this delay, rise, fall, peak for lh and peak for hl, which has
    /// these signals at these ticks and `held` at all others.
    fn current_of<S: Signal>(
        [delay, rise, fall]: [u8; 3],
        peaks: [u16; 2],
        held: S,
        signals: &[(usize, S)],
    ) -> Row {
        let record = drawing(gate(BUF, &[0]), [0, delay, rise, fall], peaks);
        let mut waveform = Waveform::of_input(held);
        for &(tick, signal) in signals {
            waveform.ticks[tick] = signal;
        }
        gate_current(&Record::parse(&record), &waveform)
    }

    /// The row that begins like this and is 0 after it.
    fn row(beginning: &[Word]) -> Row {
        let mut row = [0; ROW_TICKS];
        row[..beginning.len()].copy_from_slice(beginning);
        row
    }

    /// Both inputs lh: net 3 falls at tick 2 and rises at tick 3, so that its pulses are
    /// 0, 16, 31, 16, 0 from tick 0 and 0, 15, 30, 15, 0 from tick 1.
    #[test]
    fn simulated_pulses_of_block_f_add() {
        let signals = [(2, Excitation::Hl), (3, Excitation::Lh)];
        let current = current_of([2, 2, 2], [30, 31], Excitation::H, &signals);
        assert_eq!(current, row(&[0, 16, 31 + 15, 16 + 30, 15]));
    }

    /// Net 3 may have anything at ticks 2 and 3: the greater pulse is that of 31 at both.
    #[test]
    fn envelope_of_block_f_adds() {
        let [held, any] = [3, 15].map(UncertaintySet::of_code);
        let current = current_of([2, 2, 2], [30, 31], held, &[(2, any), (3, any)]);
        assert_eq!(current, row(&[0, 16, 31 + 16, 16 + 31, 16]));
    }

    #[test]
    fn tick_that_allows_both_edges_counts_once() {
        let [held, both] = [0, 12].map(UncertaintySet::of_code);
        for (peaks, greater) in [([30, 20], 30), ([20, 30], 30), ([30, 30], 30), ([0, 7], 7)] {
            let current = current_of([1, 1, 1], peaks, held, &[(4, both)]);
            assert_eq!(current, row(&[0, 0, 0, 0, greater]), "{peaks:?}");
        }
    }

    /// Both edges have one rise and fall, and rounding is monotone: the greater pulse is that of the
    /// greater peak, at each tick.
    #[test]
    fn greater_pulse_is_that_of_the_greater_peak() {
        let both = UncertaintySet::of_code(12);
        for (rise, fall) in [(1, 1), (2, 3), (7, 4), (127, 126)] {
            for (lh, hl) in (0..40).flat_map(|lh| (0..40).map(move |hl| (lh, hl))) {
                let [pulse_lh, pulse_hl] = [lh, hl].map(|peak| pulse(peak, rise, fall));
                let greater = greater_pulse(both, &pulse_lh, &pulse_hl);
                assert_eq!(greater, pulse(lh.max(hl), rise, fall));
            }
        }
    }

    /// A pulse with rise 2 and fall 3 draws for four ticks, one with a peak of 1 at the second and third of them alone.
    #[test]
    fn overlaps() {
        let overlap = |peaks, later: usize| {
            let record = drawing(gate(BUF, &[0]), [0, 1, 2, 3], peaks);
            let mut waveform = Waveform::of_input(Excitation::H);
            waveform.ticks[9] = Excitation::Hl;
            waveform.ticks[9 + later] = Excitation::Lh;
            has_overlap(&Record::parse(&record), &waveform)
        };
        assert_eq!(
            [1, 2, 3, 4].map(|later| overlap([60, 60], later)),
            [true, true, true, false]
        );
        assert_eq!(
            [1, 2, 3, 4].map(|later| overlap([1, 1], later)),
            [true, false, false, false]
        );
        assert!(!overlap([0, 60], 1));
    }

    /// All ticks from 1 to 255 give a pulse, from ticks 0 to 254 on. At tick t the pulse from tick 0
    /// is t ticks old and the youngest has just started: the current is that of all ages up to t,
    /// less those of the pulses that would have started before tick 0.
    #[test]
    fn pulses_of_every_tick_add() {
        let lh = UncertaintySet::of_code(8);
        let signals: Vec<(usize, UncertaintySet)> = (1..=255).map(|tick| (tick, lh)).collect();
        let current = current_of([1, 127, 127], [65_535, 0], UncertaintySet::EMPTY, &signals);
        let pulse = pulse(65_535, 127, 127);
        for (tick, &sum) in current.iter().enumerate() {
            let ages = 0..pulse.len();
            let ages = ages.filter(|&age| age <= tick && tick - age <= 254);
            assert_eq!(sum, ages.map(|age| pulse[age]).sum::<Word>(), "{tick}");
        }
        // The slopes up to but without the peak have 126 steps each, and the steps k and 127 - k have
        // 65,535 together: 63 of them on each side, and the peak.
        assert_eq!(current[253], (63 + 1 + 63) * 65_535);
    }

    /// The quiet tick of a sheet with a current of 1 at each of these contacts and ticks.
    fn quiet_tick_of(currents: &[(usize, usize)]) -> u64 {
        let mut sheet = vec![0; SHEET_WORDS];
        for (contact, tick) in currents {
            sheet[ROW_TICKS * contact + tick] = 1;
        }
        quiet_tick(&sheet)
    }

    #[test]
    fn quiet_tick_is_the_last_of_all_rows() {
        assert_eq!(quiet_tick_of(&[]), 0);
        assert_eq!(quiet_tick_of(&[(3, 1), (3, 200)]), 200);
        assert_eq!(quiet_tick_of(&[(0, 9), (7, 3), (15, 4)]), 9);
        assert_eq!(quiet_tick_of(&[(0, 3), (7, 9), (15, 4)]), 9);
        assert_eq!(quiet_tick_of(&[(0, 3), (7, 4), (15, 9)]), 9);
        assert_eq!(quiet_tick_of(&[(0, 511), (15, 1)]), 511);
        assert_eq!(quiet_tick_of(&[(0, 1), (15, 511)]), 511);
    }
}
