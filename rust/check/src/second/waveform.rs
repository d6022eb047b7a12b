//! Waveforms: what each net has at each tick.

use super::block::Record;
use super::excitation::{gate_value, Signal};

/// How many ticks a waveform lists. The latest arrival is 255, and no net
/// changes after its arrival.
const TICKS: usize = 256;

/// What a net has at the ticks up to 255.
pub struct Waveform<S> {
    /// At each tick before 0.
    earlier: S,
    /// At each tick from 0 to 255.
    pub ticks: Vec<S>,
}

impl<S: Signal> Waveform<S> {
    /// At tick 0 an input has its excitation, at earlier ticks its first level
    /// held, later its second; and likewise its set.
    pub fn of_input(signal: S) -> Waveform<S> {
        let mut ticks = vec![signal.second_level_held(); TICKS];
        ticks[0] = signal;
        Waveform {
            earlier: signal.first_level_held(),
            ticks,
        }
    }

    /// A gate at tick t has the join of its pins at t − D, a net on two pins
    /// being taken as two independent ones.
    ///
    /// The waveforms are those of the nets below the gate, by net number.
    pub fn of_gate(gate: &Record, waveforms: &[Waveform<S>]) -> Waveform<S> {
        let delay = usize::from(gate.delay);
        let pins = || gate.used_pins().map(|pin| &waveforms[usize::from(pin)]);
        let earlier = gate_value(pins().map(|pin| pin.earlier), gate.kind);
        let mut ticks = Vec::with_capacity(TICKS);
        for tick in 0..TICKS {
            if tick < delay {
                // The pins are before tick 0, where each has one value.
                ticks.push(earlier);
            } else {
                ticks.push(gate_value(
                    pins().map(|pin| pin.ticks[tick - delay]),
                    gate.kind,
                ));
            }
        }
        Waveform { earlier, ticks }
    }
}
