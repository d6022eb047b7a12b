//! Frames: every choice of one allowed excitation per input.

use super::block::Record;
use super::excitation::{Excitation, Signal, UncertaintySet};

/// A frame, by what it allows at each input.
#[derive(Clone)]
pub struct Frame {
    /// The set of each input, by net number.
    pub sets: Vec<UncertaintySet>,
}

impl Frame {
    /// The block's frame: each input allows the excitations of its byte 18.
    pub fn of_block(records: &[Record]) -> Frame {
        let inputs = records.iter().filter(|record| record.is_input());
        let sets = inputs.map(|input| UncertaintySet::of_code(input.allowed));
        Frame {
            sets: sets.collect(),
        }
    }

    /// Whether an input is undecided: its set has more than one member.
    pub fn is_undecided(&self, input: usize) -> bool {
        self.sets[input].members().count() > 1
    }

    /// Whether every input is decided.
    pub fn is_decided(&self) -> bool {
        let mut inputs = 0..self.sets.len();
        !inputs.any(|input| self.is_undecided(input))
    }

    /// The probe: at each input the first allowed of lh, hl, h, l.
    pub fn probe(&self) -> Vec<Excitation> {
        self.sets.iter().copied().map(first_allowed).collect()
    }

    /// The frames that a split at an input gives: one for each excitation that its
    /// set allows, in order l, h, hl, lh.
    pub fn split_at(&self, input: usize) -> Vec<Frame> {
        let mut frames = Vec::new();
        for excitation in self.sets[input].members() {
            let mut frame = self.clone();
            frame.sets[input] = UncertaintySet::of_one(excitation);
            frames.push(frame);
        }
        frames
    }
}

/// The first allowed of lh, hl, h, l.
fn first_allowed(set: UncertaintySet) -> Excitation {
    use Excitation::{Hl, Lh, H, L};
    let mut allowed = [Lh, Hl, H, L].into_iter().filter(|&each| set.has(each));
    allowed.next().expect("an input allows an excitation")
}

#[cfg(test)]
mod tests {
    use super::*;
    use Excitation::{Hl, Lh, H, L};

    fn frame(codes: &[u8]) -> Frame {
        let sets = codes.iter().copied().map(UncertaintySet::of_code);
        Frame {
            sets: sets.collect(),
        }
    }

    fn codes(frames: &[Frame]) -> Vec<Vec<u8>> {
        let codes = |frame: &Frame| frame.sets.iter().map(|set| set.code()).collect();
        frames.iter().map(codes).collect()
    }

    #[test]
    fn undecided_inputs() {
        let some = frame(&[1, 3, 2, 12]);
        let undecided = [0, 1, 2, 3].map(|input| some.is_undecided(input));
        assert_eq!(undecided, [false, true, false, true]);
        assert!(!frame(&[1, 8, 5]).is_decided());
        assert!(frame(&[1, 2, 4, 8]).is_decided());
    }

    #[test]
    fn probe_takes_the_first_allowed_of_lh_hl_h_l() {
        assert_eq!(frame(&[15, 7, 3, 1]).probe(), [Lh, Hl, H, L]);
        assert_eq!(frame(&[9, 5, 2, 12]).probe(), [Lh, Hl, H, Lh]);
    }

    #[test]
    fn split_gives_a_frame_for_each_allowed_excitation() {
        let whole = frame(&[3, 15, 9]);
        let at_1 = [[3, 1, 9], [3, 2, 9], [3, 4, 9], [3, 8, 9]];
        assert_eq!(codes(&whole.split_at(1)), at_1);
        assert_eq!(codes(&whole.split_at(2)), [[3, 15, 1], [3, 15, 8]]);
    }
}
