//! Excitations and uncertainty sets, and what gates make of them.

use zimgurav::kind;

/// An excitation is a pair of levels, before and after: l = (0,0), h = (1,1),
/// hl = (1,0), lh = (0,1).
#[derive(Clone, Copy, Debug, PartialEq, Eq)]
pub enum Excitation {
    L,
    H,
    Hl,
    Lh,
}

impl Excitation {
    /// The four excitations, in the order of byte 18 and of a pattern's bytes.
    pub const ALL: [Excitation; 4] = [Excitation::L, Excitation::H, Excitation::Hl, Excitation::Lh];

    /// The excitation with these levels.
    fn of_levels(before: bool, after: bool) -> Excitation {
        match (before, after) {
            (false, false) => Excitation::L,
            (true, true) => Excitation::H,
            (true, false) => Excitation::Hl,
            (false, true) => Excitation::Lh,
        }
    }

    /// The levels before and after.
    fn levels(self) -> (bool, bool) {
        match self {
            Excitation::L => (false, false),
            Excitation::H => (true, true),
            Excitation::Hl => (true, false),
            Excitation::Lh => (false, true),
        }
    }

    /// The excitation of a pattern's byte: 0 l, 1 h, 2 hl, 3 lh, and none above 3.
    pub fn of_pattern_byte(byte: u8) -> Option<Excitation> {
        match byte {
            0 => Some(Excitation::L),
            1 => Some(Excitation::H),
            2 => Some(Excitation::Hl),
            3 => Some(Excitation::Lh),
            _ => None,
        }
    }

    /// The excitation's byte in a pattern: 0 l, 1 h, 2 hl, 3 lh.
    pub fn pattern_byte(self) -> u8 {
        match self {
            Excitation::L => 0,
            Excitation::H => 1,
            Excitation::Hl => 2,
            Excitation::Lh => 3,
        }
    }

    /// What byte 18 adds up for the excitation: 1 (l), 2 (h), 4 (hl), 8 (lh).
    fn code(self) -> u8 {
        match self {
            Excitation::L => 1,
            Excitation::H => 2,
            Excitation::Hl => 4,
            Excitation::Lh => 8,
        }
    }
}

/// An uncertainty set: the excitations that a net may have.
#[derive(Clone, Copy, Debug, PartialEq, Eq)]
pub struct UncertaintySet {
    /// Whether each of the four excitations is a member, in their order.
    members: [bool; 4],
}

impl UncertaintySet {
    /// The set without a member.
    pub const EMPTY: UncertaintySet = UncertaintySet {
        members: [false; 4],
    };

    /// The set with this code, a sum of 1 (l), 2 (h), 4 (hl), 8 (lh).
    pub fn of_code(code: u8) -> UncertaintySet {
        UncertaintySet {
            members: Excitation::ALL.map(|excitation| code & excitation.code() != 0),
        }
    }

    /// The set with this one member.
    pub fn of_one(excitation: Excitation) -> UncertaintySet {
        UncertaintySet::of_code(excitation.code())
    }

    /// The set's code, a sum of 1 (l), 2 (h), 4 (hl), 8 (lh).
    pub fn code(self) -> u8 {
        self.members().map(Excitation::code).sum()
    }

    /// The members, in order l, h, hl, lh.
    pub fn members(self) -> impl Iterator<Item = Excitation> {
        let all = Excitation::ALL.into_iter();
        all.filter(move |&excitation| self.has(excitation))
    }

    /// Puts an excitation into the set.
    pub fn insert(&mut self, excitation: Excitation) {
        self.members[excitation as usize] = true;
    }
}

/// What a net has at a tick: an excitation where a pattern is simulated, an
/// uncertainty set where an envelope is made.
pub trait Signal: Copy {
    /// Whether the net has, or may have, this excitation.
    fn has(self, excitation: Excitation) -> bool;

    /// The first level held.
    fn first_level_held(self) -> Self;

    /// The second level held.
    fn second_level_held(self) -> Self;

    /// The join of two by AND, OR or XOR, whichever the kind joins by.
    fn join(self, other: Self, kind: u8) -> Self;

    /// Each level turned over.
    fn turned_over(self) -> Self;
}

/// Gates work on each half alone.
impl Signal for Excitation {
    fn has(self, excitation: Excitation) -> bool {
        self == excitation
    }

    fn first_level_held(self) -> Excitation {
        let (before, _) = self.levels();
        Excitation::of_levels(before, before)
    }

    fn second_level_held(self) -> Excitation {
        let (_, after) = self.levels();
        Excitation::of_levels(after, after)
    }

    fn join(self, other: Excitation, kind: u8) -> Excitation {
        let (before, after) = self.levels();
        let (other_before, other_after) = other.levels();
        Excitation::of_levels(
            join_levels(before, other_before, kind),
            join_levels(after, other_after, kind),
        )
    }

    fn turned_over(self) -> Excitation {
        let (before, after) = self.levels();
        Excitation::of_levels(!before, !after)
    }
}

/// The join of two sets is every join of a member of each; likewise a set is held
/// or turned over member by member.
impl Signal for UncertaintySet {
    fn has(self, excitation: Excitation) -> bool {
        self.members[excitation as usize]
    }

    fn first_level_held(self) -> UncertaintySet {
        each_member(self, Excitation::first_level_held)
    }

    fn second_level_held(self) -> UncertaintySet {
        each_member(self, Excitation::second_level_held)
    }

    fn join(self, other: UncertaintySet, kind: u8) -> UncertaintySet {
        let mut joins = UncertaintySet::EMPTY;
        for first in Excitation::ALL {
            for second in Excitation::ALL {
                if self.has(first) && other.has(second) {
                    joins.insert(first.join(second, kind));
                }
            }
        }
        joins
    }

    fn turned_over(self) -> UncertaintySet {
        each_member(self, Excitation::turned_over)
    }
}

/// The set of what is made of each member.
fn each_member(set: UncertaintySet, make: fn(Excitation) -> Excitation) -> UncertaintySet {
    let mut made = UncertaintySet::EMPTY;
    for excitation in Excitation::ALL {
        if set.has(excitation) {
            made.insert(make(excitation));
        }
    }
    made
}

/// The join of two levels by AND, OR or XOR, whichever the kind joins by.
fn join_levels(first: bool, second: bool, kind: u8) -> bool {
    match kind {
        kind::AND | kind::NAND => first && second,
        kind::OR | kind::NOR => first || second,
        kind::XOR | kind::XNOR => first != second,
        _ => panic!("kind {kind} joins no pins"),
    }
}

/// What a gate of this kind makes of its pins.
///
/// A multi-pin gate joins its pins left to right by AND, OR or XOR; NAND, NOR and
/// XNOR turn the final result over. NOT turns its one pin over, BUF does not.
pub fn gate_value<S: Signal>(pins: impl Iterator<Item = S>, kind: u8) -> S {
    let joined = pins.reduce(|joined, pin| joined.join(pin, kind));
    let result = joined.expect("a gate has a pin");
    match kind {
        kind::NAND | kind::NOR | kind::XNOR | kind::NOT => result.turned_over(),
        _ => result,
    }
}

#[cfg(test)]
mod tests {
    use super::*;
    use kind::{AND, BUF, NAND, NOR, NOT, OR, XNOR, XOR};

    fn set(code: u8) -> UncertaintySet {
        UncertaintySet::of_code(code)
    }

    /// Sets 12 and 12: AND 13, OR 14, XOR 3.
    #[test]
    fn sets_12_and_12() {
        assert_eq!(set(12).join(set(12), AND), set(13));
        assert_eq!(set(12).join(set(12), OR), set(14));
        assert_eq!(set(12).join(set(12), XOR), set(3));
    }

    /// A set 0 gives 0.
    #[test]
    fn empty_set() {
        for kind in [AND, NAND, OR, NOR, XOR, XNOR] {
            for code in 0..16 {
                assert_eq!(set(0).join(set(code), kind), set(0));
                assert_eq!(set(code).join(set(0), kind), set(0));
            }
        }
    }

    #[test]
    fn held_and_turned_over() {
        assert_eq!(set(4).first_level_held(), set(2));
        assert_eq!(set(4).second_level_held(), set(1));
        assert_eq!(set(8).first_level_held(), set(1));
        assert_eq!(set(8).second_level_held(), set(2));
        assert_eq!(set(3).first_level_held(), set(3));
        assert_eq!(set(1 + 4).turned_over(), set(2 + 8));
    }

    /// Joining three NAND pins by NAND twice is one of the traps.
    #[test]
    fn gates_of_three_pins() {
        let value = |kind, pins: [Excitation; 3]| gate_value(pins.into_iter(), kind);
        use Excitation::{Hl, Lh, H, L};
        assert_eq!(value(NAND, [H, H, H]), L);
        assert_eq!(value(NAND, [L, H, Hl]), H);
        assert_eq!(value(NOR, [L, L, Lh]), Hl);
        assert_eq!(value(XNOR, [H, Lh, Hl]), H);
        assert_eq!(value(XOR, [H, Lh, Hl]), L);
        assert_eq!(gate_value([Lh].into_iter(), NOT), Hl);
        assert_eq!(gate_value([Lh].into_iter(), BUF), Lh);
    }
}
