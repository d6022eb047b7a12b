//! What a net does at a tick: of an input, a byte of a pattern.

/// It stays low.
pub const L: u8 = 0;
/// It stays high.
pub const H: u8 = 1;
/// It falls.
pub const HL: u8 = 2;
/// It rises.
pub const LH: u8 = 3;

/// The set with this excitation alone. The set of several is the sum of theirs.
pub const fn set(excitation: u8) -> u8 {
    1 << excitation
}
