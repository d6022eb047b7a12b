//! What a net is: byte 0 of a record.

pub const INPUT: u8 = 1;
pub const AND: u8 = 2;
pub const NAND: u8 = 3;
pub const OR: u8 = 4;
pub const NOR: u8 = 5;
pub const XOR: u8 = 6;
pub const XNOR: u8 = 7;
pub const NOT: u8 = 8;
pub const BUF: u8 = 9;
