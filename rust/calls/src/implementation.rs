//! Implementations of Read, Envelope, Simulate, Search, the two makers of a list of inputs, and Bench.

use zimgurav::{Counts, Currents, Found, Refusal, Word, ORDER_BYTES};

/// What is called Read: the file.
pub type Read = fn(&[u8]) -> Result<Counts, Refusal>;

/// What is called Envelope: file, hop limit, table, sheet and work buffer.
pub type Envelope = fn(&[u8], u64, &[u16], &mut [Word], &mut [u8]) -> Result<Currents, Refusal>;

/// What is called Simulate: file, table, sheet, pattern and work buffer.
pub type Simulate = fn(&[u8], &[u16], &mut [Word], &[u8], &mut [u8]) -> Result<Currents, Refusal>;

/// What is called Search: file, hop limit, table, ratio, budget, list of inputs, sheet, pattern, work
/// buffer and case store.
pub type Search = fn(
    &[u8],
    u64,
    &[u16],
    u64,
    u64,
    &[u8],
    &mut [Word],
    &mut [u8],
    &mut [u8],
    &mut [u8],
) -> Result<Found, Refusal>;

/// What is called Cone order: file and the bytes of the list to write.
pub type ConeOrder = fn(&[u8], &mut [u8; ORDER_BYTES]) -> Result<u64, Refusal>;

/// What is called Bound order: file, hop limit, table, work buffer and the bytes of the list to
/// write.
pub type BoundOrder =
    fn(&[u8], u64, &[u16], &mut [u8], &mut [u8; ORDER_BYTES]) -> Result<u64, Refusal>;

/// What is called Bench: text, list and record buffer.
pub type Bench = fn(&[u8], &[u8], &mut [u8]) -> Result<u64, Refusal>;

/// One implementation of the operations.
#[derive(Clone, Copy)]
pub struct Implementation {
    pub name: &'static str,
    pub read: Read,
    pub envelope: Envelope,
    pub simulate: Simulate,
    pub search: Search,
    pub cone_order: ConeOrder,
    pub bound_order: BoundOrder,
    pub bench: Bench,
}

/// The proved library.
pub const LIBRARY: Implementation = Implementation {
    name: "library",
    read: zimgurav::read,
    envelope: zimgurav::envelope,
    simulate: zimgurav::simulate,
    search: zimgurav::search,
    cone_order: zimgurav::cone_order,
    bound_order: zimgurav::bound_order,
    bench: zimgurav::bench,
};
