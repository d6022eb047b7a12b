//! Implementations of Read, Envelope, Simulate, Search, the two makers of a list of inputs, and Bench, to be compared
//! with each other, and the calls of their operations with the arguments.

use crate::sample::Arguments;
use crate::second;
pub use calls::{
    Bench, BoundOrder, ConeOrder, Envelope, Implementation, Read, Search, Simulate, LIBRARY,
};
use zimgurav::{Counts, Currents, Found, Refusal};

/// The second implementation.
pub const SECOND: Implementation = Implementation {
    name: "second",
    read: second::read,
    envelope: second::envelope,
    simulate: second::simulate,
    search: second::search,
    cone_order: second::cone_order,
    bound_order: second::bound_order,
    bench: second::bench,
};

/// One of the operations of an implementation, with those of the arguments that it takes.
pub type Operation<Answer> = fn(&mut Arguments, &Implementation) -> Result<Answer, Refusal>;

impl Arguments {
    /// Read with the file.
    pub fn read(&mut self, implementation: &Implementation) -> Result<Counts, Refusal> {
        (implementation.read)(&self.file)
    }

    /// Envelope with those of the arguments that it takes.
    pub fn envelope(&mut self, implementation: &Implementation) -> Result<Currents, Refusal> {
        (implementation.envelope)(
            &self.file,
            self.hop_limit,
            &self.table,
            &mut self.sheet,
            &mut self.work,
        )
    }

    /// Simulate with those of the arguments that it takes.
    pub fn simulate(&mut self, implementation: &Implementation) -> Result<Currents, Refusal> {
        (implementation.simulate)(
            &self.file,
            &self.table,
            &mut self.sheet,
            &self.pattern,
            &mut self.work,
        )
    }

    /// Search with those of the arguments that it takes.
    pub fn search(&mut self, implementation: &Implementation) -> Result<Found, Refusal> {
        (implementation.search)(
            &self.file,
            self.hop_limit,
            &self.table,
            self.ratio,
            self.budget,
            &self.order,
            &mut self.sheet,
            &mut self.pattern,
            &mut self.work,
            &mut self.store,
        )
    }

    /// Cone order with file and the bytes of the list to write.
    pub fn cone_order(&mut self, implementation: &Implementation) -> Result<u64, Refusal> {
        (implementation.cone_order)(&self.file, &mut self.made)
    }

    /// Bound order with those of the arguments that it takes.
    pub fn bound_order(&mut self, implementation: &Implementation) -> Result<u64, Refusal> {
        (implementation.bound_order)(
            &self.file,
            self.hop_limit,
            &self.table,
            &mut self.work,
            &mut self.made,
        )
    }

    /// Bench with text, list and record buffer.
    pub fn bench(&mut self, implementation: &Implementation) -> Result<u64, Refusal> {
        (implementation.bench)(&self.text, &self.list, &mut self.records)
    }
}
