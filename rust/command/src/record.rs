//! A record of a block file in words, right or wrong.

use zimgurav::kind::{AND, BUF, INPUT};
use zimgurav::{Word, RECORD_BYTES};

use crate::excitation;
use crate::number::microamperes;

/// The words of the gates' kinds, from AND on.
pub const KINDS: [&str; 8] = ["AND", "NAND", "OR", "NOR", "XOR", "XNOR", "NOT", "BUF"];

/// A record, as its bytes stand in the file.
pub struct Record<'a>(pub &'a [u8; RECORD_BYTES]);

/// The records of a file; what is left at its end is none.
pub fn records(file: &[u8]) -> impl Iterator<Item = Record<'_>> {
    let (records, _) = file.as_chunks::<RECORD_BYTES>();
    records.iter().map(Record)
}

impl Record<'_> {
    pub fn is_input(&self) -> bool {
        self.0[0] == INPUT
    }

    /// The place of a gate's kind among the kinds of gates; none where there is no such kind.
    pub fn kind(&self) -> Option<usize> {
        (AND..=BUF)
            .contains(&self.0[0])
            .then(|| usize::from(self.0[0] - AND))
    }

    pub fn contact(&self) -> u8 {
        self.0[1]
    }

    pub fn delay(&self) -> u8 {
        self.0[2]
    }

    /// The nets of the pins that are used, four at most.
    pub fn pins(&self) -> Vec<usize> {
        let count = usize::from(self.0[3]).min(4);
        (0..count).map(|pin| self.two_bytes(4 + 2 * pin)).collect()
    }

    /// The excitations that an input is allowed.
    pub fn allowed(&self) -> u8 {
        self.0[18]
    }

    /// A number of two bytes, the low one first.
    fn two_bytes(&self, at: usize) -> usize {
        usize::from(u16::from_le_bytes([self.0[at], self.0[at + 1]]))
    }

    /// What the record says, whether it is right or not, its pins by the words that nets have.
    pub fn words(&self, net: impl Fn(usize) -> String) -> String {
        if self.is_input() {
            return format!("input, allowed {}", excitation::members(self.allowed()));
        }
        let kind = match self.kind() {
            Some(kind) => KINDS[kind].to_string(),
            None => format!("kind {}", self.0[0]),
        };
        let pins: Vec<String> = self.pins().into_iter().map(net).collect();
        let of = match self.0[3] {
            1 => format!("of net {}", pins[0]),
            2..=4 => format!("of nets {}", pins.join(", ")),
            count => format!("of {count} pins"),
        };
        let (contact, delay) = (self.contact(), self.delay());
        let (rise, fall) = (self.0[12], self.0[13]);
        let [peak_lh, peak_hl] = [14, 16].map(|at| microamperes(self.two_bytes(at) as Word));
        format!(
            "{kind} {of}; contact {contact}; delay {delay}, rise {rise}, fall {fall} ticks; \
             peaks {peak_lh} lh, {peak_hl} hl"
        )
    }

    /// The bytes in hexadecimal.
    pub fn bytes(&self) -> String {
        let bytes = self.0.iter().map(|byte| format!("{byte:02x}"));
        bytes.collect::<Vec<_>>().join(" ")
    }
}
