//! Stored calls of the operations, and how a call is made and its answer put into words.
//!
//! `stored/README.md` says what a line of a call and a line of an answer are.

mod answer;
mod hash;
mod implementation;

pub use answer::answer;
pub use implementation::{
    Bench, BoundOrder, ConeOrder, Envelope, Implementation, Read, Search, Simulate, LIBRARY,
};

/// A file of stored calls.
#[derive(Clone, Copy)]
pub struct Stored {
    pub name: &'static str,
    /// A call a line.
    pub text: &'static str,
}

/// Files of stored calls, by their names.
macro_rules! stored {
    ($($name:literal),*) => {
        [$(Stored {
            name: $name,
            text: include_str!(concat!("../stored/calls/", $name, ".txt")),
        }),*]
    };
}

/// The files of stored calls, in the order of their names. A program holds one copy of a static, but
/// may hold several of a constant, and these are 6 megabytes.
pub static STORED: [Stored; 7] = stored![
    "arguments",
    "bench",
    "capped",
    "damaged",
    "gappy",
    "orders",
    "small"
];

/// The digest of the right answers to the stored calls.
pub const DIGEST: &str = "c718132653f4d7ee";

/// The stored calls, in the order of their files.
pub fn lines() -> impl Iterator<Item = &'static str> {
    STORED.iter().flat_map(|file| file.text.lines())
}

/// The digest of answers: the 64-bit FNV-1a hash, 16 hexadecimal digits, of their lines, each with a
/// newline after it.
pub fn digest(answers: impl IntoIterator<Item = impl AsRef<str>>) -> String {
    let lines = answers.into_iter();
    hash::hash(lines.flat_map(|line| [line.as_ref().as_bytes(), b"\n"].concat()))
}
