//! The currents of a call: a row for each contact, a word for each tick.

use zimgurav::{Word, ROW_TICKS, SHEET_WORDS};

/// A sheet that an accepted call wrote, with the quiet tick that it answered.
pub struct Sheet {
    words: Vec<Word>,
    /// The last tick at which current flows; 0 for an empty sheet.
    pub quiet: u64,
}

/// The greatest current of a contact, and the first tick at which it flows.
#[derive(Clone, Copy, Debug, PartialEq, Eq)]
pub struct Greatest {
    /// In microamperes.
    pub current: Word,
    pub tick: usize,
}

impl Sheet {
    /// The words to lend to a call.
    pub fn lent() -> Vec<Word> {
        vec![0; SHEET_WORDS]
    }

    pub fn new(words: Vec<Word>, quiet: u64) -> Self {
        Sheet { words, quiet }
    }

    /// The currents of a contact, in microamperes, tick by tick.
    pub fn row(&self, contact: usize) -> &[Word] {
        &self.words[ROW_TICKS * contact..][..ROW_TICKS]
    }

    pub fn greatest(&self, contact: usize) -> Greatest {
        let mut greatest = Greatest {
            current: 0,
            tick: 0,
        };
        for (tick, &current) in self.row(contact).iter().enumerate() {
            if current > greatest.current {
                greatest = Greatest { current, tick };
            }
        }
        greatest
    }
}
