//! A pattern: an excitation for each input, in words.

use std::ffi::{OsStr, OsString};
use std::path::Path;

use zimgurav::PATTERN_BYTES;

use crate::block::Block;
use crate::excitation;
use crate::failure::Failure;
use crate::files;
use crate::number::counted;
use crate::output;

/// The bytes of the inputs.
pub struct Pattern(Vec<u8>);

impl Pattern {
    /// The pattern that a search handed over.
    pub fn found(block: &Block, bytes: &[u8; PATTERN_BYTES]) -> Self {
        Pattern(bytes[..block.counts.inputs as usize].to_vec())
    }

    /// The pattern that operands give: as words, or as a file of words.
    pub fn given(block: &Block, operands: &[OsString]) -> Result<Self, Failure> {
        let joined = operands.join(" ".as_ref());
        let words = joined.to_string_lossy();
        let bytes: Result<Vec<u8>, String> = words.split_whitespace().map(byte).collect();
        match (bytes, operands) {
            (Ok(bytes), _) => Pattern::of_all_inputs(block, bytes).map_err(Failure::usage),
            (_, [path]) if path == "-" || Path::new(path).exists() => Pattern::load(block, path),
            (Err(message), [_]) => Err(Failure::usage(format!("{message}, and no file"))),
            (Err(message), _) => Err(Failure::usage(message)),
        }
    }

    /// A pattern from a file of words.
    fn load(block: &Block, path: &OsStr) -> Result<Self, Failure> {
        let words = files::words(path, byte)?.into_iter();
        let bytes = words.map(|(_, byte)| byte).collect();
        let wrong = |message| Failure::file(&files::shown(path), message);
        Pattern::of_all_inputs(block, bytes).map_err(wrong)
    }

    /// A pattern has a word for each input.
    fn of_all_inputs(block: &Block, bytes: Vec<u8>) -> Result<Self, String> {
        let inputs = block.counts.inputs;
        if bytes.len() as u64 == inputs {
            return Ok(Pattern(bytes));
        }
        let words = counted(bytes.len() as u64, "word");
        let (name, inputs) = (&block.name, counted(inputs, "input"));
        Err(format!("the pattern has {words}, and {name} has {inputs}"))
    }

    /// The bytes as the library takes them.
    pub fn lent(&self) -> [u8; PATTERN_BYTES] {
        let mut lent = [0; PATTERN_BYTES];
        lent[..self.0.len()].copy_from_slice(&self.0);
        lent
    }

    /// The word of each input.
    pub fn words(&self) -> impl Iterator<Item = &'static str> + '_ {
        self.0.iter().map(|byte| excitation::word(*byte))
    }

    /// The words in a line.
    pub fn line(&self) -> String {
        self.words().collect::<Vec<_>>().join(" ")
    }

    /// The pattern as a file that the command reads: a word a line, with the net that it is for.
    pub fn file(&self, block: &Block) -> String {
        let lines = self.words().enumerate();
        let lines = lines.map(|(net, word)| format!("{word:2} # {}\n", block.net(net)));
        lines.collect()
    }
}

/// The byte that a word stands for.
fn byte(word: &str) -> Result<u8, String> {
    let word = output::shortened(word);
    excitation::byte(&word).ok_or_else(|| format!("{word} is not l, h, hl or lh"))
}
