//! The files that the command reads.

use std::ffi::OsStr;
use std::fs::File;
use std::io::{self, ErrorKind, Read};

use crate::failure::Failure;
use crate::output;

/// The most bytes of a file that is read: far more than any block or list has, and any bench text that a person
/// or a tool would write, and few enough that a wrong name does not fill the memory.
const MOST_BYTES: u64 = 64 << 20;

/// How a file is named in what the command prints.
pub fn shown(path: &OsStr) -> String {
    if path == "-" {
        "standard input".to_string()
    } else {
        output::printable(&path.to_string_lossy())
    }
}

/// The bytes of a file; `-` is standard input.
pub fn read(path: &OsStr) -> Result<Vec<u8>, Failure> {
    let read = if path == "-" {
        bytes(io::stdin().lock())
    } else {
        File::open(path).and_then(bytes)
    };
    let name = shown(path);
    let bytes = read.map_err(|error| Failure::file(&name, fault(error)))?;
    if bytes.len() as u64 > MOST_BYTES {
        let message = format_args!("longer than {} MiB", MOST_BYTES >> 20);
        return Err(Failure::file(&name, message));
    }
    Ok(bytes)
}

/// What is wrong with a file, in words alone.
pub fn fault(error: io::Error) -> String {
    match error.kind() {
        ErrorKind::NotFound => "no such file".to_string(),
        ErrorKind::IsADirectory => "it is a folder".to_string(),
        _ => {
            let words = error.to_string();
            words
                .split(" (os error")
                .next()
                .unwrap_or_default()
                .to_string()
        }
    }
}

/// All bytes, or one more than a file may have.
fn bytes(source: impl Read) -> io::Result<Vec<u8>> {
    let mut bytes = Vec::new();
    source.take(MOST_BYTES + 1).read_to_end(&mut bytes)?;
    Ok(bytes)
}

/// What the words of a file stand for, each with the number of its line from 1. A word that stands for nothing is told
/// with its line.
pub fn words<Meaning>(
    path: &OsStr,
    meaning: impl Fn(&str) -> Result<Meaning, String>,
) -> Result<Vec<(usize, Meaning)>, Failure> {
    let name = shown(path);
    let lines = lines(&read(path)?);
    let words = lines.iter().flat_map(|(number, line)| {
        let words = line.split_whitespace();
        words.map(move |word| (*number, word))
    });
    let meanings = words.map(|(number, word)| match meaning(word) {
        Ok(meaning) => Ok((number, meaning)),
        Err(message) => {
            let message = format!("line {number}: {message}");
            Err(Failure::file(&name, message))
        }
    });
    meanings.collect()
}

/// The lines of a text, each with its number from 1, without comments, which begin at `#`; lines that say
/// nothing else are left out. The mark that some editors put before a text is none of it.
pub fn lines(bytes: &[u8]) -> Vec<(usize, String)> {
    let text = String::from_utf8_lossy(bytes);
    let text = text.strip_prefix('\u{feff}').unwrap_or(&text);
    let numbered = text.lines().zip(1..).map(|(line, number)| {
        let content = line.split('#').next().unwrap_or_default();
        (number, content.trim().to_string())
    });
    numbered
        .filter(|(_, content)| !content.is_empty())
        .collect()
}
