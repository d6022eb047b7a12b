//! The stored calls, through the command.

use std::fs;

use crate::run::{printed, scratch, text};

/// The line that two builds are compared by.
#[test]
fn prints_one_line() {
    let line = format!("2,625 calls, digest {}\n", calls::DIGEST);
    assert_eq!(printed(&["selftest"]), line);
}

/// The answers that it writes are those stored, file by file.
#[test]
fn writes_the_stored_answers() {
    let path = scratch("answers.txt");
    printed(&["selftest", "--answers", &path]);
    let stored: String = calls::STORED
        .iter()
        .map(|file| text(&format!("rust/calls/stored/answers/{}.txt", file.name)))
        .collect();
    let written = fs::read_to_string(path).expect("the answers");
    assert!(written == stored, "the answers differ from those stored");
}
