//! The stored calls, through the library and, by itself, through the second implementation.

use std::ffi::OsString;
use std::fs;

use calls::{answer, digest, Stored, DIGEST, STORED};
use check::implementation::{Implementation, LIBRARY, SECOND};
use check::repository::{root, text};
use zimgurav::Currents;

/// The operations, in the order in which their calls are counted.
const OPERATIONS: [&str; 7] = [
    "read",
    "envelope",
    "simulate",
    "search",
    "coneorder",
    "boundorder",
    "bench",
];

/// The files of calls, and how often each of them calls each of the operations.
const FILES: [(&str, [usize; 7]); 7] = [
    ("arguments", [70, 70, 70, 70, 0, 0, 0]),
    ("bench", [0, 0, 0, 0, 0, 0, 637]),
    ("capped", [12, 12, 12, 12, 0, 0, 0]),
    ("damaged", [90, 90, 90, 90, 0, 0, 0]),
    ("gappy", [60, 60, 60, 60, 0, 0, 0]),
    ("orders", [64, 94, 102, 138, 49, 66, 187]),
    ("small", [90, 90, 90, 90, 0, 0, 0]),
];

/// The right answers to the calls of a file, each on the line that its call is on.
fn right_answers(file: &Stored) -> String {
    text(format!("rust/calls/stored/answers/{}.txt", file.name))
}

/// An implementation gives the right answer to each call of a file.
fn run(implementation: &Implementation, file: &Stored) {
    let answers = right_answers(file);
    for (index, (call, right)) in file.text.lines().zip(answers.lines()).enumerate() {
        let (name, line) = (implementation.name, index + 1);
        let answer = answer(implementation, call);
        assert_eq!(answer, right, "{name}, line {line} of {}", file.name);
    }
}

#[test]
fn every_line_of_the_library() {
    STORED.iter().for_each(|file| run(&LIBRARY, file));
}

/// Without a call of the library.
#[test]
fn every_line_of_the_second() {
    STORED.iter().for_each(|file| run(&SECOND, file));
}

/// How many calls of an operation a file has.
fn calls_of(operation: &str, file: &Stored) -> usize {
    let operations = file.text.lines().map(|call| call.split(' ').next());
    operations.filter(|each| *each == Some(operation)).count()
}

/// Each call is of one of the operations, and has an answer.
#[test]
fn no_line_is_left_out() {
    for (file, (name, calls)) in STORED.iter().zip(FILES) {
        let counts = OPERATIONS.map(|operation| calls_of(operation, file));
        assert_eq!(counts, calls, "operations of {name}");
        let lines = [file.text, &right_answers(file)].map(|text| text.lines().count());
        assert_eq!(lines, [calls.iter().sum(); 2], "lines of {name}");
    }
    assert_eq!(calls::lines().count(), 2_625);
}

#[test]
fn no_file_is_left_out() {
    assert_eq!(STORED.map(|file| file.name), FILES.map(|(name, _)| name));
    for part in ["calls", "answers"] {
        let folder = root().join("rust/calls/stored").join(part);
        let entries = fs::read_dir(folder).expect("a folder of stored lines");
        let mut names: Vec<_> = entries
            .map(|entry| entry.expect("a file").file_name())
            .collect();
        names.sort();
        let expected = FILES.map(|(name, _)| OsString::from(format!("{name}.txt")));
        assert_eq!(names, expected, "files of {part}");
    }
}

/// The digest of an implementation's answers to the stored calls.
fn digest_of(implementation: &Implementation) -> String {
    digest(calls::lines().map(|call| answer(implementation, call)))
}

#[test]
fn the_digest_is_that_of_the_right_answers() {
    let right: String = STORED.iter().map(right_answers).collect();
    assert_eq!(digest(right.lines()), DIGEST);
    assert_eq!(digest_of(&LIBRARY), DIGEST);
}

/// The library, but for an Envelope that answers a drop one too high.
const HIGH_DROP: Implementation = Implementation {
    name: "high drop",
    envelope: |file, hop_limit, table, sheet, work| {
        let currents = zimgurav::envelope(file, hop_limit, table, sheet, work)?;
        let drop = currents.drop + 1;
        Ok(Currents { drop, ..currents })
    },
    ..LIBRARY
};

/// The library, but for a Bench that clears the record buffer where it refuses.
const RECORDS_CLEARED: Implementation = Implementation {
    name: "records cleared",
    bench: |text, list, records| {
        zimgurav::bench(text, list, records).inspect_err(|_| records.fill(0))
    },
    ..LIBRARY
};

/// The library, but for a Cone order that clears the list where it refuses.
const LIST_CLEARED: Implementation = Implementation {
    name: "list cleared",
    cone_order: |file, order| zimgurav::cone_order(file, order).inspect_err(|_| order.fill(0)),
    ..LIBRARY
};

#[test]
fn a_fault_changes_the_digest() {
    for wrong in [HIGH_DROP, RECORDS_CLEARED, LIST_CLEARED] {
        assert_ne!(digest_of(&wrong), DIGEST, "{}", wrong.name);
    }
}
