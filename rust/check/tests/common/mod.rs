//! What the tests of Bench share: a call of both implementations, and what it has to give.

use check::comparison::{compare, Compared};
use check::implementation::{LIBRARY, SECOND};
use check::sample::{input, Arguments, Record};
use zimgurav::kind::INPUT;
use zimgurav::{read, Counts, Refusal, RECORD_BYTES};

/// Makes the call in both implementations. They have to agree in the answer and in every buffer, and a
/// refusal changes none.
#[track_caller]
pub fn called(arguments: &Arguments) -> Compared<u64> {
    match compare(&[LIBRARY, SECOND], Arguments::bench, arguments) {
        Ok(compared) => compared,
        Err(difference) => panic!("{difference}, text {}", shown(arguments)),
    }
}

/// The beginning of the text.
fn shown(arguments: &Arguments) -> String {
    let text = &arguments.text;
    text[..text.len().min(400)].escape_ascii().to_string()
}

/// The call gives the block and leaves the bytes past its records as they were. Read accepts it.
#[track_caller]
pub fn gives_with(arguments: &Arguments, block: &[Record]) {
    let Compared { answer, after } = called(arguments);
    let nets = block.len() as u64;
    assert_eq!(answer, Ok(nets), "{}", shown(arguments));
    let (file, past) = after.records.split_at(RECORD_BYTES * block.len());
    assert_eq!(file.as_chunks().0, block, "{}", shown(arguments));
    assert!(past == &arguments.records[file.len()..], "past the records");
    let inputs = block.iter().filter(|record| record[0] == INPUT).count() as u64;
    assert_eq!(read(file), Ok(Counts { nets, inputs }));
}

#[track_caller]
pub fn refused_with(arguments: &Arguments, number: u64, place: u64) {
    let answer = called(arguments).answer;
    let expected = Err(Refusal { number, place });
    assert_eq!(answer, expected, "{}", shown(arguments));
}

/// With the plain list, which makes a gate what `sample::gate` is, the text gives the block.
#[track_caller]
pub fn gives(text: impl AsRef<[u8]>, block: &[Record]) {
    gives_with(&Arguments::of_text(text.as_ref()), block);
}

#[track_caller]
pub fn refused(text: impl AsRef<[u8]>, number: u64, place: u64) {
    refused_with(&Arguments::of_text(text.as_ref()), number, place);
}

/// The line after inputs `a` and `b`, as line 3.
pub fn third(line: &str) -> String {
    format!("INPUT(a)\nINPUT(b)\n{line}\n")
}

/// As many inputs that allow everything.
pub fn inputs(count: usize) -> Vec<Record> {
    vec![input(15); count]
}

/// Inputs `a` and `b`, and a gate of them.
pub fn with_gate(record: Record) -> Vec<Record> {
    [inputs(2), vec![record]].concat()
}
