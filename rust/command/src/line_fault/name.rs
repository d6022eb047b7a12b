//! What is wrong with a name.

use crate::bench_text::{is_blank, without_blanks};
use crate::number::grouped;
use crate::output::escaped;

use super::trimmed;

/// The most letters and digits that a name has.
const MOST: usize = 16;

/// Checks a name that is not empty, as it is written.
pub fn check(written: &[u8]) -> Result<(), String> {
    let name = without_blanks(written);
    let wrong = name.iter().position(|byte| !byte.is_ascii_alphanumeric());
    if let Some(at) = wrong {
        let (has, rule) = wrong_character(&name[at..]);
        return Err(format!("the name {} has {has}: {rule}", escaped(&name)));
    }
    if name.len() > MOST {
        let (name, count) = (escaped(&name), grouped(name.len() as u64));
        let fault = format!(
            "the name {name} has {count} letters and digits, and a name has at most {MOST}"
        );
        return Err(with_blanks(fault, written));
    }
    Ok(())
}

/// What is said of the first character of these bytes, which no name has, and of the characters that names have.
fn wrong_character(bytes: &[u8]) -> (String, &'static str) {
    let rule = "a name has letters and digits alone";
    let chunk = bytes.utf8_chunks().next();
    let first = chunk.and_then(|chunk| chunk.valid().chars().next());
    match first {
        Some(sign @ ('_' | '[' | ']' | '.' | '$')) => (
            format!("a '{sign}', as other tools write it"),
            "a name has letters and digits alone, so this one has to be changed",
        ),
        Some(sign) if sign.is_ascii_graphic() => (format!("a '{sign}'"), rule),
        Some(character) if !character.is_ascii() => (
            in_words(character),
            "a name has letters from A to Z and a to z and digits alone",
        ),
        _ => (format!("the byte {}", escaped(&bytes[..1])), rule),
    }
}

/// A character that is not ASCII, with its number; where it cannot be seen, the number alone.
fn in_words(character: char) -> String {
    let number = format!("U+{:04X}", u32::from(character));
    let shown = escaped(character.to_string().as_bytes());
    if shown.starts_with('\\') {
        format!("the character {number}")
    } else {
        format!("the character {shown}, {number}")
    }
}

/// What is said of a name that is written with blanks between its letters.
pub fn blanks_inside(written: &[u8]) -> Option<String> {
    let written = trimmed(written);
    if !written.iter().any(is_blank) {
        return None;
    }
    let name = escaped(&without_blanks(written));
    let written = escaped(written);
    Some(format!(
        "blanks are skipped, so that {written} is the name {name}"
    ))
}

/// The fault of a name, with what is said of blanks inside it where there are some.
pub fn with_blanks(fault: String, written: &[u8]) -> String {
    match blanks_inside(written) {
        Some(blanks) => format!("{fault}: {blanks}"),
        None => fault,
    }
}
