//! Why a line of a bench text is refused. That it is refused the library says; here its fault is found, for a person to
//! put it right.

mod name;
#[cfg(test)]
mod tests;
mod word;

use crate::bench_text::{is_blank, uncommented, without_blanks};
use crate::number::grouped;
use crate::output::escaped;

pub use name::with_blanks;
pub use word::check_kind;

/// The rule that every line keeps.
pub const FORMS: &str = "the forms are INPUT(name), OUTPUT(name) and name = KIND(name, ...), \
                         a name is 1 to 16 letters or digits, and # begins a comment";

/// What some editors put before a text in UTF-8.
const BYTE_ORDER_MARK: &[u8] = "\u{feff}".as_bytes();

/// The first fault of a line from left to right, but that of a word before those in its brackets; none where the line
/// is right by its form. `gate` is the first gate that an earlier line gives, by the number of that line and its name.
pub fn fault(line: &[u8], gate: Option<(usize, &str)>) -> Option<String> {
    let written = uncommented(line);
    if written.iter().all(is_blank) {
        return None;
    }
    if written.starts_with(BYTE_ORDER_MARK) {
        let fault = "the line begins with a byte order mark, U+FEFF, which cannot be seen: \
                     store the text without it";
        return Some(fault.to_string());
    }
    let checked = match written.iter().position(|byte| *byte == b'=') {
        Some(equals) => check_gate(&written[..equals], &written[equals + 1..]),
        None => check_declaration(written, gate),
    };
    checked.err()
}

/// Checks the line of a gate, by what stands before its `=` and after it.
fn check_gate(name: &[u8], form: &[u8]) -> Result<(), String> {
    if name.iter().all(is_blank) {
        return Err("a name is missing before =".to_string());
    }
    name::check(name)?;
    let form = Form::of(form);
    if form.end == Some(b'=') {
        return Err("a second = stands on the line, and the line of a gate has one".to_string());
    }
    let word = form.word(word::kinds());
    if word.is_empty() {
        return Err("a kind is missing after =".to_string());
    }
    let kind = word::check_kind(&word)?;
    check_pin_count(kind, form.names(kind)?)
}

/// Checks the line of an input or an output.
fn check_declaration(form: &[u8], gate: Option<(usize, &str)>) -> Result<(), String> {
    let form = Form::of(form);
    form.check_equals()?;
    let word = form.word(word::DECLARATIONS.into_iter());
    let word = word::check_declaration(&word)?;
    if let ("INPUT", Some((line, name))) = (word, gate) {
        return Err(format!(
            "all inputs stand before all gates, and line {line} gives the gate {name}"
        ));
    }
    if form.names(word)?.contains(&b',') {
        return Err(format!("{word} takes one name: write a line for each"));
    }
    Ok(())
}

/// A word with names in brackets, as written, cut where its word should end.
struct Form<'a> {
    /// What stands before the first bracket, comma or `=`.
    before: &'a [u8],
    /// Which of these it is.
    end: Option<u8>,
    /// What stands after it.
    after: &'a [u8],
}

impl<'a> Form<'a> {
    fn of(written: &'a [u8]) -> Self {
        let end = written.iter().position(|byte| b"(),=".contains(byte));
        let (before, rest) = written.split_at(end.unwrap_or(written.len()));
        Form {
            before,
            end: rest.first().copied(),
            after: rest.get(1..).unwrap_or_default(),
        }
    }

    /// What blanks separate before the bracket.
    fn pieces(&self) -> impl Iterator<Item = &'a [u8]> {
        let pieces = self.before.split(is_blank);
        pieces.filter(|piece| !piece.is_empty())
    }

    /// The word. Where the opening bracket is missing, it is the known one at the beginning if there is a closing
    /// bracket, as in `INPUTa)`, and else what stands before the first blank or sign.
    fn word(&self, known: impl Iterator<Item = &'static str>) -> Vec<u8> {
        let whole = without_blanks(self.before);
        if self.end == Some(b'(') {
            return whole;
        }
        let closed = self.end == Some(b')') || self.after.contains(&b')');
        let begun = known.filter(|known| closed && whole.starts_with(known.as_bytes()));
        if let Some(longest) = begun.max_by_key(|known| known.len()) {
            return longest.into();
        }
        let first = self.pieces().next().unwrap_or_default();
        let sign = first.iter().skip(1).position(u8::is_ascii_punctuation);
        first[..sign.map_or(first.len(), |at| at + 1)].to_vec()
    }

    /// Checks that it is not a gate's form without the name and `=` before it.
    fn check_equals(&self) -> Result<(), String> {
        let last = self.pieces().last().unwrap_or_default();
        let mut kinds = word::kinds();
        if self.end != Some(b'(') || !kinds.any(|kind| last.eq_ignore_ascii_case(kind.as_bytes())) {
            return Ok(());
        }
        let missing = match self.pieces().count() {
            1 => "a name and = are",
            _ => "= is",
        };
        Err(format!("{missing} missing before {}", escaped(last)))
    }

    /// What stands in the brackets, if they and the names in them are right.
    fn names(&self, word: &str) -> Result<&'a [u8], String> {
        if self.end != Some(b'(') {
            return Err(format!("the opening bracket is missing after {word}"));
        }
        let closing = self.after.iter().position(|byte| *byte == b')');
        let inside = &self.after[..closing.unwrap_or(self.after.len())];
        if closing.is_none() && matches!(trimmed(inside), [] | [.., b',']) {
            let fault = "the line ends inside the brackets: a form stands on one line, whole";
            return Err(fault.to_string());
        }
        check_names(inside)?;
        let closing = closing.ok_or("the closing bracket is missing")?;
        let rest = trimmed(&self.after[closing + 1..]);
        if !rest.is_empty() {
            return Err(format!(
                "only a comment, from # on, may stand after the closing bracket, but there stands {}",
                escaped(rest)
            ));
        }
        Ok(inside)
    }
}

/// Bytes without the blanks before and after them.
fn trimmed(bytes: &[u8]) -> &[u8] {
    let first = bytes.iter().position(|byte| !is_blank(byte));
    let last = bytes.iter().rposition(|byte| !is_blank(byte));
    match (first, last) {
        (Some(first), Some(last)) => &bytes[first..=last],
        _ => &[],
    }
}

/// The names between brackets, as they are written.
fn split_names(inside: &[u8]) -> impl Iterator<Item = &[u8]> {
    inside.split(|byte| *byte == b',')
}

/// Checks the names between brackets, each by itself.
fn check_names(inside: &[u8]) -> Result<(), String> {
    for (at, name) in split_names(inside).enumerate() {
        if name.iter().all(is_blank) {
            return Err(missing_name(at, split_names(inside).count()));
        }
        let opening = name.iter().position(|byte| *byte == b'(');
        name::check(&name[..opening.unwrap_or(name.len())])?;
        if opening.is_some() {
            let fault = "a second ( stands inside the brackets: only names stand there, \
                         and each gate has a line of its own";
            return Err(fault.to_string());
        }
    }
    Ok(())
}

/// Says where a name is missing, by its place from 0 among so many.
fn missing_name(at: usize, count: usize) -> String {
    let place = match at {
        _ if count == 1 => return "a name is missing after the opening bracket".to_string(),
        0 => "before the first comma",
        _ if at == count - 1 => "after the last comma",
        _ => "between two commas",
    };
    format!("a name is missing {place}, or there is a comma too many")
}

/// Checks how many pins a gate has.
fn check_pin_count(kind: &str, inside: &[u8]) -> Result<(), String> {
    let count = split_names(inside).count();
    let (right, takes) = match kind {
        "NOT" | "BUF" | "BUFF" => (1..=1, "1 pin"),
        _ => (2..=4, "2 to 4 pins"),
    };
    if right.contains(&count) {
        return Ok(());
    }
    if let (1, Some(blanks)) = (count, name::blanks_inside(inside)) {
        return Err(format!(
            "{blanks}: {kind} takes {takes}, with commas between them"
        ));
    }
    let inverts = matches!(kind, "NAND" | "NOR" | "XNOR");
    let advice = match right.end() {
        1 => "",
        _ if count == 1 => ": a gate of one pin is a BUF or a NOT",
        _ if inverts => ": split the gate into several, of which only the last inverts",
        _ => ": split the gate into several",
    };
    let count = grouped(count as u64);
    Err(format!(
        "{kind} takes {takes}, and the line gives {count}{advice}"
    ))
}
