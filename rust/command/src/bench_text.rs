//! A bench text: its lines and, where it was accepted, the names of its nets.

use zimgurav::{refused, Refusal, BLOCK_BYTES, RECORD_BYTES};

use crate::cells::Cells;
use crate::failure::Failure;
use crate::line_fault;
use crate::number::counted;
use crate::{output, progress};

/// A bench text, by its lines.
pub struct BenchText<'a> {
    /// The text's file.
    pub name: &'a str,
    pub bytes: &'a [u8],
}

impl BenchText<'_> {
    /// The block file that the text and the list describe.
    pub fn records(&self, cells: &Cells) -> Result<Vec<u8>, Failure> {
        let mut records = vec![0; BLOCK_BYTES];
        let count = progress::watched("reading", || {
            zimgurav::bench(self.bytes, &cells.list(), &mut records)
        });
        let count = count.map_err(|refusal| self.refused(refusal, cells))?;
        records.truncate(RECORD_BYTES * count as usize);
        Ok(records)
    }

    /// The refusal, with the line of the text or of the list that it is about.
    fn refused(&self, refusal: Refusal, cells: &Cells) -> Failure {
        let place = refusal.place;
        let (of, at, standing) = match refusal.number {
            refused::RANGE => (&cells.name[..], Some("row"), cells.line(place).to_string()),
            refused::LINE => (self.name, Some("line"), self.line_of_form(place as usize)),
            refused::NAME => (self.name, Some("line"), self.line_of_name(place as usize)),
            refused::INPUT | refused::ARRIVAL => {
                let given = self.given().nth(place as usize);
                let (line, _) = given.expect("a line gives each record");
                (self.name, Some("net"), self.line(line))
            }
            _ => {
                let records = counted(self.given().count() as u64, "record");
                (self.name, None, format!("the text gives {records}"))
            }
        };
        Failure::refused(of, refusal, at, &standing)
    }

    /// A line, or its beginning, by its number from 1.
    fn line(&self, number: usize) -> String {
        let line = self.bytes_of_line(number);
        let line = line.strip_suffix(b"\r").unwrap_or(line);
        format!("line {number}: {}", output::escaped(line))
    }

    /// A line that is refused for its form, and why.
    fn line_of_form(&self, number: usize) -> String {
        let gate = self.first_gate().filter(|(line, _)| *line < number);
        let gate = gate.as_ref().map(|(line, name)| (*line, &name[..]));
        let fault = line_fault::fault(self.bytes_of_line(number), gate);
        let fault = fault.unwrap_or_else(|| line_fault::FORMS.to_string());
        format!("{}\n{fault}", self.line(number))
    }

    /// A line that is refused for a name, and which name that is.
    fn line_of_name(&self, number: usize) -> String {
        let line = self.bytes_of_line(number);
        let earlier: Vec<(usize, String)> = self
            .given()
            .take_while(|(line, _)| *line < number)
            .collect();
        let known = |name: &str| earlier.iter().find(|(_, given)| given == name);
        let unknown = written_pins(line).find(|pin| known(&content(pin)).is_none());
        let content = content(line);
        let again = given_name(&content).and_then(known);
        let fault = match (unknown, again) {
            (Some(pin), _) => format!("\n{}", self.unknown(number, pin)),
            (None, Some((first, name))) => format!("\nline {first} gives {name} already"),
            (None, None) => String::new(),
        };
        self.line(number) + &fault
    }

    /// Why a pin of a line, as it is written, is not known there.
    fn unknown(&self, number: usize, written: &[u8]) -> String {
        let pin = content(written);
        let fault = format!("no earlier line gives {pin}");
        let mut others = self.given().skip_while(|(line, _)| *line < number);
        match others.find(|(_, given)| *given == pin) {
            Some((line, _)) if line == number => fault + ", and a gate cannot feed itself",
            Some((line, _)) => {
                format!("{fault}, but line {line} does: a gate stands after those that feed it")
            }
            None => line_fault::with_blanks(fault, written),
        }
    }

    /// A line by its number from 1.
    fn bytes_of_line(&self, number: usize) -> &[u8] {
        self.lines().nth(number - 1).unwrap_or_default()
    }

    fn lines(&self) -> impl Iterator<Item = &[u8]> {
        self.bytes.split(|byte| *byte == b'\n')
    }

    /// What is left of each line, by its number from 1.
    fn contents(&self) -> impl Iterator<Item = (usize, String)> + '_ {
        self.lines()
            .zip(1..)
            .map(|(line, number)| (number, content(line)))
    }

    /// The lines that give a record, by their numbers, with the names that they give it, in a text of which no line is
    /// refused.
    fn given(&self) -> impl Iterator<Item = (usize, String)> + '_ {
        self.contents()
            .filter_map(|(number, content)| Some((number, given_name(&content)?.to_string())))
    }

    /// The first gate, by the number of its line and its name.
    fn first_gate(&self) -> Option<(usize, String)> {
        let (number, content) = self.contents().find(|(_, content)| content.contains('='))?;
        Some((number, given_name(&content)?.to_string()))
    }

    /// The names of the nets of an accepted text.
    pub fn names(&self) -> Vec<String> {
        self.given().map(|(_, name)| name).collect()
    }
}

/// What stands on a line before its comment.
pub fn uncommented(line: &[u8]) -> &[u8] {
    line.split(|byte| *byte == b'#').next().unwrap_or_default()
}

/// The blanks, which are skipped wherever they stand.
pub fn is_blank(byte: &u8) -> bool {
    matches!(byte, b'\t' | b'\r' | b' ')
}

pub fn without_blanks(bytes: &[u8]) -> Vec<u8> {
    let kept = bytes.iter().filter(|byte| !is_blank(byte));
    kept.copied().collect()
}

/// What is left of a line without its comment and blanks.
fn content(line: &[u8]) -> String {
    String::from_utf8_lossy(&without_blanks(uncommented(line))).into_owned()
}

/// The pins on the line of a gate, as they are written; none on any other line.
fn written_pins(line: &[u8]) -> impl Iterator<Item = &[u8]> {
    let after_name = uncommented(line).splitn(2, |byte| *byte == b'=').nth(1);
    let pieces = after_name
        .unwrap_or_default()
        .split(|byte| b"(,)".contains(byte));
    pieces.skip(1).filter(|piece| !piece.iter().all(is_blank))
}

/// The name that a line gives, if it is that of an input or a gate.
fn given_name(content: &str) -> Option<&str> {
    match content.split_once('=') {
        Some((name, _)) => Some(name),
        None => content.strip_prefix("INPUT(")?.strip_suffix(')'),
    }
}
