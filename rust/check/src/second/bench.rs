//! Bench: turns a bench text into block records, with the fields of its gates from a
//! list of rows, or returns the first refusal that applies.
//!
//! The lengths of the buffers and the rows of the list are checked first. Then each
//! line is read, and checked before the next: whether it fits a form, then its names.
//! At last the records of all lines face Read's checks.

use std::collections::HashMap;

use super::block::{Record, RECORD_BYTES};
use super::read::{pin_count_is_wrong, read, refuse_if, value_is_outside_its_range};
use zimgurav::kind::{self, AND, BUF, NAND, NOR, NOT, OR, XNOR, XOR};
use zimgurav::Refusal;

/// The least length of the record buffer in bytes.
const LEAST_RECORD_BUFFER: usize = 20_480;

/// The length of the list in bytes.
const LIST_BYTES: usize = 64;

/// All four excitations: byte 18 of every input.
const ALL_EXCITATIONS: u8 = 15;

/// A row of the list: bytes 1, 2 and 12 to 17 of the records of its kind.
type Row = [u8; 8];

/// A name's letters and digits, 0 past them.
type Name = [u8; 16];

/// What a line says that is not empty.
enum Line {
    Input(Name),
    Output,
    Gate {
        name: Name,
        kind: u8,
        pins: Vec<Name>,
    },
}

/// The records of the lines so far.
struct Records {
    file: Vec<u8>,
    /// The net of each name that they give.
    nets: HashMap<Name, usize>,
    has_gate: bool,
}

/// Bench takes text, list and record buffer, and returns the count of records.
pub fn bench(text: &[u8], list: &[u8], records: &mut [u8]) -> Result<u64, Refusal> {
    refuse_if(records.len() < LEAST_RECORD_BUFFER, 15, 1)?;
    refuse_if(list.len() != LIST_BYTES, 15, 2)?;
    let (rows, _) = list.as_chunks();
    check_rows(rows)?;
    let file = records_of(text, rows)?;
    let counts = read(&file)?;
    records[..file.len()].copy_from_slice(&file);
    Ok(counts.nets)
}

/// Refusal 9: a row is bad where the records of its kind would be. The place is the
/// row, from 0.
fn check_rows(rows: &[Row]) -> Result<(), Refusal> {
    for (row, kind) in (0..).zip(AND..=BUF) {
        let record = gate_record(kind, &rows[row], &[]);
        let bad = value_is_outside_its_range(&Record::parse(&record));
        refuse_if(bad, 9, row as u64)?;
    }
    Ok(())
}

/// The records of all lines, however many. Refusals 17 and, after it, 18 come line by
/// line; the place is the line, from 1.
fn records_of(text: &[u8], rows: &[Row]) -> Result<Vec<u8>, Refusal> {
    let mut records = Records {
        file: Vec::new(),
        nets: HashMap::new(),
        has_gate: false,
    };
    let mut kept = Vec::new();
    for (place, line) in (1..).zip(text.split(|&byte| byte == b'\n')) {
        kept.clear();
        kept.extend(without_comment(line).iter().filter(|&&byte| !blank(byte)));
        if kept.is_empty() {
            continue;
        }
        let line = parse(&kept).ok_or(Refusal { number: 17, place })?;
        refuse_if(records.input_after_gate(&line), 17, place)?;
        let added = records.add(&line, rows);
        added.ok_or(Refusal { number: 18, place })?;
    }
    Ok(records.file)
}

/// The line up to its first `#`.
fn without_comment(line: &[u8]) -> &[u8] {
    let comment = line.iter().position(|&byte| byte == b'#');
    &line[..comment.unwrap_or(line.len())]
}

/// Blanks are bytes 9, 13 and 32.
fn blank(byte: u8) -> bool {
    matches!(byte, 9 | 13 | 32)
}

/// What a line without comment and blanks says, if it fits a form and has a kind and a
/// pin count of document 01.
fn parse(line: &[u8]) -> Option<Line> {
    match line.iter().position(|&byte| byte == b'=') {
        Some(equals) => parse_gate(&line[..equals], &line[equals + 1..]),
        None => match word_and_names(line)? {
            (b"INPUT", input) => Some(Line::Input(name(input)?)),
            (b"OUTPUT", output) => name(output).map(|_| Line::Output),
            _ => None,
        },
    }
}

/// The gate with these bytes before and after its `=`.
fn parse_gate(before: &[u8], after: &[u8]) -> Option<Line> {
    let (word, names) = word_and_names(after)?;
    let kind = kind_of(word)?;
    let pins: Option<Vec<Name>> = names.split(|&byte| byte == b',').map(name).collect();
    let pins = pins?;
    if pin_count_is_wrong(kind, pins.len()) {
        return None;
    }
    Some(Line::Gate {
        name: name(before)?,
        kind,
        pins,
    })
}

/// The word before the brackets, which end the line, and what stands between them.
fn word_and_names(bytes: &[u8]) -> Option<(&[u8], &[u8])> {
    let open = bytes.iter().position(|&byte| byte == b'(')?;
    let names = bytes[open + 1..].strip_suffix(b")")?;
    Some((&bytes[..open], names))
}

/// The kind that a kind word means.
fn kind_of(word: &[u8]) -> Option<u8> {
    match word {
        b"AND" => Some(AND),
        b"NAND" => Some(NAND),
        b"OR" => Some(OR),
        b"NOR" => Some(NOR),
        b"XOR" => Some(XOR),
        b"XNOR" => Some(XNOR),
        b"NOT" => Some(NOT),
        b"BUF" | b"BUFF" => Some(BUF),
        _ => None,
    }
}

/// The bytes as a name: 1 to 16 letters or digits.
fn name(bytes: &[u8]) -> Option<Name> {
    let mut name = Name::default();
    let letters = name.get_mut(..bytes.len())?;
    letters.copy_from_slice(bytes);
    let right = !bytes.is_empty() && bytes.iter().all(u8::is_ascii_alphanumeric);
    right.then_some(name)
}

impl Records {
    /// An INPUT after a gate.
    fn input_after_gate(&self, line: &Line) -> bool {
        matches!(line, Line::Input(_)) && self.has_gate
    }

    /// Adds the record of a line, if its names are right: each pin's is given by an earlier
    /// line, and its own by none.
    fn add(&mut self, line: &Line, rows: &[Row]) -> Option<()> {
        let (name, record) = match line {
            Line::Output => return Some(()),
            Line::Input(name) => (name, input_record()),
            Line::Gate { name, kind, pins } => {
                self.has_gate = true;
                let nets: Option<Vec<usize>> = pins.iter().map(|pin| self.net(pin)).collect();
                let row = &rows[usize::from(kind - AND)];
                (name, gate_record(*kind, row, &nets?))
            }
        };
        let net = self.file.len() / RECORD_BYTES;
        if self.nets.insert(*name, net).is_some() {
            return None;
        }
        self.file.extend(record);
        Some(())
    }

    /// The net of a name that an earlier line gives.
    fn net(&self, name: &Name) -> Option<usize> {
        self.nets.get(name).copied()
    }
}

/// The record of an input: it allows all four excitations.
fn input_record() -> [u8; RECORD_BYTES] {
    let mut record = [0; RECORD_BYTES];
    record[0] = kind::INPUT;
    record[18] = ALL_EXCITATIONS;
    record
}

/// The record of a gate. A net past 65,535 does not fit, but then there are far more
/// than 1,024 records, which is refused.
fn gate_record(kind: u8, row: &Row, pins: &[usize]) -> [u8; RECORD_BYTES] {
    let mut record = [0; RECORD_BYTES];
    record[0] = kind;
    record[1..3].copy_from_slice(&row[..2]);
    record[3] = pins.len() as u8;
    for (place, &net) in record[4..12].chunks_exact_mut(2).zip(pins) {
        place.copy_from_slice(&(net as u16).to_le_bytes());
    }
    record[12..18].copy_from_slice(&row[2..]);
    record
}
