//! The cell list: what a bench text does not say of its gates.
//!
//! A text with a line for each kind of gate: the kind's word, contact, delay, rise, fall, the peak where the output
//! rises and the peak where it falls.

use std::array;
use std::ffi::OsStr;

use zimgurav::{LIST_BYTES, LIST_ROW_BYTES};

use crate::failure::{Failure, RANGES};
use crate::files;
use crate::line_fault;
use crate::output;
use crate::record::KINDS;

/// The fields of a line after its kind, and the most that a row of the list has room for.
const FIELDS: [(&str, u16); 6] = [
    ("contact", u8::MAX as u16),
    ("delay", u8::MAX as u16),
    ("rise", u8::MAX as u16),
    ("fall", u8::MAX as u16),
    ("peak lh", u16::MAX),
    ("peak hl", u16::MAX),
];

/// A row of the list, and the line that gives it.
struct Row {
    bytes: [u8; LIST_ROW_BYTES],
    line: String,
}

/// A cell list that was read.
pub struct Cells {
    /// The list's file.
    pub name: String,
    /// A row for each kind, AND first.
    rows: [Row; KINDS.len()],
}

impl Cells {
    pub fn load(path: &OsStr) -> Result<Self, Failure> {
        let name = files::shown(path);
        let wrong = |message: String| Failure::file(&name, message);
        let mut rows: [Option<Row>; KINDS.len()] = Default::default();
        for (number, line) in files::lines(&files::read(path)?) {
            let shown = format!("line {number}: {}", output::shortened(&line));
            let (kind, bytes) =
                row(&line).map_err(|message| wrong(format!("{message}\n{shown}")))?;
            if rows[kind].replace(Row { bytes, line: shown }).is_some() {
                let message = format!("line {number} gives {} a second time", KINDS[kind]);
                return Err(wrong(message));
            }
        }
        if let Some(missing) = rows.iter().position(Option::is_none) {
            return Err(wrong(format!("no line gives {}", KINDS[missing])));
        }
        let rows = rows.map(|row| row.expect("no row is missing"));
        Ok(Cells { name, rows })
    }

    /// No list was given.
    pub fn missing() -> Failure {
        Failure::usage(
            "a bench text needs a cell list, --cells LIST: a text with a line for each kind of gate, \
             which has its contact, delay, rise, fall and peaks\n\
             examples/cells.txt in the repository is one, and 'zimgurav help bench' says more",
        )
    }

    /// The list as the library takes it.
    pub fn list(&self) -> [u8; LIST_BYTES] {
        array::from_fn(|at| self.rows[at / LIST_ROW_BYTES].bytes[at % LIST_ROW_BYTES])
    }

    /// The line that gives a row.
    pub fn line(&self, row: u64) -> &str {
        &self.rows[row as usize].line
    }
}

/// The kind that a line is about, and its row of the list.
fn row(line: &str) -> Result<(usize, [u8; LIST_ROW_BYTES]), String> {
    let words: Vec<&str> = line.split_whitespace().collect();
    let (kind, fields) = words.split_first().ok_or("an empty line")?;
    let kind = match line_fault::check_kind(kind.as_bytes())? {
        "BUFF" => "BUF",
        kind => kind,
    };
    let kind = KINDS.iter().position(|known| *known == kind);
    let kind = kind.expect("each kind has a row");
    if fields.len() != FIELDS.len() {
        return Err("a kind has contact, delay, rise, fall, peak lh and peak hl".to_string());
    }
    let mut numbers = [0; FIELDS.len()];
    for ((number, word), (name, room)) in numbers.iter_mut().zip(fields).zip(FIELDS) {
        let read = word.parse().ok().filter(|number| *number <= room);
        *number = read.ok_or_else(|| {
            let word = output::shortened(word);
            format!("{word} is no {name}, which is a whole number in its range: {RANGES}")
        })?;
    }
    let [contact, delay, rise, fall, peak_lh, peak_hl] = numbers.map(u16::to_le_bytes);
    let bytes = [
        contact[0], delay[0], rise[0], fall[0], peak_lh[0], peak_lh[1], peak_hl[0], peak_hl[1],
    ];
    Ok((kind, bytes))
}
