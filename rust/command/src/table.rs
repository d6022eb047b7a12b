//! The resistance table: from a file, or the same resistance for all contacts.

use std::ffi::OsStr;

use zimgurav::CONTACTS;

use crate::arguments::Arguments;
use crate::failure::Failure;
use crate::files;
use crate::number::{counted, grouped};
use crate::options::{OHMS, TABLE};
use crate::output;

/// The resistances of the bus nodes, and where they come from.
pub struct Table {
    /// 16 for each node, in milliohms.
    pub resistances: Vec<u16>,
    /// The table in a few words.
    pub words: String,
}

impl Table {
    /// The table that the options give: a file's, else one node.
    pub fn given(arguments: &Arguments) -> Result<Self, Failure> {
        match (arguments.value(TABLE.name), arguments.value(OHMS.name)) {
            (Some(path), None) => Table::load(path),
            (None, _) => Table::of_ohms(arguments.value_or_default(&OHMS)),
            (Some(_), Some(_)) => {
                let message = "a table is either of a file, --table, or of one node, --ohms";
                Err(Failure::usage(message))
            }
        }
    }

    /// One node with so many ohms to each contact.
    fn of_ohms(ohms: &OsStr) -> Result<Self, Failure> {
        let milliohms = ohms.to_str().and_then(milliohms);
        milliohms.map(Table::of_one_node).ok_or_else(|| {
            let ohms = ohms.display();
            Failure::usage(format_args!(
                "--ohms takes 0 to 65.535, as 0.5 or 12, with at most three decimals, and not {ohms}"
            ))
        })
    }

    /// One node with this resistance to each contact.
    fn of_one_node(milliohms: u16) -> Self {
        Table {
            resistances: vec![milliohms; CONTACTS],
            words: format!(
                "one bus node, {} mΩ to each contact",
                grouped(milliohms.into())
            ),
        }
    }

    /// A text of resistances in milliohms, a line for each node.
    fn load(path: &OsStr) -> Result<Self, Failure> {
        let name = files::shown(path);
        let mut resistances = Vec::new();
        for (number, line) in files::lines(&files::read(path)?) {
            let node = node(&line)
                .map_err(|message| Failure::file(&name, format!("line {number}: {message}")))?;
            resistances.extend(node);
        }
        let nodes = counted((resistances.len() / CONTACTS) as u64, "bus node");
        Ok(Table {
            resistances,
            words: format!("{nodes} of {name}"),
        })
    }
}

/// The resistances of a line, with commas between them or, where there is none, blanks.
fn node(line: &str) -> Result<Vec<u16>, String> {
    let words: Vec<&str> = match line.contains(',') {
        true => line.split(',').map(str::trim).collect(),
        false => line.split_whitespace().collect(),
    };
    let resistance = |word: &str| {
        let word = output::shortened(word);
        let message = format!("'{word}' is no resistance from 0 to 65535 milliohms");
        word.parse().map_err(|_| message)
    };
    let node: Result<Vec<u16>, String> = words.into_iter().map(resistance).collect();
    let node = node?;
    match node.len() {
        CONTACTS => Ok(node),
        length => Err(format!(
            "{length} resistances, and a node has {CONTACTS}, one for each contact"
        )),
    }
}

/// The milliohms of a decimal number of ohms.
fn milliohms(ohms: &str) -> Option<u16> {
    let (whole, decimals) = ohms.split_once('.').unwrap_or((ohms, "0"));
    let digits = |part: &str| !part.is_empty() && part.bytes().all(|byte| byte.is_ascii_digit());
    if !digits(whole) || !digits(decimals) || decimals.len() > 3 {
        return None;
    }
    format!("{whole}{decimals:0<3}").parse().ok()
}

#[cfg(test)]
mod tests {
    use super::*;

    #[test]
    fn ohms_with_decimals() {
        for (ohms, expected) in [
            ("1", Some(1_000)),
            ("0.001", Some(1)),
            ("0.5", Some(500)),
            ("12.34", Some(12_340)),
            ("65.535", Some(65_535)),
            ("0", Some(0)),
            ("65.536", None),
            ("0.0001", None),
            ("1.", None),
            (".5", None),
            ("-1", None),
            ("+1", None),
            ("1e3", None),
            ("", None),
        ] {
            assert_eq!(milliohms(ohms), expected, "{ohms}");
        }
    }
}
