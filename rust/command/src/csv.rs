//! Sheets as comma-separated values.

use std::iter;

use zimgurav::{CONTACTS, ROW_TICKS};

use crate::sheet::Sheet;

/// A line of headings, then a line for each tick with the microamperes of each contact, all contacts of one sheet
/// before those of the next.
pub fn written(sheets: &[(&str, &Sheet)]) -> String {
    let headings = sheets.iter().flat_map(|(name, _)| {
        let contacts = 0..CONTACTS;
        contacts.map(move |contact| format!("contact {contact} {name} (uA)"))
    });
    let headings = line(iter::once("tick".to_string()).chain(headings));
    let ticks = (0..ROW_TICKS).map(|tick| {
        let currents = sheets.iter().flat_map(|(_, sheet)| {
            let contacts = 0..CONTACTS;
            contacts.map(move |contact| sheet.row(contact)[tick].to_string())
        });
        line(iter::once(tick.to_string()).chain(currents))
    });
    iter::once(headings).chain(ticks).collect()
}

fn line(values: impl Iterator<Item = String>) -> String {
    values.collect::<Vec<_>>().join(",") + "\n"
}
