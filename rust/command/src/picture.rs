//! What a picture shows.

use zimgurav::Word;

use crate::block::Block;
use crate::evaluation::{Drawn, Searched, Setting};
use crate::number::volts;
use crate::sheet::Sheet;
use crate::summary;

/// Currents to be shown, and what is said of them.
pub struct Picture<'a> {
    /// What was called on which block.
    pub title: String,
    /// What the call answered, in a line.
    pub caption: String,
    /// The values that the call was made with, in lines.
    pub setting: Vec<String>,
    /// The contacts that gates are at.
    pub contacts: Vec<usize>,
    /// A ceiling on the currents of every pattern.
    pub ceiling: Option<&'a Sheet>,
    /// The currents of one pattern.
    pub simulated: Option<&'a Sheet>,
    /// A current that the scale reaches, even if none that is shown does.
    pub reaching: Word,
}

impl<'a> Picture<'a> {
    pub fn of_envelope(block: &Block, setting: &Setting, ceiling: &'a Drawn) -> Self {
        Picture {
            title: format!("Envelope of {}", block.name),
            caption: format!("No pattern drops more than {}.", volts(ceiling.drop)),
            setting: vec![summary::envelope_setting(setting)],
            contacts: block.contacts(),
            ceiling: Some(&ceiling.sheet),
            simulated: None,
            reaching: 0,
        }
    }

    pub fn of_simulation(block: &Block, setting: &Setting, simulated: &'a Drawn) -> Self {
        Picture {
            title: format!("Simulation of {}", block.name),
            caption: format!("The pattern drops {}.", volts(simulated.drop)),
            setting: vec![setting.table.words.clone()],
            contacts: block.contacts(),
            ceiling: None,
            simulated: Some(&simulated.sheet),
            reaching: 0,
        }
    }

    /// The sheet of a search, and inside it the currents of the pattern that it handed over.
    pub fn of_search(block: &Block, setting: &Setting, searched: &'a Searched) -> Self {
        Picture {
            title: format!("Search of {}", block.name),
            caption: summary::bounds(&searched.found, volts),
            setting: summary::search_setting(block, setting, searched).into(),
            contacts: block.contacts(),
            ceiling: Some(&searched.ceiling),
            simulated: Some(&searched.simulated.sheet),
            reaching: 0,
        }
    }

    /// The sheets that are shown, by their names.
    pub fn sheets(&self) -> Vec<(&'static str, &'a Sheet)> {
        let named = [("ceiling", self.ceiling), ("pattern", self.simulated)];
        let named = named.into_iter();
        named
            .filter_map(|(name, sheet)| Some((name, sheet?)))
            .collect()
    }

    /// The greatest current that is shown.
    pub fn greatest(&self) -> Word {
        let sheets = self.sheets().into_iter();
        let rows = sheets.flat_map(|(_, sheet)| {
            let contacts = self.contacts.iter();
            contacts.map(|contact| sheet.greatest(*contact).current)
        });
        rows.max().unwrap_or(0)
    }
}
