//! Blocks that a bench text can describe: their lines and their list.

use super::names::names;
use super::text::{Line, KIND_WORDS};
use super::{Random, Record, Shape};
use zimgurav::kind::{AND, INPUT};
use zimgurav::{LIST_BYTES, LIST_ROW_BYTES};

/// A block whose inputs allow everything and whose gates of one kind have all fields but the pins in
/// common, with the lines and the list that describe it.
pub struct Netlist {
    pub block: Vec<Record>,
    pub lines: Vec<Line>,
    pub list: Vec<u8>,
}

impl Netlist {
    /// A random one of this shape, with random names, BUFF for some BUF, and OUTPUT lines anywhere.
    pub fn random(random: &mut Random, shape: &Shape) -> Self {
        let list = random_list(random, shape);
        let block = with_rows(shape.block(random), &list);
        let names = names(random, block.len());
        let mut lines = lines(&block, &names);
        for line in &mut lines {
            if let Line::Gate { word, .. } = line {
                if word == "BUF" && random.below(2) == 0 {
                    word.push('F');
                }
            }
        }
        for _ in 0..random.pick(&[0, 1, 3]) {
            let name = &names[random.below(names.len())];
            let output = random.pick(&[name, "unknown", "OUTPUT"]).to_string();
            lines.insert(random.below(lines.len() + 1), Line::Output(output));
        }
        Netlist { block, lines, list }
    }
}

/// The lines of a block whose nets have these names.
pub fn lines(block: &[Record], names: &[String]) -> Vec<Line> {
    let line = |(record, name): (&Record, &String)| match record[0] {
        INPUT => Line::Input(name.clone()),
        kind => Line::Gate {
            name: name.clone(),
            word: KIND_WORDS[usize::from(kind - AND)].to_string(),
            pins: pins(record).map(|pin| names[pin].clone()).collect(),
        },
    };
    block.iter().zip(names).map(line).collect()
}

/// The nets of a record's used pins.
pub fn pins(record: &Record) -> impl Iterator<Item = usize> + '_ {
    let pins = record[4..12].as_chunks::<2>().0.iter();
    let nets = pins.map(|&pin| usize::from(u16::from_le_bytes(pin)));
    nets.take(record[3].into())
}

/// A list whose gates are at contact 0, have delay, rise and fall of 1 tick and peaks of 0.
pub fn plain_list() -> Vec<u8> {
    [0, 1, 1, 1, 0, 0, 0, 0].repeat(LIST_BYTES / LIST_ROW_BYTES)
}

/// A random accepted list, with delay, rise and fall as the shape has them.
fn random_list(random: &mut Random, shape: &Shape) -> Vec<u8> {
    let mut list: Vec<u8> = (0..LIST_BYTES).map(|_| random.byte(0, 255)).collect();
    for row in list.as_chunks_mut::<LIST_ROW_BYTES>().0 {
        row[0] = random.byte(0, 15);
        row[1] = random.byte(1, shape.delay);
        row[2] = random.byte(1, shape.slope);
        row[3] = random.byte(1, shape.slope);
    }
    list
}

/// The block with sets of 15 and with the gates' fields from the list. A pin whose gate would arrive after
/// tick 255 is moved to net 0, an input.
fn with_rows(mut block: Vec<Record>, list: &[u8]) -> Vec<Record> {
    let rows = list.as_chunks::<LIST_ROW_BYTES>().0;
    let mut arrivals: Vec<u16> = Vec::with_capacity(block.len());
    for record in &mut block {
        if record[0] == INPUT {
            record[18] = 15;
            arrivals.push(0);
            continue;
        }
        let row = &rows[usize::from(record[0] - AND)];
        record[1..3].copy_from_slice(&row[..2]);
        record[12..18].copy_from_slice(&row[2..]);
        let latest = 255 - u16::from(row[1]);
        for pin in record[4..12].as_chunks_mut::<2>().0 {
            if arrivals[usize::from(u16::from_le_bytes(*pin))] > latest {
                *pin = [0; 2];
            }
        }
        let greatest = pins(record).map(|pin| arrivals[pin]).max();
        arrivals.push(greatest.unwrap_or(0) + u16::from(row[1]));
    }
    block
}
