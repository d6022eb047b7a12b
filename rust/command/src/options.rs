//! The options of the subcommands.

use zimgurav::{LEAST_RATIO, MOST_BUDGET, MOST_HOPS, MOST_RATIO};

use crate::arguments::{CommandOption, Value};
use crate::order::{BOUNDS, CONE};

pub const NETS: CommandOption = CommandOption {
    name: "--nets",
    value: None,
    default: None,
    meaning: "list the records in words",
};

pub const CELLS: CommandOption = CommandOption {
    name: "--cells",
    value: Some(Value::FileRead("LIST")),
    default: None,
    meaning: "the cell list of a bench text",
};

pub const BLOCK_FILE: CommandOption = CommandOption {
    name: "-o",
    value: Some(Value::FileWritten("BLOCK")),
    default: None,
    meaning: "the block file to write",
};

pub const PAGE: CommandOption = CommandOption {
    name: "-o",
    value: Some(Value::FileWritten("FILE")),
    default: None,
    meaning: "the HTML page to write",
};

pub const HOP_LIMIT: CommandOption = CommandOption {
    name: "--hop-limit",
    value: Some(Value::Number(1, MOST_HOPS)),
    default: Some("10"),
    meaning: "runs of ticks that a gate keeps for an excitation, 1 to 16",
};

pub const TABLE: CommandOption = CommandOption {
    name: "--table",
    value: Some(Value::FileRead("FILE")),
    default: None,
    meaning: "resistances in milliohms, a line of 16 for each bus node",
};

pub const OHMS: CommandOption = CommandOption {
    name: "--ohms",
    value: Some(Value::Ohms),
    default: Some("0.001"),
    meaning: "one bus node, with R ohms to each contact",
};

pub const RATIO: CommandOption = CommandOption {
    name: "--ratio",
    value: Some(Value::Number(LEAST_RATIO, MOST_RATIO)),
    default: Some("1000"),
    meaning: "thousandths of L that U may be to end, 1000 to 10000",
};

pub const BUDGET: CommandOption = CommandOption {
    name: "--budget",
    value: Some(Value::Number(0, MOST_BUDGET)),
    default: Some("1000"),
    meaning: "cases to split at most, 0 to 10000",
};

pub const ORDER: CommandOption = CommandOption {
    name: "--order",
    value: Some(Value::WordOrFileRead("ORDER", &[CONE, BOUNDS])),
    default: Some(CONE),
    meaning: "which input to split first: cone, bounds or a file",
};

pub const PATTERN: CommandOption = CommandOption {
    name: "--pattern",
    value: Some(Value::FileWritten("FILE")),
    default: None,
    meaning: "write the worst pattern found, for simulate",
};

pub const SVG: CommandOption = CommandOption {
    name: "--svg",
    value: Some(Value::FileWritten("FILE")),
    default: None,
    meaning: "write a picture of the currents",
};

pub const CSV: CommandOption = CommandOption {
    name: "--csv",
    value: Some(Value::FileWritten("FILE")),
    default: None,
    meaning: "write the sheet, a line a tick and a column a contact",
};

pub const VCD: CommandOption = CommandOption {
    name: "--vcd",
    value: Some(Value::FileWritten("FILE")),
    default: None,
    meaning: "write the currents for a waveform viewer",
};

pub const ANSWERS: CommandOption = CommandOption {
    name: "--answers",
    value: Some(Value::FileWritten("FILE")),
    default: None,
    meaning: "write the answer of each call, a line each",
};
