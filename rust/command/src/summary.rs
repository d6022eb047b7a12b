//! The numbers of a block and of a call in words, with their units.

use std::iter;

use zimgurav::{Found, Outcome, CONTACTS};

use crate::block::Block;
use crate::columns::Columns;
use crate::evaluation::{Drawn, Searched, Setting};
use crate::excitation;
use crate::number::{counted, grouped, microamperes, nanovolts};
use crate::pattern::Pattern;
use crate::record::KINDS;
use crate::sheet::Sheet;

/// Numbers in words, each after its name.
pub type Numbers = Vec<(&'static str, String)>;

/// The numbers as lines of text.
pub fn lines(numbers: &Numbers) -> String {
    let lines = numbers
        .iter()
        .map(|(name, words)| format!("{name:<10}   {words}\n"));
    lines.collect()
}

/// What a block holds.
pub fn of_block(block: &Block) -> Numbers {
    let kinds = KINDS.iter().zip(block.gates_of_kinds());
    let kinds = kinds.filter(|(_, count)| *count > 0);
    let kinds: Vec<String> = kinds
        .map(|(kind, count)| format!("{} {kind}", grouped(count as u64)))
        .collect();
    let contacts: Vec<String> = block.contacts().iter().map(usize::to_string).collect();
    let contacts = match contacts.len() {
        0 => format!("none of {CONTACTS} used"),
        count => format!("{count} of {CONTACTS} used: {}", contacts.join(", ")),
    };
    let arrivals = block.arrivals();
    let of_gates = &arrivals[block.counts.inputs as usize..];
    let arrivals = match (of_gates.iter().min(), of_gates.iter().max()) {
        (Some(first), Some(last)) => format!("gates from tick {first} to tick {last}"),
        _ => "no gates".to_string(),
    };
    let gates = of_gates.len() as u64;
    vec![
        ("nets", grouped(block.counts.nets)),
        ("inputs", with_parts(block.counts.inputs, &sets(block))),
        ("gates", with_parts(gates, &kinds.join(", "))),
        ("arrivals", arrivals),
        ("contacts", contacts),
    ]
}

/// A number and, where there are any, its parts.
fn with_parts(number: u64, parts: &str) -> String {
    if parts.is_empty() {
        return grouped(number);
    }
    format!("{}: {parts}", grouped(number))
}

/// How many inputs are allowed which excitations.
fn sets(block: &Block) -> String {
    let sets = (1..=15).rev().filter_map(|set| {
        let inputs = block.records().filter(|record| record.is_input());
        let count = inputs.filter(|input| input.allowed() == set).count();
        (count > 0).then(|| format!("{count} allowed {}", excitation::members(set)))
    });
    sets.collect::<Vec<_>>().join("; ")
}

/// The records in words, with the arrivals of the gates.
pub fn nets(block: &Block) -> Vec<String> {
    let nets = block.arrivals().into_iter().enumerate();
    let lines = nets.map(|(net, arrival)| {
        let words = block.net_in_words(net);
        if net < block.counts.inputs as usize {
            words
        } else {
            format!("{words}; arrives at tick {arrival}")
        }
    });
    lines.collect()
}

/// The values of an envelope's arguments.
pub fn envelope_setting(setting: &Setting) -> String {
    let hop_limit = counted(setting.hop_limit, "run");
    format!("hop limit {hop_limit}; {}", setting.table.words)
}

/// The values of a search's arguments, in two lines: the list of inputs has one to itself.
pub fn search_setting(block: &Block, setting: &Setting, searched: &Searched) -> [String; 2] {
    let values = format!(
        "hop limit {}, ratio {}, budget {}; {}",
        counted(setting.hop_limit, "run"),
        counted(setting.ratio, "thousandth"),
        counted(setting.budget, "split"),
        setting.table.words
    );
    [values, searched.order.words(block)]
}

/// What an envelope answers.
pub fn of_envelope(ceiling: &Drawn) -> Numbers {
    let drop = nanovolts(ceiling.drop);
    vec![
        ("drop", format!("{drop}: no pattern drops more")),
        ("quiet tick", quiet_ceiling(ceiling.sheet.quiet)),
    ]
}

/// What a simulation answers.
pub fn of_simulation(block: &Block, pattern: &Pattern, simulated: &Drawn) -> Numbers {
    let quiet = simulated.sheet.quiet;
    let mut numbers = of_pattern(block, pattern);
    numbers.push(("drop", nanovolts(simulated.drop)));
    numbers.push((
        "quiet tick",
        format!("{quiet}: the pattern draws no current after it"),
    ));
    numbers
}

/// A pattern, as a subcommand takes it and, where the inputs have names, by them.
fn of_pattern(block: &Block, pattern: &Pattern) -> Numbers {
    let names = block.input_names();
    let named = names.iter().zip(pattern.words());
    let named: Vec<String> = named.map(|(name, word)| format!("{name} {word}")).collect();
    let mut numbers = vec![("pattern", pattern.line())];
    if !named.is_empty() {
        numbers.push(("by name", named.join(", ")));
    }
    numbers
}

/// What a search answers.
pub fn of_search(block: &Block, setting: &Setting, searched: &Searched) -> Numbers {
    let found = &searched.found;
    let (upper, lower) = (nanovolts(found.upper), nanovolts(found.lower));
    let mut numbers = vec![
        ("outcome", outcome(found, setting)),
        ("U", format!("{upper}: no pattern drops more")),
        ("L", format!("{lower}: the worst pattern found drops this")),
        ("apart", apart(found)),
        ("splits", grouped(found.splits)),
        ("cases", grouped(found.cases)),
        ("quiet tick", quiet_ceiling(found.quiet)),
    ];
    numbers.extend(of_pattern(block, &searched.pattern));
    numbers
}

fn quiet_ceiling(quiet: u64) -> String {
    format!("{quiet}: no pattern draws current after it")
}

/// What a search says of the drop, in a line with drops in such words.
pub fn bounds(found: &Found, words: impl Fn(u64) -> String) -> String {
    let (upper, lower) = (words(found.upper), words(found.lower));
    format!("No pattern drops more than U = {upper}; the worst one found drops L = {lower}.")
}

/// How a search ended.
fn outcome(found: &Found, setting: &Setting) -> String {
    match found.outcome {
        Outcome::Exact => "exact for the drop: U is L".to_string(),
        Outcome::Within => format!(
            "within: U is at most {} times L",
            thousandths(setting.ratio)
        ),
        Outcome::Spent => {
            let splits = counted(setting.budget, "split");
            let near = match setting.ratio {
                1_000 => "U and L met".to_string(),
                ratio => format!("U was at most {} times L", thousandths(ratio)),
            };
            format!("spent: the budget of {splits} was used up before {near}")
        }
    }
}

/// How far apart the bounds are. The quotient is rounded up: it is the least ratio with which the search would have
/// ended here.
fn apart(found: &Found) -> String {
    let Found { upper, lower, .. } = *found;
    let difference = nanovolts(upper - lower);
    if upper == lower || lower == 0 {
        return difference;
    }
    let quotient = thousandths((1_000 * upper).div_ceil(lower));
    format!("{difference}: U is at most {quotient} times L")
}

/// Thousandths as a decimal number: `2.988`.
fn thousandths(number: u64) -> String {
    format!("{}.{:03}", grouped(number / 1_000), number % 1_000)
}

/// The greatest current of each contact in each of the sheets, with the first tick at which it flows.
pub fn greatest_currents(block: &Block, sheets: &[(&str, &Sheet)]) -> Columns {
    let headings = sheets.iter().flat_map(|(name, _)| [*name, "at tick"]);
    let rows = block.contacts().into_iter().map(|contact| {
        let greatest = sheets.iter().map(|(_, sheet)| sheet.greatest(contact));
        let words = greatest.flat_map(|greatest| match greatest.current {
            0 => [microamperes(0), "-".to_string()],
            current => [microamperes(current), greatest.tick.to_string()],
        });
        iter::once(contact.to_string()).chain(words).collect()
    });
    Columns {
        headings: iter::once("contact")
            .chain(headings)
            .map(str::to_string)
            .collect(),
        rows: rows.collect(),
    }
}
