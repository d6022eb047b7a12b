//! Currents as a value change dump, the form that waveform viewers such as GTKWave read.

use zimgurav::Word;

use crate::sheet::Sheet;

/// A row that is dumped: the character that stands for it, and its currents.
struct Variable<'a> {
    code: char,
    contact: usize,
    row: &'a [Word],
}

/// The dump of the used contacts of some sheets, each in a scope of its own name. A tick is dumped as a nanosecond,
/// a current as a real number of microamperes, at each tick at which it changes.
pub fn written(contacts: &[usize], sheets: &[(&str, &Sheet)]) -> String {
    let mut codes = '!'..;
    let scopes: Vec<(&str, Vec<Variable>)> = sheets
        .iter()
        .map(|(name, sheet)| {
            let variables = contacts.iter().zip(&mut codes);
            let variables = variables.map(|(contact, code)| Variable {
                code,
                contact: *contact,
                row: sheet.row(*contact),
            });
            (*name, variables.collect())
        })
        .collect();
    let quiet = sheets.iter().map(|(_, sheet)| sheet.quiet).max();
    let last = quiet.unwrap_or(0) as usize + 1;
    let variables: Vec<&Variable> = scopes.iter().flat_map(|(_, all)| all).collect();
    let ticks: String = (0..=last).map(|tick| changes(&variables, tick)).collect();
    header(&scopes) + &ticks
}

/// What the variables are.
fn header(scopes: &[(&str, Vec<Variable>)]) -> String {
    let scopes: String = scopes.iter().map(|(name, all)| scope(name, all)).collect();
    format!(
        "$comment Currents in microamperes; a tick is 1 ns here. $end\n\
         $timescale 1 ns $end\n\
         {scopes}$enddefinitions $end\n"
    )
}

fn scope(name: &str, variables: &[Variable]) -> String {
    let declared = variables.iter().map(|variable| {
        let Variable { code, contact, .. } = variable;
        format!("$var real 64 {code} contact_{contact}_uA $end\n")
    });
    let declared: String = declared.collect();
    format!("$scope module {name} $end\n{declared}$upscope $end\n")
}

/// The values that change at a tick; at tick 0 all of them.
fn changes(variables: &[&Variable], tick: usize) -> String {
    let changed = variables
        .iter()
        .filter(|variable| tick == 0 || variable.row[tick] != variable.row[tick - 1]);
    let values: String = changed
        .map(|variable| format!("r{} {}\n", variable.row[tick], variable.code))
        .collect();
    format!("#{tick}\n{values}")
}
