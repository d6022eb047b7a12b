//! The time of Bench on a text of a full block: the library beside the second implementation.

use check::implementation::{LIBRARY, SECOND};
use check::measure::compare_operation;
use check::sample::{gate, input, lines, plain_text, Arguments, Random, Record};
use zimgurav::kind::{AND, XNOR};

const INPUTS: usize = 64;
const GATES: usize = 960;

/// 64 inputs and 960 gates of 2 to 4 pins, each at any net before its gate.
fn block() -> Vec<Record> {
    let mut random = Random::new(1);
    let mut block = vec![input(15); INPUTS];
    for net in INPUTS..INPUTS + GATES {
        let count = 2 + random.below(3);
        let pins: Vec<u16> = (0..count).map(|_| random.below(net) as u16).collect();
        block.push(gate(random.byte(AND, XNOR), &pins));
    }
    block
}

/// The block's text, with blanks where one would write them.
fn text() -> Vec<u8> {
    let names: Vec<String> = (0..INPUTS + GATES).map(|net| format!("n{net}")).collect();
    let text = plain_text(&lines(&block(), &names));
    let text = String::from_utf8(text).expect("a text");
    text.replace('=', " = ").replace(',', ", ").into_bytes()
}

fn main() {
    let text = text();
    let name = format!("bench, 1,024 records in {} bytes", text.len());
    let arguments = Arguments::of_text(&text);
    let implementations = [LIBRARY, SECOND];
    compare_operation(&name, Arguments::bench, &arguments, &implementations);
}
