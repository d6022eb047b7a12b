//! Random calls of Bench, and damage to their texts, lists and record buffers.

use super::names::{any_name, close_name, MOST_LETTERS};
use super::{Arguments, Line, Netlist, Random, Shape};
use zimgurav::{BLOCK_BYTES, LIST_BYTES, LIST_ROW_BYTES};

/// Bytes that mean something in a text, and some that are near to those that do.
const BYTES: [u8; 20] = *b"\n\r\t #(),=AFf0:@[`{/\x00";

/// Lends the text of a random block of `records` records, at least 1, with its list and a record buffer.
/// Every other call, about, has some damage.
pub fn lend_random_text(random: &mut Random, records: usize, arguments: &mut Arguments) {
    let shape = Shape::random(random, records);
    let mut netlist = Netlist::random(random, &shape);
    while random.below(4) == 0 {
        damage_lines(random, &mut netlist.lines);
    }
    arguments.lend_text(random, &netlist.lines, netlist.list);
    while random.below(6) == 0 {
        damage_text(random, &mut arguments.text);
    }
    while random.below(8) == 0 {
        spoil_bench(random, arguments);
    }
}

/// Damages the lines of a text in one random way. They may stay valid.
fn damage_lines(random: &mut Random, lines: &mut Vec<Line>) {
    if lines.is_empty() {
        lines.push(Line::Output(String::new()));
        return;
    }
    let at = random.below(lines.len());
    let other = random.below(lines.len());
    match random.below(10) {
        0 => lines.swap(at, other),
        1 => drop(lines.remove(at)),
        2 => lines.insert(other, lines[at].clone()),
        3 => {
            let name = name_of(&lines[other]).clone();
            *name_mut(&mut lines[at]) = name;
        }
        4 => *name_mut(&mut lines[at]) = wrong_name(random),
        5 => add_inputs(random, lines),
        6 => lines.truncate(at),
        _ => damage_gate(random, &mut lines[at]),
    }
}

/// Damages a gate's kind word or pins.
fn damage_gate(random: &mut Random, line: &mut Line) {
    let Line::Gate { name, word, pins } = line else {
        return;
    };
    if pins.is_empty() {
        return;
    }
    let pin = random.below(pins.len());
    match random.below(7) {
        0 => *word = word.to_lowercase(),
        1 => word.push('F'),
        2 => {
            *word = random
                .pick(&["", "AND", "NOT", "INPUT", "BUF0"])
                .to_string()
        }
        3 => pins[pin] = name.clone(),
        4 => pins[pin] = wrong_name(random),
        5 => pins.truncate(random.below(pins.len())),
        _ => {
            let more = vec![pins[pin].clone(); 1 + random.below(4)];
            pins.extend(more);
        }
    }
}

/// A name that is mostly unknown, or no name.
fn wrong_name(random: &mut Random) -> String {
    match random.below(5) {
        0 => String::new(),
        1 => "q".repeat(MOST_LETTERS + 1),
        2 => any_name(random) + random.pick(&["_", ".", "(", "="]),
        3 => any_name(random),
        _ => close_name(random),
    }
}

/// Inputs before all lines, so that there are about as many as there can be, or too many.
fn add_inputs(random: &mut Random, lines: &mut Vec<Line>) {
    let is_input = |line: &&Line| matches!(line, Line::Input(_));
    let inputs = lines.iter().filter(is_input).count();
    let count = 63 + random.below(4);
    for number in inputs..count {
        lines.insert(0, Line::Input(format!("more{number}")));
    }
}

fn name_of(line: &Line) -> &String {
    match line {
        Line::Input(name) | Line::Output(name) | Line::Gate { name, .. } => name,
    }
}

fn name_mut(line: &mut Line) -> &mut String {
    match line {
        Line::Input(name) | Line::Output(name) | Line::Gate { name, .. } => name,
    }
}

/// Damages a text byte by byte, in one random way. It may stay valid.
fn damage_text(random: &mut Random, text: &mut Vec<u8>) {
    let (any, near) = (random.byte(0, 255), random.pick(&BYTES));
    let byte = random.pick(&[any, near]);
    if text.is_empty() {
        text.push(byte);
        return;
    }
    let at = random.below(text.len());
    match random.below(5) {
        0 => text[at] = byte,
        1 => text.insert(at, byte),
        2 => drop(text.remove(at)),
        3 => drop_mark(random, text),
        _ => text.truncate(at),
    }
}

/// Takes a bracket, a comma, a `=` or a line's end away, or doubles it.
fn drop_mark(random: &mut Random, text: &mut Vec<u8>) {
    let is_mark = |&at: &usize| b"(),=\n".contains(&text[at]);
    let marks: Vec<usize> = (0..text.len()).filter(is_mark).collect();
    if marks.is_empty() {
        return;
    }
    let at = random.pick(&marks);
    if random.below(2) == 0 {
        text.remove(at);
    } else {
        text.insert(at, text[at]);
    }
}

/// Makes a call of Bench fail, mostly, in one of the ways that its list and record buffer can be wrong.
fn spoil_bench(random: &mut Random, arguments: &mut Arguments) {
    let (list, records) = (&mut arguments.list, &mut arguments.records);
    match random.below(4) {
        0 => records.truncate(random.pick(&[0, 1, BLOCK_BYTES - 1])),
        1 => list.resize(random.pick(&[0, 8, LIST_BYTES - 1, LIST_BYTES + 1, 128]), 1),
        2 => {
            let (row, field) = (random.below(8), random.below(4));
            let values = [0, 15, 16, 63, 64, 127, 128, 255];
            if let Some(byte) = list.get_mut(LIST_ROW_BYTES * row + field) {
                *byte = random.pick(&values);
            }
        }
        _ => {
            let delays = list.iter_mut().skip(1).step_by(LIST_ROW_BYTES);
            delays.for_each(|delay| *delay = 63);
        }
    }
}
