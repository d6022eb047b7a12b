//! Names of nets in a bench text.

use std::collections::HashSet;

use super::Random;

/// The most letters of a name.
pub const MOST_LETTERS: usize = 16;

/// Words of the forms, which may be names too, and words that are nearly such.
const WORDS: [&str; 16] = [
    "INPUT", "OUTPUT", "AND", "NAND", "OR", "NOR", "XOR", "XNOR", "NOT", "BUF", "BUFF", "BUFFF",
    "input", "Input", "and", "0",
];

/// Different names, of 1 to 16 letters or digits.
pub fn names(random: &mut Random, count: usize) -> Vec<String> {
    let mut given = HashSet::new();
    let mut names = Vec::with_capacity(count);
    while names.len() < count {
        let name = match random.below(8) {
            0 => random.pick(&WORDS).to_string(),
            1 | 2 => close_name(random),
            3 | 4 => any_name(random),
            _ => format!("n{}", names.len()),
        };
        if given.insert(name.clone()) {
            names.push(name);
        }
    }
    names
}

/// Any 1 to 16 letters or digits.
pub fn any_name(random: &mut Random) -> String {
    (0..=random.below(MOST_LETTERS))
        .map(|_| letter(random))
        .collect()
}

/// One of the names that differ from each other only in the 8th, 9th or 16th letter, or in where they end.
pub fn close_name(random: &mut Random) -> String {
    let mut letters: Vec<char> = ('a'..).take(MOST_LETTERS).collect();
    letters[random.pick(&[7, 8, 15])] = letter(random);
    letters.truncate(random.pick(&[7, 8, 9, 15, 16, 16, 16]));
    letters.into_iter().collect()
}

/// A letter or a digit.
fn letter(random: &mut Random) -> char {
    let place = random.byte(0, 61);
    char::from(match place {
        0..10 => b'0' + place,
        10..36 => b'A' + place - 10,
        _ => b'a' + place - 36,
    })
}
