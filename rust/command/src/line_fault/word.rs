//! Words that are not known, and the known ones that are meant.

use crate::output::escaped;
use crate::record::KINDS;

use super::FORMS;

/// The words of the lines that give no gate.
pub const DECLARATIONS: [&str; 2] = ["INPUT", "OUTPUT"];

/// The kinds of other tools that are spelled like none here, or like a wrong one, and what is said of them.
const OF_OTHER_TOOLS: [(&[&str], &str); 6] = [
    (&["INV", "INVERTER"], "; here it is called NOT"),
    (&["BUFFER"], "; here it is called BUF"),
    (&["EXOR", "EOR"], "; here it is called XOR"),
    (&["EXNOR", "ENOR", "NXOR"], "; here it is called XNOR"),
    (&["DFF", "DLATCH", "LATCH"], ": a block has no latches"),
    (
        &["GND", "VSS", "VDD", "VCC"],
        ": a constant is an input, whose set in the block file ties it low or high",
    ),
];

/// The words of the kinds; BUFF is BUF.
pub fn kinds() -> impl Iterator<Item = &'static str> + Clone {
    KINDS.into_iter().chain(["BUFF"])
}

/// The kind that a word names.
pub fn check_kind(word: &[u8]) -> Result<&'static str, String> {
    known(word, kinds(), |capitals| {
        format!("there is no kind {}{}", escaped(word), meant(capitals))
    })
}

/// Whether a word is INPUT or OUTPUT, and which.
pub fn check_declaration(word: &[u8]) -> Result<&'static str, String> {
    known(word, DECLARATIONS.into_iter(), |capitals| {
        let nearest = nearest(capitals, DECLARATIONS.into_iter());
        match nearest {
            Some(nearest) => format!("there is no form {}; {nearest}", escaped(word)),
            None => FORMS.to_string(),
        }
    })
}

/// The known word that this one is, or why it is none; `unknown` says so of a word in capitals.
fn known(
    word: &[u8],
    mut words: impl Iterator<Item = &'static str>,
    unknown: impl Fn(&[u8]) -> String,
) -> Result<&'static str, String> {
    let capitals = word.to_ascii_uppercase();
    match words.find(|known| known.as_bytes() == capitals) {
        Some(known) if known.as_bytes() == word => Ok(known),
        Some(known) => {
            let word = escaped(word);
            Err(format!(
                "words are written in capitals: {known}, not {word}"
            ))
        }
        None => Err(unknown(&capitals)),
    }
}

/// What is said of a kind that there is not, written in capitals.
fn meant(word: &[u8]) -> String {
    let stem = stem(word);
    let is_stem = |known: &&str| known.as_bytes() == stem;
    let mut of_other_tools = OF_OTHER_TOOLS.iter();
    if let Some((_, said)) = of_other_tools.find(|(words, _)| words.iter().any(is_stem)) {
        return said.to_string();
    }
    let of_cell = kinds().find(is_stem).map(|kind| are_nearest(&[kind]));
    let nearest = of_cell.or_else(|| nearest(word, kinds()));
    let all = || format!("the kinds are {}", listed(&kinds().collect::<Vec<_>>()));
    format!("; {}", nearest.unwrap_or_else(all))
}

/// The kind in the name of a cell: it stands before the pin count and the strength, as in `NAND2X1` and `INVX4`.
fn stem(word: &[u8]) -> &[u8] {
    match word.iter().position(|byte| !byte.is_ascii_alphabetic()) {
        Some(end) => word[..end].strip_suffix(b"X").unwrap_or(&word[..end]),
        None => word,
    }
}

/// Says which known words are nearest to this one: those that one change of spelling makes of it or, where it makes
/// none, two. At most half of the letters of either word may change.
fn nearest(word: &[u8], words: impl Iterator<Item = &'static str> + Clone) -> Option<String> {
    let within = |changes: usize| {
        let close = words.clone().filter(|known| {
            let letters = known.len().min(word.len());
            2 * changes <= letters && is_within(changes, word, known.as_bytes())
        });
        close.collect::<Vec<_>>()
    };
    let nearest = (1..=2).map(within).find(|close| !close.is_empty())?;
    Some(are_nearest(&nearest))
}

fn are_nearest(words: &[&str]) -> String {
    let are = if words.len() == 1 { "is" } else { "are" };
    format!("the nearest {are} {}", listed(words))
}

/// `AND, NAND and OR`.
fn listed(words: &[&str]) -> String {
    match words.split_last() {
        Some((last, others)) if !others.is_empty() => {
            format!("{} and {last}", others.join(", "))
        }
        _ => words.concat(),
    }
}

/// Whether so many changes of spelling make one word the other: a letter too many, a missing one, a wrong one, or two
/// neighbours in the wrong order.
fn is_within(changes: usize, one: &[u8], other: &[u8]) -> bool {
    let same = one
        .iter()
        .zip(other)
        .take_while(|(one, other)| one == other);
    let same = same.count();
    let (one, other) = (&one[same..], &other[same..]);
    if one.is_empty() && other.is_empty() {
        return true;
    }
    let Some(left) = changes.checked_sub(1) else {
        return false;
    };
    let after = |skipped: usize, other_skipped: usize| {
        let rest = one.get(skipped..).zip(other.get(other_skipped..));
        rest.is_some_and(|(one, other)| is_within(left, one, other))
    };
    let swapped = one.len() > 1 && other.starts_with(&[one[1], one[0]]);
    after(1, 0) || after(0, 1) || after(1, 1) || swapped && after(2, 2)
}

#[cfg(test)]
mod tests {
    use super::*;

    #[test]
    fn changes_of_spelling() {
        for (one, other, changes) in [
            ("NAND", "NAND", 0),
            ("NADN", "NAND", 1),
            ("ANND", "NAND", 1),
            ("NANDD", "NAND", 1),
            ("NAD", "NAND", 1),
            ("NARD", "NAND", 1),
            ("ADN", "NAND", 2),
            ("DNAN", "NAND", 2),
            ("XONR", "XNOR", 1),
            ("ROXN", "XNOR", 4),
            ("", "OR", 2),
            ("UOTPTU", "OUTPUT", 2),
        ] {
            let [one, other] = [one, other].map(str::as_bytes);
            for allowed in 0..6 {
                assert_eq!(is_within(allowed, one, other), allowed >= changes);
                assert_eq!(is_within(allowed, other, one), allowed >= changes);
            }
        }
    }
}
