//! Numbers as a person reads them.

use zimgurav::Word;

/// The digits in groups of three: `11,617`.
pub fn grouped(number: u64) -> String {
    let digits = number.to_string();
    let mut grouped = String::new();
    for (at, digit) in digits.chars().enumerate() {
        if at > 0 && (digits.len() - at).is_multiple_of(3) {
            grouped.push(',');
        }
        grouped.push(digit);
    }
    grouped
}

/// A current with its unit: `640 µA`.
pub fn microamperes(current: Word) -> String {
    format!("{} µA", grouped(current))
}

// In nanovolts.
const MICROVOLT: u64 = 1_000;
const MILLIVOLT: u64 = 1_000_000;

/// A drop with its unit and, from a microvolt on, in a larger one too: `11,617 nV (11.617 µV)`.
pub fn nanovolts(drop: u64) -> String {
    let nanovolts = format!("{} nV", grouped(drop));
    match drop {
        0..MICROVOLT => nanovolts,
        _ => format!("{nanovolts} ({})", volts(drop)),
    }
}

/// A drop in the unit that fits it, with all its digits: `11.617 µV`.
pub fn volts(drop: u64) -> String {
    match drop {
        0..MICROVOLT => format!("{drop} nV"),
        MICROVOLT..MILLIVOLT => format!("{} µV", decimal(drop, 3)),
        MILLIVOLT.. => format!("{} mV", decimal(drop, 6)),
    }
}

/// A number with its last digits after the point, without the zeros at its end: `11,617.02`.
fn decimal(number: u64, places: usize) -> String {
    let unit = (0..places).fold(1, |unit, _| 10 * unit);
    let decimals = format!("{:0places$}", number % unit);
    let decimals = decimals.trim_end_matches('0');
    let point = if decimals.is_empty() { "" } else { "." };
    format!("{}{point}{decimals}", grouped(number / unit))
}

/// So many things: `1 split`, `200 splits`.
pub fn counted(number: u64, thing: &str) -> String {
    let plural = if number == 1 { "" } else { "s" };
    format!("{} {thing}{plural}", grouped(number))
}

#[cfg(test)]
mod tests {
    use super::*;

    #[test]
    fn groups_of_three() {
        for (number, digits) in [
            (0, "0"),
            (999, "999"),
            (1_000, "1,000"),
            (11_617, "11,617"),
            (100_000, "100,000"),
            (u64::MAX, "18,446,744,073,709,551,615"),
        ] {
            assert_eq!(grouped(number), digits);
        }
    }

    #[test]
    fn drops_in_two_units() {
        for (drop, words) in [
            (0, "0 nV"),
            (999, "999 nV"),
            (1_000, "1,000 nV (1 µV)"),
            (11_617, "11,617 nV (11.617 µV)"),
            (100_020, "100,020 nV (100.02 µV)"),
            (999_999, "999,999 nV (999.999 µV)"),
            (1_000_000, "1,000,000 nV (1 mV)"),
            (1_000_001, "1,000,001 nV (1.000001 mV)"),
            (2_345_678_900_000, "2,345,678,900,000 nV (2,345,678.9 mV)"),
        ] {
            assert_eq!(nanovolts(drop), words);
        }
    }
}
