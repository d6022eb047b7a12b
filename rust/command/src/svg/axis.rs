//! Round numbers along the axes of a picture.

use crate::number::grouped;

/// The most steps of a scale of currents.
const MOST_CURRENT_STEPS: u64 = 5;

/// The most steps along the ticks.
const MOST_TICK_STEPS: u64 = 12;

/// A scale of currents from 0 up, in steps of a round number of microamperes.
#[derive(Clone, Copy, Debug, PartialEq, Eq)]
pub struct Scale {
    /// In microamperes.
    pub step: u64,
    /// How many steps, at least 1.
    pub steps: u64,
}

impl Scale {
    /// The scale with the least steps that reaches a current.
    pub fn reaching(current: u64) -> Self {
        let current = current.max(1);
        let step = round_step(current, MOST_CURRENT_STEPS);
        Scale {
            step,
            steps: current.div_ceil(step),
        }
    }

    /// The current at the scale's top, in microamperes.
    pub fn top(&self) -> u64 {
        self.step * self.steps
    }

    /// The current at a step, in the unit in which the scale's top has at most five digits.
    pub fn label(&self, step: u64) -> String {
        let (unit, microamperes) = match self.top() {
            ..100_000 => ("µA", 1),
            100_000..100_000_000 => ("mA", 1_000),
            _ => ("A", 1_000_000),
        };
        match step {
            0 => "0".to_string(),
            _ => format!("{} {unit}", grouped(step * self.step / microamperes)),
        }
    }
}

/// How many ticks are between two labels of an axis that ends at a tick.
pub fn tick_step(end: u64) -> u64 {
    round_step(end, MOST_TICK_STEPS)
}

/// The least of 1, 2, 5, 10, 20, 50, 100 and so on of which so many steps reach an extent.
fn round_step(extent: u64, most: u64) -> u64 {
    let least = extent.div_ceil(most);
    let mut power = 1;
    while 5 * power < least {
        power *= 10;
    }
    match least.div_ceil(power) {
        ..=1 => power,
        2 => 2 * power,
        _ => 5 * power,
    }
}

#[cfg(test)]
mod tests {
    use super::*;

    #[test]
    fn ticks_have_round_steps() {
        for (end, step) in [
            (1, 1),
            (12, 1),
            (13, 2),
            (24, 2),
            (25, 5),
            (52, 5),
            (60, 5),
            (61, 10),
            (121, 20),
            (241, 50),
            (508, 50),
            (601, 100),
        ] {
            assert_eq!(tick_step(end), step, "an axis to tick {end}");
        }
    }

    #[test]
    fn a_scale_reaches_its_current_in_few_steps() {
        for (current, step, steps) in [
            (0, 1, 1),
            (1, 1, 1),
            (5, 1, 5),
            (6, 2, 3),
            (10, 2, 5),
            (31, 10, 4),
            (640, 200, 4),
            (1_000, 200, 5),
            (1_001, 500, 3),
            (17_095_787_775, 5_000_000_000, 4),
        ] {
            let scale = Scale { step, steps };
            assert_eq!(Scale::reaching(current), scale, "{current} µA");
        }
    }

    /// No scale is so high that a row's greatest current is below two thirds of it.
    #[test]
    fn a_scale_is_no_higher_than_it_has_to_be() {
        for current in 2..200_000 {
            let top = Scale::reaching(current).top();
            assert!(current <= top && 2 * top <= 3 * current, "{current} µA");
        }
    }

    #[test]
    fn labels_have_a_unit_that_keeps_them_short() {
        for (current, labels) in [
            (0, ["0", "1 µA"]),
            (640, ["0", "800 µA"]),
            (99_999, ["0", "100 mA"]),
            (60_000, ["0", "60,000 µA"]),
            (123_456, ["0", "150 mA"]),
            (60_000_001, ["0", "80,000 mA"]),
            (99_999_999, ["0", "100 A"]),
            (17_095_787_775, ["0", "20,000 A"]),
        ] {
            let scale = Scale::reaching(current);
            let shown = [scale.label(0), scale.label(scale.steps)];
            assert_eq!(shown, labels, "{current} µA");
        }
    }
}
