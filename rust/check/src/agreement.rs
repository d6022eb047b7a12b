//! What an accepted search has to satisfy by itself and against simulations of patterns, and what a list of inputs has
//! to that a maker answered.

use crate::implementation::Implementation;
use crate::sample::Arguments;
use zimgurav::{
    Currents, Found, Outcome, Word, CASE_BYTES, ORDER_BYTES, PATTERN_BYTES, RECORD_BYTES, ROW_TICKS,
};

/// Says what is wrong, in words, where something is.
fn expect(right: bool, wrong: impl FnOnce() -> String) -> Result<(), String> {
    if right {
        Ok(())
    } else {
        Err(wrong())
    }
}

/// A list that a maker answered has each of so many inputs once, and 0 past them.
pub fn is_a_list(made: &[u8; ORDER_BYTES], inputs: u64) -> Result<(), String> {
    let (list, past) = made.split_at(inputs as usize);
    let missing = (0..inputs).find(|&input| !list.contains(&(input as u8)));
    expect(missing.is_none(), || format!("{list:?} lacks {missing:?}"))?;
    let all_zero = past.iter().all(|&byte| byte == 0);
    expect(all_zero, || format!("{past:?} past the inputs"))
}

/// A search that was made: the arguments as it left them and its answer.
pub struct Searched {
    pub lent: Arguments,
    pub found: Found,
}

impl Searched {
    /// The outcome is the word for the bounds, and spent comes with the whole budget.
    pub fn has_the_right_outcome(&self) -> Result<(), String> {
        let Found {
            outcome,
            upper,
            lower,
            splits,
            ..
        } = self.found;
        let Arguments { ratio, budget, .. } = self.lent;
        let expected = if upper == lower {
            Outcome::Exact
        } else if 1000 * upper <= ratio * lower {
            Outcome::Within
        } else {
            Outcome::Spent
        };
        expect(outcome == expected, || format!("{outcome} for {expected}"))?;
        let spent = outcome != Outcome::Spent || splits == budget;
        expect(spent, || format!("spent after {splits} splits"))?;
        expect(lower <= upper, || format!("L {lower} above U {upper}"))?;
        expect(splits <= budget, || format!("{splits} splits"))
    }

    /// The pattern handed over is accepted and drops exactly L.
    pub fn hands_over_a_pattern(&self, simulator: &Implementation) -> Result<(), String> {
        let lower = self.found.lower;
        match self.lent.clone().simulate(simulator) {
            Ok(currents) => expect(currents.drop == lower, || {
                format!("the pattern drops {}, L is {lower}", currents.drop)
            }),
            Err(refusal) => Err(format!("the pattern handed over is {refusal}")),
        }
    }

    /// The cases in the store: each one's sets and upper number.
    pub fn cases(&self) -> impl Iterator<Item = (&[u8], u64)> {
        let records = self.lent.store.as_chunks::<CASE_BYTES>().0;
        let records = &records[..self.found.cases as usize];
        records.iter().map(|record| {
            let (sets, upper) = record.split_at(PATTERN_BYTES);
            (sets, u64::from_le_bytes(upper.try_into().expect("8 bytes")))
        })
    }

    /// U is the greatest upper number in the store.
    pub fn has_the_greatest_upper_number(&self) -> Result<(), String> {
        let greatest = self.cases().map(|(_, upper)| upper).max();
        expect(greatest == Some(self.found.upper), || {
            format!("U {}, in the store {greatest:?}", self.found.upper)
        })
    }

    /// The quiet tick is the last at which some row of the sheet is not 0, and 0 if none is.
    pub fn has_the_quiet_tick_of_its_sheet(&self) -> Result<(), String> {
        let rows = || self.lent.sheet.chunks_exact(ROW_TICKS);
        let last = (0..ROW_TICKS).rfind(|&tick| rows().any(|row| row[tick] != 0));
        let (quiet, last) = (self.found.quiet, last.unwrap_or(0) as u64);
        expect(quiet == last, || {
            format!("quiet tick {quiet}, the sheet's is {last}")
        })
    }

    /// The arguments as the search left them, with an empty case store.
    pub fn without_the_store(&self) -> Arguments {
        Arguments {
            store: Vec::new(),
            ..self.lent.clone()
        }
    }

    /// How many cases in the store have an upper number below their own simulation's or envelope's
    /// drop, since their parent's was. None is above it.
    pub fn capped_cases(&self, implementation: &Implementation) -> Result<u64, String> {
        let mut lent = self.without_the_store();
        let mut capped = 0;
        for (sets, upper) in self.cases() {
            let records = lent.file.chunks_exact_mut(RECORD_BYTES);
            for ((record, byte), &set) in records.zip(&mut lent.pattern).zip(sets) {
                if set != 0 {
                    record[18] = set;
                    *byte = set.trailing_zeros() as u8;
                }
            }
            let decided = sets.iter().all(|set| set.count_ones() <= 1);
            let currents = if decided {
                lent.simulate(implementation)
            } else {
                lent.envelope(implementation)
            };
            let drop = currents
                .map_err(|refusal| format!("a case is {refusal}"))?
                .drop;
            expect(upper <= drop, || {
                format!("an upper number {upper} above its case's drop {drop}")
            })?;
            capped += u64::from(upper < drop);
        }
        Ok(capped)
    }

    /// The pattern draws at most the sheet in each word, drops at most U and is quiet no later than the
    /// search; it is in exactly one case, and drops at most its upper number.
    pub fn is_above(
        &self,
        pattern: &[u8],
        Currents { drop, quiet }: Currents,
        sheet: &[Word],
    ) -> Result<(), String> {
        let upper = self.found.upper;
        expect(drop <= upper, || format!("a drop {drop} above U {upper}"))?;
        let last = self.found.quiet;
        expect(quiet <= last, || {
            format!("a quiet tick {quiet} after the search's {last}")
        })?;
        let mut words = sheet.iter().zip(&self.lent.sheet);
        if let Some(word) = words.position(|(current, ceiling)| current > ceiling) {
            return Err(format!("a current above the sheet at {word}"));
        }
        let mut holding = self.cases().filter(|(sets, _)| {
            let mut bytes = pattern.iter().zip(*sets);
            bytes.all(|(byte, set)| set & (1 << byte) != 0)
        });
        let (_, upper) = holding.next().ok_or("no case holds the pattern")?;
        expect(drop <= upper, || {
            format!("a drop {drop} above its case's upper number {upper}")
        })?;
        let one = holding.next().is_none();
        expect(one, || "two cases hold the pattern".to_string())
    }
}

#[cfg(test)]
mod tests {
    use super::*;

    /// The bytes of a list, then 0.
    fn made(list: &[u8]) -> [u8; ORDER_BYTES] {
        let mut made = [0; ORDER_BYTES];
        made[..list.len()].copy_from_slice(list);
        made
    }

    #[test]
    fn lists_of_inputs() {
        assert_eq!(is_a_list(&made(&[2, 0, 1]), 3), Ok(()));
        let all: Vec<u8> = (0..64).rev().collect();
        assert_eq!(is_a_list(&made(&all), 64), Ok(()));
        let doubled = is_a_list(&made(&[2, 0, 2]), 3);
        assert_eq!(doubled, Err("[2, 0, 2] lacks Some(1)".to_string()));
        let past = is_a_list(&made(&[1, 0, 2]), 2).expect_err("a byte past the inputs");
        assert!(past.starts_with("[2, 0, 0,"), "{past}");
    }
}
