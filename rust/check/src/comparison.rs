//! Two implementations beside each other: one call of each, then everything that the caller can see.

use std::fmt::{Debug, Display};

use crate::implementation::{Implementation, Operation};
use crate::sample::Arguments;
use zimgurav::Refusal;

/// A call that two implementations agree on.
pub struct Compared<Answer> {
    pub answer: Result<Answer, Refusal>,
    /// The arguments as the first implementation left them.
    pub after: Arguments,
}

/// Makes a call in both implementations: the answers and all that was lent are the same, but for
/// what an accepted call leaves in the work buffer. A refusal changes nothing. Otherwise returns
/// the first difference, in words.
pub fn compare<Answer: Copy + Debug + PartialEq>(
    [first, second]: &[Implementation; 2],
    call: Operation<Answer>,
    before: &Arguments,
) -> Result<Compared<Answer>, String> {
    let (mut after, mut other) = (before.clone(), before.clone());
    let answer = call(&mut after, first);
    let expected = call(&mut other, second);
    let (name, other_name) = (first.name, second.name);
    if answer != expected {
        return Err(format!(
            "{name} answers {answer:?}, {other_name} {expected:?}"
        ));
    }
    if answer.is_ok() {
        other.work.clone_from(&after.work);
        same(&after, &other).map_err(|place| format!("{name} and {other_name} differ: {place}"))?;
    } else {
        for (name, left) in [(name, &after), (other_name, &other)] {
            same(left, before).map_err(|place| format!("{name} refuses and changes {place}"))?;
        }
    }
    Ok(Compared { answer, after })
}

/// Returns the first place at which the arguments differ, in words.
fn same(these: &Arguments, those: &Arguments) -> Result<(), String> {
    same_words("sheet", &these.sheet, &those.sheet)?;
    same_words("pattern", &these.pattern, &those.pattern)?;
    same_words("case store", &these.store, &those.store)?;
    same_words("work buffer", &these.work, &those.work)?;
    same_words("made list", &these.made, &those.made)?;
    same_words("record buffer", &these.records, &those.records)?;
    same_words("file", &these.file, &those.file)?;
    same_words("table", &these.table, &those.table)?;
    same_words("list of inputs", &these.order, &those.order)?;
    same_words("text", &these.text, &those.text)?;
    same_words("list", &these.list, &those.list)
}

fn same_words<T: PartialEq + Display>(name: &str, these: &[T], those: &[T]) -> Result<(), String> {
    let mut pairs = these.iter().zip(those);
    match pairs.position(|(this, that)| this != that) {
        Some(at) => Err(format!("{name} at {at}: {}, {}", these[at], those[at])),
        None => Ok(()),
    }
}

/// Implementations that are wrong on purpose, each the second one but for one fault.
#[cfg(test)]
pub mod faults {
    use super::*;
    use crate::implementation::SECOND;
    use crate::sample::cone_list;
    use crate::second;
    use zimgurav::{Counts, Currents, Found};

    /// Envelope answers a drop one too high.
    pub const HIGH_DROP: Implementation = Implementation {
        name: "high drop",
        envelope: |file, hop_limit, table, sheet, work| {
            let currents = second::envelope(file, hop_limit, table, sheet, work)?;
            let drop = currents.drop + 1;
            Ok(Currents { drop, ..currents })
        },
        ..SECOND
    };

    /// Simulate leaves the sheet untouched.
    pub const SHEET_UNTOUCHED: Implementation = Implementation {
        name: "sheet untouched",
        simulate: |file, table, sheet, pattern, work| {
            second::simulate(file, table, &mut sheet.to_vec(), pattern, work)
        },
        ..SECOND
    };

    /// Simulate answers a quiet tick one too late.
    pub const LATE_SIMULATION: Implementation = Implementation {
        name: "late simulation",
        simulate: |file, table, sheet, pattern, work| {
            let currents = second::simulate(file, table, sheet, pattern, work)?;
            let quiet = currents.quiet + 1;
            Ok(Currents { quiet, ..currents })
        },
        ..SECOND
    };

    /// Search clears the last byte of the case store, whatever it answers.
    pub const STORE_CLEARED: Implementation = Implementation {
        name: "store cleared",
        search: |file, hop_limit, table, ratio, budget, order, sheet, pattern, work, store| {
            let answer = second::search(
                file, hop_limit, table, ratio, budget, order, sheet, pattern, work, store,
            );
            clear_last(store);
            answer
        },
        ..SECOND
    };

    /// Search hands over a drop one above its pattern's.
    pub const HIGH_LOWER: Implementation = Implementation {
        name: "high lower number",
        search: |file, hop_limit, table, ratio, budget, order, sheet, pattern, work, store| {
            let found = second::search(
                file, hop_limit, table, ratio, budget, order, sheet, pattern, work, store,
            )?;
            let lower = found.lower + 1;
            Ok(Found { lower, ..found })
        },
        ..SECOND
    };

    /// Search answers a quiet tick one too late.
    pub const LATE_SEARCH: Implementation = Implementation {
        name: "late search",
        search: |file, hop_limit, table, ratio, budget, order, sheet, pattern, work, store| {
            let found = second::search(
                file, hop_limit, table, ratio, budget, order, sheet, pattern, work, store,
            )?;
            let quiet = found.quiet + 1;
            Ok(Found { quiet, ..found })
        },
        ..SECOND
    };

    /// Search splits in the order of the cones, whatever its list says.
    pub const LIST_IGNORED: Implementation = Implementation {
        name: "list ignored",
        search: |file, hop_limit, table, ratio, budget, _, sheet, pattern, work, store| {
            let order = &cone_list(file);
            second::search(
                file, hop_limit, table, ratio, budget, order, sheet, pattern, work, store,
            )
        },
        ..SECOND
    };

    /// Cone order lists the inputs by net.
    pub const LIST_BY_NET: Implementation = Implementation {
        name: "list by net",
        cone_order: |file, order| {
            let inputs = second::cone_order(file, order)?;
            order[..inputs as usize].sort();
            Ok(inputs)
        },
        ..SECOND
    };

    /// Cone order clears the last byte of the list, whatever it answers.
    pub const LIST_CLEARED: Implementation = Implementation {
        name: "list cleared",
        cone_order: |file, order| {
            let answer = second::cone_order(file, order);
            clear_last(order);
            answer
        },
        ..SECOND
    };

    /// Bound order names one input twice, in place of another, where there are two.
    pub const INPUT_DOUBLED: Implementation = Implementation {
        name: "input doubled",
        bound_order: |file, hop_limit, table, work, order| {
            let inputs = second::bound_order(file, hop_limit, table, work, order)?;
            if inputs > 1 {
                order[1] = order[0];
            }
            Ok(inputs)
        },
        ..SECOND
    };

    /// Bound order leaves the bytes past the inputs untouched.
    pub const LIST_TOO_SHORT: Implementation = Implementation {
        name: "list too short",
        bound_order: |file, hop_limit, table, work, order| {
            let before = *order;
            let inputs = second::bound_order(file, hop_limit, table, work, order)?;
            let past = inputs as usize;
            order[past..].copy_from_slice(&before[past..]);
            Ok(inputs)
        },
        ..SECOND
    };

    /// Read counts one input too few.
    pub const INPUT_LOST: Implementation = Implementation {
        name: "input lost",
        read: |file| {
            let counts = second::read(file)?;
            let inputs = counts.inputs - 1;
            Ok(Counts { inputs, ..counts })
        },
        ..SECOND
    };

    /// Bench answers one record too many.
    pub const HIGH_COUNT: Implementation = Implementation {
        name: "high count",
        bench: |text, list, records| Ok(second::bench(text, list, records)? + 1),
        ..SECOND
    };

    /// Bench clears the last byte of the record buffer, whatever it answers.
    pub const RECORDS_CLEARED: Implementation = Implementation {
        name: "records cleared",
        bench: |text, list, records| {
            let answer = second::bench(text, list, records);
            clear_last(records);
            answer
        },
        ..SECOND
    };

    fn clear_last(buffer: &mut [u8]) {
        if let Some(byte) = buffer.last_mut() {
            *byte = 0;
        }
    }
}

#[cfg(test)]
mod tests {
    use super::faults::*;
    use super::*;
    use crate::implementation::SECOND;
    use crate::sample::{block_s, gate, input, peaks};
    use zimgurav::kind::{BUF, NOT};

    /// What is said of a wrong implementation's call on block S beside the second one's.
    fn said<Answer: Copy + Debug + PartialEq>(
        wrong: Implementation,
        call: Operation<Answer>,
        arguments: &Arguments,
    ) -> String {
        let compared = compare(&[wrong, SECOND], call, arguments);
        compared.err().unwrap_or_default()
    }

    #[test]
    fn reports_a_wrong_answer() {
        let arguments = Arguments::new(&block_s());
        let drop = said(HIGH_DROP, Arguments::envelope, &arguments);
        assert!(drop.starts_with("high drop answers Ok(Currents { drop: 21"));
        let simulated = said(LATE_SIMULATION, Arguments::simulate, &arguments);
        assert!(simulated.starts_with("late simulation answers Ok(Currents { drop: 0, quiet: 1 }"));
        let searched = said(LATE_SEARCH, Arguments::search, &arguments);
        assert!(searched.contains("cases: 4, quiet: 2 }), second Ok("));
        let inputs = said(INPUT_LOST, Arguments::read, &arguments);
        assert!(inputs.starts_with("input lost answers Ok(Counts { nets: 3, inputs: 0"));
        let count = said(HIGH_COUNT, Arguments::bench, &arguments);
        assert_eq!(count, "high count answers Ok(2), second Ok(1)");
    }

    #[test]
    fn reports_a_buffer_left_or_changed() {
        let mut arguments = Arguments::new(&block_s());
        let sheet = said(SHEET_UNTOUCHED, Arguments::simulate, &arguments);
        assert!(sheet.ends_with("differ: sheet at 0: 17216961135462248174, 0"));
        let last = arguments.store.len() - 1;
        let store = said(STORE_CLEARED, Arguments::search, &arguments);
        assert!(store.ends_with(&format!("differ: case store at {last}: 0, 238")));
        arguments.ratio = 0;
        let refused = said(STORE_CLEARED, Arguments::search, &arguments);
        assert!(refused.starts_with("store cleared refuses and changes case store at"));
        let records = said(RECORDS_CLEARED, Arguments::bench, &arguments);
        assert!(records.ends_with("differ: record buffer at 20479: 0, 238"));
        arguments.text.clear();
        let refused = said(RECORDS_CLEARED, Arguments::bench, &arguments);
        assert!(refused.starts_with("records cleared refuses and changes record buffer at"));
    }

    #[test]
    fn reports_a_wrong_list() {
        let block = [input(15), input(15), gate(NOT, &[1])];
        let mut arguments = Arguments::new(&block);
        let by_net = said(LIST_BY_NET, Arguments::cone_order, &arguments);
        assert!(by_net.ends_with("differ: made list at 0: 0, 1"));
        let doubled = said(INPUT_DOUBLED, Arguments::bound_order, &arguments);
        assert!(doubled.ends_with("differ: made list at 1: 0, 1"));
        let short = said(LIST_TOO_SHORT, Arguments::bound_order, &arguments);
        assert!(short.ends_with("differ: made list at 2: 238, 0"));
        arguments.file.clear();
        let refused = said(LIST_CLEARED, Arguments::cone_order, &arguments);
        assert!(refused.starts_with("list cleared refuses and changes made list at 63"));
    }

    /// Block S twice, and one more gate of net 1. Where net 0 is split first, it is net 0 that is l
    /// in the first case of the store.
    #[test]
    fn reports_a_list_that_is_ignored() {
        let drawn = |kind, net| peaks(gate(kind, &[net]), [10, 0]);
        let pairs = [drawn(BUF, 0), drawn(NOT, 0), drawn(BUF, 1), drawn(NOT, 1)];
        let block = [&[input(15), input(15)], &pairs[..], &[gate(BUF, &[1])]].concat();
        let mut arguments = Arguments::new(&block);
        assert_eq!(said(LIST_IGNORED, Arguments::search, &arguments), "");
        arguments.order = vec![0, 1];
        let ignored = said(LIST_IGNORED, Arguments::search, &arguments);
        assert!(ignored.ends_with("differ: case store at 0: 15, 1"));
        arguments.order = vec![0, 0];
        let unchecked = said(LIST_IGNORED, Arguments::search, &arguments);
        assert!(unchecked.ends_with("second Err(Refusal { number: 19, place: 0 })"));
    }

    #[test]
    fn says_nothing_of_equal_calls() {
        let arguments = Arguments::new(&block_s());
        assert_eq!(said(HIGH_DROP, Arguments::search, &arguments), "");
        assert_eq!(said(SHEET_UNTOUCHED, Arguments::read, &arguments), "");
    }
}
