//! Proved ceilings on the supply current of a gate block, as document 01 specifies them.
//!
//! The functions here are safe forms of the proved library's own, which are in [`raw`]. Every value
//! of every argument is accepted or refused; a refused call has changed no lent buffer. The layout
//! of a block file and the form of a bench text are in `include/zimgurav.h`.
//!
//! The library allocates nothing, keeps nothing between calls and has no data that can change, so
//! that any number of threads may call at once. It calls nothing but `memcpy` and `memset`. A call
//! takes less than [`STACK_BYTES`] of stack.

pub mod excitation;
pub mod kind;
pub mod raw;
pub mod refused;
mod sizes;

pub use sizes::*;

use std::error::Error;
use std::fmt;

/// What an accepted block file holds.
#[derive(Clone, Copy, Debug, PartialEq, Eq)]
pub struct Counts {
    /// How many nets: inputs and gates.
    pub nets: u64,
    /// How many of the nets are inputs.
    pub inputs: u64,
}

/// What an accepted Envelope or Simulate returns beside its sheet.
#[derive(Clone, Copy, Debug, PartialEq, Eq)]
pub struct Currents {
    /// The greatest drop of a bus node at a tick, in nanovolts.
    pub drop: u64,
    /// The quiet tick: the last tick at which some row of the sheet is not 0; 0 for an empty sheet.
    pub quiet: u64,
}

/// How a search ended.
#[derive(Clone, Copy, Debug, PartialEq, Eq)]
pub enum Outcome {
    /// The bounds are equal: no pattern drops more than the one handed over.
    Exact,
    /// The upper bound is at most ratio / 1000 times the lower.
    Within,
    /// The budget was spent before that.
    Spent,
}

impl fmt::Display for Outcome {
    fn fmt(&self, f: &mut fmt::Formatter) -> fmt::Result {
        f.write_str(match self {
            Outcome::Exact => "exact",
            Outcome::Within => "within",
            Outcome::Spent => "spent",
        })
    }
}

/// What an accepted Search returns beside its sheet, pattern and case store.
#[derive(Clone, Copy, Debug, PartialEq, Eq)]
pub struct Found {
    /// How it ended.
    pub outcome: Outcome,
    /// The upper bound U: no pattern of the block drops more nanovolts.
    pub upper: u64,
    /// The lower bound L: as many nanovolts as the pattern handed over drops.
    pub lower: u64,
    /// How many cases were split.
    pub splits: u64,
    /// How many cases the store holds.
    pub cases: u64,
    /// The quiet tick: the last tick at which some row of the sheet is not 0; 0 for an empty sheet.
    /// No pattern of the block draws current after it.
    pub quiet: u64,
}

/// Why a call was refused. No lent buffer was changed.
#[derive(Clone, Copy, Debug, PartialEq, Eq)]
pub struct Refusal {
    /// Which of the refusals it is; [`refused`] has their names and says what each means.
    pub number: u64,
    /// The net, the lent buffer, the row of the list or the line of the text that the refusal is
    /// about, else 0. [`refused`] says which: buffers have the numbers that the call gives them.
    pub place: u64,
}

impl fmt::Display for Refusal {
    fn fmt(&self, f: &mut fmt::Formatter) -> fmt::Result {
        write!(f, "refused {}", self.number)?;
        let place = match self.number {
            // A net of a file, but a row where the list of a bench text is refused.
            refused::RANGE => Some("net or row"),
            refused::KIND..=refused::ARRIVAL | refused::PATTERN => Some("net"),
            refused::BUFFER => Some("buffer"),
            refused::LINE | refused::NAME => Some("line"),
            _ => None,
        };
        if let Some(name) = place {
            write!(f, " at {name} {}", self.place)?;
        }
        let meaning = refused::meaning(self.number).unwrap_or("no such refusal is known");
        write!(f, ": {meaning}")
    }
}

impl Error for Refusal {}

/// The version of the linked library, which has to be [`VERSION`].
pub fn version() -> u64 {
    raw::zimgurav_version()
}

/// Reads a block file: refusals 1 to 10.
pub fn read(file: &[u8]) -> Result<Counts, Refusal> {
    let [nets, inputs, ..] = values(|answer| {
        // SAFETY: both pointers are of references, and the answer's is to nothing else.
        unsafe { raw::zimgurav_read(file.as_ptr(), file.len(), answer) }
    })?;
    Ok(Counts { nets, inputs })
}

/// Writes a ceiling on the current of each contact at each tick into the sheet: refusals 1 to 12
/// and 15. A gate has a pulse for each tick at which it may switch, that of the greater peak where
/// both edges may be; its pulses add up.
///
/// - `hop_limit`: the most runs of ticks that a gate's sets keep for an excitation, 1 to
///   [`MOST_HOPS`].
/// - `table`: for each bus node the resistances, in milliohms, to the [`CONTACTS`]; 1 to
///   [`MOST_NODES`] nodes.
/// - `sheet`: a row of [`ROW_TICKS`] for each contact, contact 0 first, in microamperes;
///   [`SHEET_WORDS`].
/// - `work`: at least [`work_bytes`]. What an accepted call leaves there means nothing.
pub fn envelope(
    file: &[u8],
    hop_limit: u64,
    table: &[u16],
    sheet: &mut [Word],
    work: &mut [u8],
) -> Result<Currents, Refusal> {
    let [drop, quiet, ..] = values(|answer| {
        // SAFETY: each pointer is of a slice or the answer and good for its length, and what may be
        // changed is lent to this call alone.
        unsafe {
            raw::zimgurav_envelope(
                file.as_ptr(),
                file.len(),
                hop_limit,
                table.as_ptr(),
                table.len(),
                sheet.as_mut_ptr(),
                sheet.len(),
                work.as_mut_ptr(),
                work.len(),
                answer,
            )
        }
    })?;
    Ok(Currents { drop, quiet })
}

/// Writes the current of each contact at each tick under one pattern into the sheet: refusals 1 to
/// 10, 12, 15 and 16. A gate has a pulse for each tick at which it switches; its pulses add up.
///
/// - `table`, `sheet`, `work`: as for [`envelope`].
/// - `pattern`: [`PATTERN_BYTES`], one for each input net, as [`excitation`] names them; those past
///   the inputs are not read.
pub fn simulate(
    file: &[u8],
    table: &[u16],
    sheet: &mut [Word],
    pattern: &[u8],
    work: &mut [u8],
) -> Result<Currents, Refusal> {
    let [drop, quiet, ..] = values(|answer| {
        // SAFETY: each pointer is of a slice or the answer and good for its length, and what may be
        // changed is lent to this call alone.
        unsafe {
            raw::zimgurav_simulate(
                file.as_ptr(),
                file.len(),
                table.as_ptr(),
                table.len(),
                sheet.as_mut_ptr(),
                sheet.len(),
                pattern.as_ptr(),
                pattern.len(),
                work.as_mut_ptr(),
                work.len(),
                answer,
            )
        }
    })?;
    Ok(Currents { drop, quiet })
}

/// Searches, best first, for bounds on the greatest drop of any pattern of the block: refusals 1 to
/// 15 and 19.
///
/// The search starts with the whole frame as its one case and splits the case with the greatest
/// upper number, until the bounds are as close as the ratio asks or the budget is spent. A case is
/// split at the first input of the list that is undecided in it: whose set has several members.
///
/// - `hop_limit`, `table`, `work`: as for [`envelope`].
/// - `ratio`: how many thousandths of the lower bound the upper may be, [`LEAST_RATIO`] to
///   [`MOST_RATIO`].
/// - `budget`: the most cases to split, 0 to [`MOST_BUDGET`].
/// - `order`: the list of the inputs in the order to be split, a byte for each input, which names
///   each input's net exactly once. [`cone_order`] and [`bound_order`] make one; the bounds hold with
///   every such list.
/// - `sheet`: as for [`envelope`]; no pattern draws more current than it says.
/// - `pattern`: as for [`simulate`]; the pattern that drops the lower bound is written there. The
///   bytes past the inputs are unchanged.
/// - `store`: at least [`store_bytes`]. Each case has [`CASE_BYTES`]: 64 of input sets and 8 of its
///   upper number, low first. The bytes past the cases are unchanged.
#[allow(clippy::too_many_arguments)]
pub fn search(
    file: &[u8],
    hop_limit: u64,
    table: &[u16],
    ratio: u64,
    budget: u64,
    order: &[u8],
    sheet: &mut [Word],
    pattern: &mut [u8],
    work: &mut [u8],
    store: &mut [u8],
) -> Result<Found, Refusal> {
    let [outcome, upper, lower, splits, cases, quiet, ..] = values(|answer| {
        // SAFETY: each pointer is of a slice or the answer and good for its length, and what may be
        // changed is lent to this call alone.
        unsafe {
            raw::zimgurav_search(
                file.as_ptr(),
                file.len(),
                hop_limit,
                table.as_ptr(),
                table.len(),
                ratio,
                budget,
                order.as_ptr(),
                order.len(),
                sheet.as_mut_ptr(),
                sheet.len(),
                pattern.as_mut_ptr(),
                pattern.len(),
                work.as_mut_ptr(),
                work.len(),
                store.as_mut_ptr(),
                store.len(),
                answer,
            )
        }
    })?;
    Ok(Found {
        outcome: match outcome {
            0 => Outcome::Exact,
            1 => Outcome::Within,
            2 => Outcome::Spent,
            _ => unreachable!("an outcome is 0, 1 or 2"),
        },
        upper,
        lower,
        splits,
        cases,
        quiet,
    })
}

/// Writes a list of the inputs for [`search`], made from the block alone, and returns how many inputs
/// there are: refusals 1 to 10.
///
/// The input with most gates in its fan-out cone comes first, the lowest net on a tie. The cone has
/// the gates that an input feeds, directly or through others. Whether an input is decided does not
/// matter.
///
/// - `order`: a byte for each input is written, and 0 past them: `&order[..inputs as usize]` is the
///   list.
pub fn cone_order(file: &[u8], order: &mut [u8; ORDER_BYTES]) -> Result<u64, Refusal> {
    let [inputs, ..] = values(|answer| {
        // SAFETY: each pointer is of a slice, an array or the answer and good for its length, and what
        // may be changed is lent to this call alone.
        unsafe { raw::zimgurav_cone_order(file.as_ptr(), file.len(), order, answer) }
    })?;
    Ok(inputs)
}

/// Writes a list of the inputs for [`search`], made from bounds, and returns how many inputs there
/// are: refusals 1 to 12 and 15.
///
/// Each undecided input is tried: the whole frame is split at it, and the upper numbers of the
/// children, as [`search`] gives them, are sorted, the greatest first, with 0 for each child that is
/// missing to four. The input whose four numbers are the smallest comes first: those whose first is
/// smaller, on a tie whose second is, and so on, and the lowest net where all four are equal. Decided
/// inputs follow by net.
///
/// - `hop_limit`, `table`, `work`: as for [`envelope`].
/// - `order`: as for [`cone_order`].
pub fn bound_order(
    file: &[u8],
    hop_limit: u64,
    table: &[u16],
    work: &mut [u8],
    order: &mut [u8; ORDER_BYTES],
) -> Result<u64, Refusal> {
    let [inputs, ..] = values(|answer| {
        // SAFETY: each pointer is of a slice, an array or the answer and good for its length, and what
        // may be changed is lent to this call alone.
        unsafe {
            raw::zimgurav_bound_order(
                file.as_ptr(),
                file.len(),
                hop_limit,
                table.as_ptr(),
                table.len(),
                work.as_mut_ptr(),
                work.len(),
                order,
                answer,
            )
        }
    })?;
    Ok(inputs)
}

/// Turns a bench text into the records of a block, and returns how many there are: refusals 2, 3, 5,
/// 9, 10, 15, 17 and 18.
///
/// - `text`: lines of `INPUT(name)`, `OUTPUT(name)`, `name = KIND(name, ...)` or nothing, with
///   comments from `#` on.
/// - `list`: contact, delay, rise, fall and peaks of the gates, as bytes 1, 2 and 12 to 17 of a
///   record: [`LIST_ROW_BYTES`] for each kind, AND first; [`LIST_BYTES`].
/// - `records`: at least [`BLOCK_BYTES`]. The records are written at its beginning, and the bytes past
///   them are unchanged: `&records[..RECORD_BYTES * count as usize]` is a block file.
pub fn bench(text: &[u8], list: &[u8], records: &mut [u8]) -> Result<u64, Refusal> {
    let [count, ..] = values(|answer| {
        // SAFETY: each pointer is of a slice or the answer and good for its length, and what may be
        // changed is lent to this call alone.
        unsafe {
            raw::zimgurav_bench(
                text.as_ptr(),
                text.len(),
                list.as_ptr(),
                list.len(),
                records.as_mut_ptr(),
                records.len(),
                answer,
            )
        }
    })?;
    Ok(count)
}

/// Makes a call, and returns what its answer has after the first number if that is 0, else the
/// refusal.
fn values(call: impl FnOnce(&mut raw::Answer)) -> Result<[u64; ANSWER_NUMBERS - 1], Refusal> {
    let mut answer = [0; ANSWER_NUMBERS];
    call(&mut answer);
    match answer {
        [0, values @ ..] => Ok(values),
        [number, place, ..] => Err(Refusal { number, place }),
    }
}
