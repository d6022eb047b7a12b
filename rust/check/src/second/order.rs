//! The two makers of a list of inputs in the order to be split. A list is one byte an
//! input; a maker returns it by value, 0 past the inputs.

use std::cmp::Reverse;

use super::arguments::{check_hop_limit, check_table, check_work};
use super::block::{cone, records};
use super::evaluation::Block;
use super::frame::Frame;
use super::read::read;
use zimgurav::{Refusal, ORDER_BYTES};

/// The first maker, from the block alone: sorts every input, decided or not, by cone:
/// most gates first, lowest net on a tie. Returns how many inputs there are.
pub fn cone_order(file: &[u8], order: &mut [u8; ORDER_BYTES]) -> Result<u64, Refusal> {
    let counts = read(file)?;

    let records = records(file);
    let mut inputs: Vec<usize> = (0..counts.inputs as usize).collect();
    inputs.sort_by_key(|&input| (Reverse(cone(input, &records)), input));
    *order = list(&inputs);
    Ok(counts.inputs)
}

/// The second maker, which also takes hop limit, table and work buffer: tries each
/// undecided input of the whole frame. The lexicographically smallest four come first,
/// lowest net on a tie; decided inputs follow by net. Returns how many inputs there
/// are. Of the work buffer only the size matters here.
pub fn bound_order(
    file: &[u8],
    hop_limit: u64,
    table: &[u16],
    work: &mut [u8],
    order: &mut [u8; ORDER_BYTES],
) -> Result<u64, Refusal> {
    let counts = read(file)?;
    check_hop_limit(hop_limit)?;
    check_table(table)?;
    check_work(work, counts)?;

    let block = Block {
        records: &records(file),
        hop_limit,
        table,
    };
    let whole = Frame::of_block(block.records);
    let inputs = 0..whole.sets.len();
    let decided = inputs.filter(|&input| !whole.is_undecided(input));
    let mut tried = tried(&block, &whole);
    tried.sort();
    let undecided = tried.into_iter().map(|(_, input)| input);
    *order = list(&undecided.chain(decided).collect::<Vec<_>>());
    Ok(counts.inputs)
}

/// Whether two undecided inputs of a valid block's file have the same four numbers.
pub fn bounds_tie(file: &[u8], hop_limit: u64, table: &[u16]) -> bool {
    let block = Block {
        records: &records(file),
        hop_limit,
        table,
    };
    let mut tried = tried(&block, &Frame::of_block(block.records));
    tried.sort();
    tried.windows(2).any(|pair| pair[0].0 == pair[1].0)
}

/// Tries each undecided input of the whole frame: its four numbers and its net.
fn tried(block: &Block, whole: &Frame) -> Vec<([u64; 4], usize)> {
    // Without a parent, nothing is above the whole frame's upper number.
    let upper = block.upper(whole, u64::MAX);
    let inputs = 0..whole.sets.len();
    let undecided = inputs.filter(|&input| whole.is_undecided(input));
    let tried = undecided.map(|input| (four(block, &whole.split_at(input), upper), input));
    tried.collect()
}

/// Writes the children's upper numbers in falling order, filled with 0 to four. They
/// are those of the search: capped by the whole frame's, simulated where the child is
/// decided.
fn four(block: &Block, children: &[Frame], upper_of_whole: u64) -> [u64; 4] {
    let mut four = [0; 4];
    for (number, child) in four.iter_mut().zip(children) {
        *number = block.upper(child, upper_of_whole);
    }
    four.sort_by_key(|&number| Reverse(number));
    four
}

/// The list of these inputs: one byte an input, 0 past the inputs.
fn list(inputs: &[usize]) -> [u8; ORDER_BYTES] {
    let mut list = [0; ORDER_BYTES];
    for (byte, &input) in list.iter_mut().zip(inputs) {
        *byte = input as u8;
    }
    list
}

#[cfg(test)]
mod tests {
    use super::*;
    use crate::sample::{gate, input, peaks, silent, Record};
    use zimgurav::kind::{BUF, NOT, XOR};

    /// BUF and NOT of a net. Each draws 10 where it rises: no pattern has both, their
    /// envelopes do.
    fn pair(net: u16) -> [Record; 2] {
        [BUF, NOT].map(|kind| peaks(gate(kind, &[net]), [10, 0]))
    }

    /// The four numbers and the net of each undecided input, with resistances of 1.
    fn tried_in(block: &[Record], hop_limit: u64) -> Vec<([u64; 4], usize)> {
        let block = Block {
            records: &records(&block.concat()),
            hop_limit,
            table: &[1; 16],
        };
        tried(&block, &Frame::of_block(block.records))
    }

    /// A split of net 0 into four leaves 30 or 20 of 40, one of net 2 into two edges
    /// leaves 30. Net 1 is decided.
    #[test]
    fn four_numbers_in_falling_order() {
        let inputs = [input(15), input(8), input(12)];
        let block = [&inputs[..], &pair(0), &pair(2)].concat();
        let expected = [([30, 30, 20, 20], 0), ([30, 30, 0, 0], 2)];
        assert_eq!(tried_in(&block, 10), expected);
    }

    /// Where net 0 rises, net 5 rises at ticks 2 and 9 and net 6 at tick 5. With one hop
    /// the envelope fills the ticks between 2 and 9, and would drop 110.
    #[test]
    fn decided_children_are_simulated() {
        let delayed = [1, 3, 8, 4].map(|delay| silent(gate(BUF, &[0]), delay));
        let xor = peaks(gate(XOR, &[1, 2, 3]), [10, 0]);
        let buf = peaks(gate(BUF, &[4]), [100, 0]);
        let block = [&[input(12)], &delayed[..], &[xor, buf]].concat();
        assert_eq!(tried_in(&block, 1), [([100, 10, 0, 0], 0)]);
    }

    #[test]
    fn ties() {
        let two = [input(15), input(15)];
        let tie = |gates: &[Record]| bounds_tie(&[&two, gates].concat().concat(), 10, &[1; 16]);
        assert!(tie(&[]));
        assert!(tie(&[pair(0), pair(1)].concat()));
        assert!(!tie(&pair(0)));
    }

    #[test]
    fn lists_are_0_past_the_inputs() {
        let mut order = [7; ORDER_BYTES];
        let block = [&[input(15), input(1), input(15)][..], &pair(2)].concat();
        let mut expected = [0; ORDER_BYTES];
        expected[..3].copy_from_slice(&[2, 0, 1]);
        assert_eq!(cone_order(&block.concat(), &mut order), Ok(3));
        assert_eq!(order, expected);
        order.fill(7);
        let mut work = vec![0; 160 * block.len()];
        let inputs = bound_order(&block.concat(), 10, &[1; 16], &mut work, &mut order);
        assert_eq!(inputs, Ok(3));
        assert_eq!(order, expected);
    }
}
