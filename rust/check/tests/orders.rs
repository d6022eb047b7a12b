//! The list of inputs in the order to be split: which lists a search takes, what it does with them, and what the two
//! makers of a list answer. The expected lists are written from the request, and both the library and the second
//! implementation must give them.

use std::cmp::Reverse;

use check::agreement::is_a_list;
use check::implementation::{Implementation, Operation, LIBRARY, SECOND};
use check::sample::{
    block_with_a_cap, cone_list, drawing, gate, input, patterns, peaks, pins, shuffled, silent,
    Arguments, Random, Record, Shape,
};
use zimgurav::kind::{AND, BUF, INPUT, NOT};
use zimgurav::{Outcome, Refusal, CASE_BYTES, MOST_INPUTS, ORDER_BYTES};

const CONE_ORDER: Operation<u64> = Arguments::cone_order;
const BOUND_ORDER: Operation<u64> = Arguments::bound_order;

/// A maker answers how many inputs there are, writes this list and 0 past it, and changes nothing else but the work
/// buffer.
#[track_caller]
fn makes(maker: Operation<u64>, arguments: &Arguments, list: &[u8]) {
    let mut expected = [0; ORDER_BYTES];
    expected[..list.len()].copy_from_slice(list);
    for implementation in [LIBRARY, SECOND] {
        let name = implementation.name;
        let mut lent = arguments.clone();
        let inputs = maker(&mut lent, &implementation);
        assert_eq!(inputs, Ok(list.len() as u64), "{name}");
        assert_eq!(lent.made, expected, "{name}");
        lent.work.clone_from(&arguments.work);
        lent.made = arguments.made;
        assert!(lent == *arguments, "{name} changed another argument");
    }
}

/// BUF and NOT of a net. Each draws this peak where it rises: no pattern has both, their envelopes do.
fn pair(net: u16, peak: u16) -> [Record; 2] {
    [BUF, NOT].map(|kind| peaks(gate(kind, &[net]), [peak, 0]))
}

/// Inputs with these sets.
fn inputs(sets: &[u8]) -> Vec<Record> {
    sets.iter().copied().map(input).collect()
}

/// As many inputs as there can be, and a pair of each with this peak.
fn pairs_of_all(peak: impl Fn(u16) -> u16) -> Vec<Record> {
    let nets = 0..MOST_INPUTS as u16;
    let pairs = nets.flat_map(|net| pair(net, peak(net)));
    inputs(&[15; MOST_INPUTS as usize])
        .into_iter()
        .chain(pairs)
        .collect()
}

/// Check 19.
mod refusal {
    use super::*;

    #[track_caller]
    fn searches(arguments: &Arguments, list: &[u8]) {
        for implementation in [LIBRARY, SECOND] {
            let mut lent = arguments.clone();
            lent.order = list.to_vec();
            let answer = lent.search(&implementation);
            assert!(
                answer.is_ok(),
                "{}: {answer:?} of {list:?}",
                implementation.name
            );
            assert!(lent.order == list, "the list was changed");
        }
    }

    #[track_caller]
    fn refuses(arguments: &Arguments, list: &[u8]) {
        let refusal = Refusal {
            number: 19,
            place: 0,
        };
        for implementation in [LIBRARY, SECOND] {
            let name = implementation.name;
            let mut before = arguments.clone();
            before.order = list.to_vec();
            let mut lent = before.clone();
            let answer = lent.search(&implementation);
            assert_eq!(answer, Err(refusal), "{name}: {list:?}");
            assert!(lent == before, "{name} changed an argument");
        }
    }

    /// Arguments of a block of so many inputs, and the list of them by net.
    fn with_inputs(count: u8) -> (Arguments, Vec<u8>) {
        let block = inputs(&vec![15; count.into()]);
        (Arguments::new(&block), (0..count).collect())
    }

    #[test]
    fn of_no_list_that_names_each_input_once() {
        for count in [1, 2, 3, 63, 64] {
            let (arguments, mut list) = with_inputs(count);
            searches(&arguments, &list);
            list.reverse();
            searches(&arguments, &list);
            list.rotate_left(usize::from(count) / 3);
            searches(&arguments, &list);
        }
    }

    /// The length is the number of inputs, no more and no fewer, also where only its low byte would be.
    #[test]
    fn of_a_wrong_length() {
        for count in [1, 2, 3, 63, 64] {
            let (arguments, list) = with_inputs(count);
            let inputs = list.len();
            for length in [0, inputs - 1, inputs + 1, 2 * inputs, 256, 256 + inputs] {
                let mut wrong = list.clone();
                wrong.resize(length, 0);
                refuses(&arguments, &wrong);
                wrong.truncate(inputs);
                wrong.resize(length, count);
                refuses(&arguments, &wrong);
            }
        }
        let (arguments, _) = with_inputs(3);
        refuses(&arguments, &[0, 1, 2, 0, 1, 2]);
        refuses(&arguments, &[0; ORDER_BYTES]);
    }

    /// A net in place of another, at each place.
    #[test]
    fn of_a_doubled_net() {
        for count in [2, 3, 64] {
            let (arguments, list) = with_inputs(count);
            for place in 0..list.len() {
                let mut wrong = list.clone();
                wrong[place] = (list[place] + 1) % count;
                refuses(&arguments, &wrong);
            }
            refuses(&arguments, &vec![0; count.into()]);
            refuses(&arguments, &vec![count - 1; count.into()]);
        }
    }

    /// A byte that is no input's net, at each place, also where its low bits are those of the missing one.
    #[test]
    fn of_a_net_past_the_inputs() {
        for count in [1, 2, 3, 64] {
            let (arguments, list) = with_inputs(count);
            for (place, &net) in list.iter().enumerate() {
                for byte in [count, count + 1, 64 + net, 128 + net, 192 + net, 255] {
                    let mut wrong = list.clone();
                    wrong[place] = byte;
                    refuses(&arguments, &wrong);
                }
            }
        }
    }

    /// A gate's net is not an input's.
    #[test]
    fn of_a_gate() {
        let arguments = Arguments::new(&[&inputs(&[15, 15])[..], &pair(0, 10)].concat());
        searches(&arguments, &[1, 0]);
        for wrong in [&[0, 2][..], &[3, 1], &[0, 1, 2], &[0, 1, 2, 3]] {
            refuses(&arguments, wrong);
        }
    }

    /// Decided inputs are named too.
    #[test]
    fn of_the_undecided_inputs_alone() {
        let arguments = Arguments::new(&inputs(&[15, 1, 12]));
        searches(&arguments, &[1, 2, 0]);
        refuses(&arguments, &[0, 2]);
        refuses(&arguments, &[0, 2, 0]);
        let decided = Arguments::new(&inputs(&[1, 2]));
        searches(&decided, &[1, 0]);
        refuses(&decided, &[]);
    }
}

/// The list by cones.
mod by_cones {
    use super::*;

    #[track_caller]
    fn lists(block: &[Record], list: &[u8]) {
        makes(CONE_ORDER, &Arguments::new(block), list);
    }

    #[test]
    fn puts_the_input_with_most_gates_first() {
        let gates = [2, 1, 1].map(|net| gate(NOT, &[net]));
        lists(&[&inputs(&[15; 3])[..], &gates].concat(), &[1, 2, 0]);
        lists(&[&inputs(&[15; 4])[..], &gates].concat(), &[1, 2, 0, 3]);
    }

    /// Through other gates too: net 3 is fed by net 0, net 4 by net 3, net 5 by net 1.
    #[test]
    fn counts_gates_that_are_fed_through_others() {
        let gates = [2, 3, 1].map(|net| gate(NOT, &[net]));
        lists(&[&inputs(&[15; 3])[..], &gates].concat(), &[2, 1, 0]);
    }

    /// Net 3 is fed by net 0 on four pins, and counts once. Nets 4 and 5 are fed by net 1.
    #[test]
    fn counts_each_gate_once() {
        let gates = [
            gate(AND, &[0, 0, 0, 0]),
            gate(NOT, &[1]),
            gate(AND, &[4, 1]),
        ];
        lists(&[&inputs(&[15; 3])[..], &gates].concat(), &[1, 0, 2]);
    }

    /// Net 3 is fed by nets 0 and 2, net 4 by net 2.
    #[test]
    fn counts_a_gate_for_each_input() {
        let gates = [gate(AND, &[0, 2]), gate(NOT, &[2])];
        lists(&[&inputs(&[15; 3])[..], &gates].concat(), &[2, 0, 1]);
    }

    /// Net 2 has most gates and is decided, net 0 has one.
    #[test]
    fn sorts_decided_inputs_among_the_others() {
        let gates = [2, 0, 2].map(|net| gate(NOT, &[net]));
        lists(&[&inputs(&[15, 15, 8])[..], &gates].concat(), &[2, 0, 1]);
        lists(&[&inputs(&[1, 2, 8])[..], &gates].concat(), &[2, 0, 1]);
    }

    #[test]
    fn puts_the_lowest_net_first_on_a_tie() {
        lists(&inputs(&[15]), &[0]);
        lists(&inputs(&[15, 1, 3, 8]), &[0, 1, 2, 3]);
        let all: Vec<u8> = (0..MOST_INPUTS as u8).collect();
        lists(&inputs(&[15; MOST_INPUTS as usize]), &all);
        lists(&pairs_of_all(|net| net), &all);
    }

    /// As many inputs as there can be, each of which feeds one gate more than the one before it.
    #[test]
    fn of_as_many_inputs_as_there_can_be() {
        let mut block = inputs(&[15; MOST_INPUTS as usize]);
        for first in 1..MOST_INPUTS as u16 {
            let gates = (first..MOST_INPUTS as u16).step_by(4);
            block.extend(gates.map(|net| {
                let last = MOST_INPUTS as u16 - 1;
                gate(
                    AND,
                    &[net, net + 1, net + 2, net + 3].map(|pin| pin.min(last)),
                )
            }));
        }
        let last_first: Vec<u8> = (0..MOST_INPUTS as u8).rev().collect();
        lists(&block, &last_first);
    }
}

/// The list by bounds.
mod by_bounds {
    use super::*;

    #[track_caller]
    fn lists(block: &[Record], list: &[u8]) {
        makes(BOUND_ORDER, &Arguments::new(block), list);
    }

    #[test]
    fn has_decided_inputs_by_net() {
        lists(&inputs(&[8]), &[0]);
        lists(
            &[&inputs(&[1, 8, 4])[..], &pair(2, 10)].concat(),
            &[0, 1, 2],
        );
    }

    /// Whatever it draws, and whatever the others feed: net 1 feeds nothing.
    #[test]
    fn has_the_one_undecided_input_first() {
        lists(&inputs(&[3]), &[0]);
        lists(
            &[&inputs(&[8, 3, 4])[..], &pair(2, 10)].concat(),
            &[1, 0, 2],
        );
        lists(
            &[&inputs(&[8, 4, 12])[..], &pair(2, 10)].concat(),
            &[2, 0, 1],
        );
    }

    /// Without gates every upper number is 0. Filled with 0 to four, all are equal.
    #[test]
    fn has_undecided_inputs_by_net_where_there_is_no_gate() {
        lists(&inputs(&[15, 1, 3, 8, 12]), &[0, 2, 4, 1, 3]);
        let all: Vec<u8> = (0..MOST_INPUTS as u8).collect();
        lists(&inputs(&[15; MOST_INPUTS as usize]), &all);
    }

    /// A split of net 0 leaves 30 or 20 of 40, one of net 1 as well.
    #[test]
    fn has_the_lowest_net_first_on_a_tie() {
        let block = [&inputs(&[15, 15])[..], &pair(0, 10), &pair(1, 10)].concat();
        lists(&block, &[0, 1]);
    }

    /// Net 0 feeds more gates, but a split of it leaves 50, 50, 40, 40 of 60. One of net 1 leaves 40, 40, 20, 20.
    #[test]
    fn has_the_smallest_first_number_first() {
        let more = [0, 0, 0].map(|net| silent(gate(BUF, &[net]), 1));
        let block = [&inputs(&[15, 15])[..], &pair(0, 10), &pair(1, 20), &more].concat();
        lists(&block, &[1, 0]);
        makes(CONE_ORDER, &Arguments::new(&block), &[0, 1]);
    }

    /// A split of net 0 leaves 30, 30, 20, 20 of 40. Net 1 has no l and no h: 30, 30, 0, 0. Net 2 feeds nothing and
    /// has two children: 40, 40, 0, 0.
    #[test]
    fn fills_with_0_to_four() {
        let block = [&inputs(&[15, 12, 3])[..], &pair(0, 10), &pair(1, 10)].concat();
        lists(&block, &[1, 0, 2]);
    }

    /// Decided inputs follow, those of lower nets too.
    #[test]
    fn has_decided_inputs_last() {
        let block = [&inputs(&[8, 15, 1, 15])[..], &pair(1, 10), &pair(3, 20)].concat();
        lists(&block, &[3, 1, 0, 2]);
    }

    /// Resistances decide which of the two draws more: 2 × 10 at contact 0, 1 × 15 at contact 1.
    #[test]
    fn follows_the_table() {
        let at_1 = [BUF, NOT].map(|kind| drawing(gate(kind, &[1]), [1, 1, 1, 1], [15, 0]));
        let block = [&inputs(&[15, 15])[..], &pair(0, 10), &at_1].concat();
        lists(&block, &[1, 0]);
        let mut arguments = Arguments::new(&block);
        arguments.table[0] = 2;
        makes(BOUND_ORDER, &arguments, &[0, 1]);
    }

    /// The block with a cap and one input more, net 3, that feeds nothing: its children drop 200 as the whole frame
    /// does. So do those of nets 0 and 1, capped: where net 1 is l, the envelope drops 210. Net 2 has 100, 100, 10, 10.
    #[test]
    fn caps_the_children_by_the_whole_frame() {
        let mut block = block_with_a_cap();
        for gate in &mut block[3..] {
            let pins = gate[4..12].as_chunks_mut::<2>().0.iter_mut();
            let of_gates = pins.filter(|pin| pin[0] >= 3);
            of_gates.for_each(|pin| pin[0] += 1);
        }
        block.insert(3, input(3));
        let mut arguments = Arguments::new(&block);
        arguments.hop_limit = 2;
        makes(BOUND_ORDER, &arguments, &[2, 0, 1, 3]);
        let mut l_at_1 = arguments.clone();
        l_at_1.file[20 + 18] = 1;
        let drops = [arguments, l_at_1].map(|mut lent| lent.envelope(&SECOND).map(|it| it.drop));
        assert_eq!(drops, [Ok(200), Ok(210)]);
    }

    /// As many inputs as there can be, each of which draws more than the one before it.
    #[test]
    fn of_as_many_inputs_as_there_can_be() {
        let last_first: Vec<u8> = (0..MOST_INPUTS as u8).rev().collect();
        lists(&pairs_of_all(|net| 1 + net), &last_first);
    }
}

/// Random blocks.
mod random {
    use super::*;

    /// A random block with a few inputs, of which some are decided or draw as much as another.
    fn block(random: &mut Random) -> Vec<Record> {
        let shape = Shape {
            inputs: 1 + random.below(6),
            gates: random.below(24),
            reach: random.pick(&[3, 8, 1024]),
            delay: random.pick(&[1, 3]),
            slope: random.pick(&[1, 4]),
        };
        shape.block(random)
    }

    /// The list that a maker answers, which has each input once and which a search accepts.
    fn made(
        maker: Operation<u64>,
        implementation: &Implementation,
        arguments: &Arguments,
    ) -> Vec<u8> {
        let mut lent = arguments.clone();
        let inputs = maker(&mut lent, implementation).expect("accepted");
        assert_eq!(is_a_list(&lent.made, inputs), Ok(()));
        lent.order = lent.made[..inputs as usize].to_vec();
        assert!(lent.search(implementation).is_ok(), "{:?}", lent.order);
        lent.order
    }

    /// The gates that a net feeds, directly or through others.
    fn fed(net: usize, block: &[Record]) -> usize {
        let mut nets = vec![net];
        for (gate, record) in block.iter().enumerate() {
            if pins(record).any(|pin| nets.contains(&pin)) {
                nets.push(gate);
            }
        }
        nets.len() - 1
    }

    /// The cones fall along the list, and nets rise where they tie.
    #[test]
    fn cones_fall_along_the_list() {
        let mut random = Random::new(61);
        let mut ties = 0;
        for _ in 0..300 {
            let block = block(&mut random);
            let arguments = Arguments::random(&mut random, &block);
            let list = made(CONE_ORDER, &LIBRARY, &arguments);
            let keys = list
                .iter()
                .map(|&net| (Reverse(fed(net.into(), &block)), net));
            let keys: Vec<_> = keys.collect();
            assert!(keys.is_sorted(), "{keys:?}");
            ties += usize::from(keys.windows(2).any(|pair| pair[0].0 == pair[1].0));
        }
        assert!(ties >= 50, "cones hardly ever tie: {ties}");
    }

    /// The upper numbers of the cases that a search makes of the whole frame, at this input first: in falling order,
    /// 0 past them. None where the search has nothing to split.
    fn children(arguments: &Arguments, input: u8) -> Option<Vec<u64>> {
        let mut lent = arguments.clone().with_budget(1);
        lent.ratio = 1_000;
        lent.order.retain(|&net| net != input);
        lent.order.insert(0, input);
        let found = lent.search(&LIBRARY).expect("accepted");
        let cases = lent.store.as_chunks::<CASE_BYTES>().0.iter();
        let uppers = cases.map(|case| u64::from_le_bytes(*case.last_chunk().expect("8 bytes")));
        let mut uppers: Vec<u64> = uppers.take(found.cases as usize).collect();
        uppers.sort_by_key(|&upper| Reverse(upper));
        uppers.resize(4, 0);
        (found.splits == 1).then_some(uppers)
    }

    /// At how many of their numbers two sets of four agree from the first on.
    fn agreeing(four: &[u64], other: &[u64]) -> usize {
        let mut pairs = four.iter().zip(other);
        pairs.position(|(a, b)| a != b).unwrap_or(4)
    }

    /// Along the list rise the upper numbers that searches give, and nets where these tie.
    #[test]
    fn bounds_rise_along_the_list() {
        let mut random = Random::new(62);
        let mut decided_by = [0; 5];
        for _ in 0..2_000 {
            let block = block(&mut random);
            let arguments = Arguments::random(&mut random, &block);
            let list = made(BOUND_ORDER, &LIBRARY, &arguments);
            let is_undecided = |net: &u8| block[usize::from(*net)][18].count_ones() > 1;
            let (undecided, decided): (Vec<u8>, Vec<u8>) =
                list.iter().partition(|&net| is_undecided(net));
            assert_eq!(list, [&undecided[..], &decided].concat());
            assert!(decided.is_sorted(), "{decided:?}");
            let keys = undecided
                .iter()
                .map(|&net| Some((children(&arguments, net)?, net)));
            let Some(keys) = keys.collect::<Option<Vec<_>>>() else {
                continue;
            };
            assert!(keys.is_sorted(), "{keys:?}");
            for pair in keys.windows(2) {
                decided_by[agreeing(&pair[0].0, &pair[1].0)] += 1;
            }
        }
        println!("decided by the first to fourth number, by the net: {decided_by:?}");
        assert!(
            decided_by.iter().all(|&times| times >= 10),
            "{decided_by:?}"
        );
    }

    /// With a budget for every pattern the bounds meet, whatever the list, and at the same drop.
    #[test]
    fn every_list_leads_to_the_same_bound() {
        let mut random = Random::new(63);
        let (mut lists, mut others) = (0, 0);
        for _ in 0..60 {
            let block = block(&mut random);
            let enough = patterns(&block).len() as u64;
            if block.iter().filter(|record| record[0] == INPUT).count() > 4 {
                continue;
            }
            let mut arguments = Arguments::random(&mut random, &block).with_budget(enough);
            arguments.ratio = 1_000;
            let by_cones = cone_list(&arguments.file);
            arguments.order.clone_from(&by_cones);
            let expected = arguments.clone().search(&LIBRARY).expect("accepted");
            assert_eq!(expected.outcome, Outcome::Exact);
            for _ in 0..4 {
                arguments.order = shuffled(&mut random, by_cones.clone());
                let found = arguments.clone().search(&LIBRARY).expect("accepted");
                assert_eq!(found.outcome, Outcome::Exact);
                assert_eq!(found.upper, expected.upper, "{:?}", arguments.order);
                lists += 1;
                others += usize::from(found.splits != expected.splits);
            }
        }
        assert!(lists >= 100, "{lists} lists");
        assert!(others >= 20, "the list hardly ever matters: {others}");
    }
}
