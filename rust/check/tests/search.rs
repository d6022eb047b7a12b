//! Search on document 01's examples, where each of its choices shows, and against Simulate. The expected
//! answers and buffers are written from document 01 and the requests that change it, and both the library and
//! the second implementation must give them.

use std::ops::Range;

use check::agreement::Searched;
use check::implementation::{Implementation, LIBRARY, SECOND};
use check::sample::{
    self, drawing, gate, input, patterns, peaks, silent, switching_at, Arguments, Random, Record,
    Shape,
};
use zimgurav::excitation::{H, HL, L, LH};
use zimgurav::kind::{AND, BUF, INPUT, NAND, NOR, NOT, OR, XOR};
use zimgurav::{Currents, Found, Outcome, Word, ROW_TICKS};

/// The cases in a store: the sets of each one's inputs, and its upper number.
type Cases<'a> = [(&'a [u8], u64)];

/// What a search has to give.
struct Expected<'a> {
    outcome: Outcome,
    upper: u64,
    lower: u64,
    splits: u64,
    quiet: u64,
    /// The pattern's bytes for the inputs.
    pattern: &'a [u8],
    cases: &'a Cases<'a>,
    /// The sheet from contact 0, tick 0 on. It is 0 after what is written.
    sheet: &'a [Word],
}

impl Expected<'_> {
    /// The arguments as a search has to leave them, but for the work buffer.
    fn buffers(&self, before: &Arguments) -> Arguments {
        let mut after = before.clone();
        after.sheet.fill(0);
        after.sheet[..self.sheet.len()].copy_from_slice(self.sheet);
        after.pattern[..self.pattern.len()].copy_from_slice(self.pattern);
        for (record, (sets, upper)) in after.store.chunks_exact_mut(72).zip(self.cases) {
            record[..64].fill(0);
            record[..sets.len()].copy_from_slice(sets);
            record[64..].copy_from_slice(&upper.to_le_bytes());
        }
        after
    }
}

/// Checks the answer and each word of each buffer but the work buffer.
#[track_caller]
fn finds(arguments: &Arguments, expected: &Expected) {
    let found = Found {
        outcome: expected.outcome,
        upper: expected.upper,
        lower: expected.lower,
        splits: expected.splits,
        cases: expected.cases.len() as u64,
        quiet: expected.quiet,
    };
    let after = expected.buffers(arguments);
    for implementation in [LIBRARY, SECOND] {
        let name = implementation.name;
        let mut lent = arguments.clone();
        assert_eq!(lent.search(&implementation), Ok(found), "{name}");
        assert!(lent.file == after.file, "{name} changed the file");
        assert!(lent.table == after.table, "{name} changed the table");
        assert!(lent.order == after.order, "{name} changed the list");
        assert_eq!(lent.pattern, after.pattern, "{name}'s pattern");
        assert!(lent.store == after.store, "{name}'s store");
        let different = (0..8192).find(|&word| lent.sheet[word] != after.sheet[word]);
        if let Some(word) = different {
            let (is, not) = (lent.sheet[word], after.sheet[word]);
            panic!("{name}: {is} instead of {not} at word {word} of the sheet");
        }
    }
}

/// An implementation's search with these arguments, which it accepts.
fn searched(implementation: &Implementation, mut arguments: Arguments) -> Searched {
    let found = arguments.search(implementation).expect("accepted");
    Searched {
        lent: arguments,
        found,
    }
}

/// BUF and NOT of a net. Each draws where it rises: no pattern has both, their envelopes do.
fn pair(net: u16) -> [Record; 2] {
    [BUF, NOT].map(|kind| peaks(gate(kind, &[net]), [10, 0]))
}

/// A block of at most five inputs, so that all patterns can be tried.
fn small_block(random: &mut Random) -> Vec<Record> {
    let shape = Shape {
        inputs: 1 + random.below(5),
        gates: 1 + random.below(24),
        reach: random.pick(&[3, 8, 1024]),
        delay: random.pick(&[1, 3, 6]),
        slope: random.pick(&[1, 4, 20]),
    };
    shape.block(random)
}

/// How many inputs a block has.
fn inputs(block: &[Record]) -> usize {
    block.iter().filter(|record| record[0] == INPUT).count()
}

mod block_s {
    use super::*;

    fn arguments() -> Arguments {
        Arguments::new(&sample::block_s())
    }

    const WITHOUT_A_SPLIT: Expected = Expected {
        outcome: Outcome::Spent,
        upper: 20,
        lower: 10,
        splits: 0,
        quiet: 1,
        pattern: &[LH],
        cases: &[(&[15], 20)],
        sheet: &[0, 20],
    };

    #[test]
    fn is_exact_after_a_split() {
        let expected = Expected {
            outcome: Outcome::Exact,
            upper: 10,
            lower: 10,
            splits: 1,
            quiet: 1,
            pattern: &[LH],
            cases: &[(&[1], 0), (&[2], 0), (&[4], 10), (&[8], 10)],
            sheet: &[0, 10],
        };
        for budget in [1, 2, 200, 10_000] {
            finds(&arguments().with_budget(budget), &expected);
        }
        for ratio in [1_000, 1_999] {
            let arguments = Arguments {
                ratio,
                ..arguments()
            };
            finds(&arguments, &expected);
        }
    }

    #[test]
    fn is_spent_without_a_budget() {
        for ratio in [1_000, 1_500, 1_999] {
            let arguments = Arguments {
                ratio,
                ..arguments().with_budget(0)
            };
            finds(&arguments, &WITHOUT_A_SPLIT);
        }
    }

    #[test]
    fn is_within_twice_the_lower_bound() {
        let within = Expected {
            outcome: Outcome::Within,
            ..WITHOUT_A_SPLIT
        };
        for ratio in [2_000, 2_001, 10_000] {
            for budget in [0, 1, 200] {
                let arguments = Arguments {
                    ratio,
                    ..arguments().with_budget(budget)
                };
                finds(&arguments, &within);
            }
        }
    }

    /// A set without both edges has nothing to split. The probe is the first allowed of lh, hl, h, l.
    #[test]
    fn with_a_set_of_at_most_one_edge() {
        let none = [(1, L), (2, H), (3, H)].map(|(set, probe)| (set, probe, 0, 0));
        let hl = [4, 5, 6, 7].map(|set| (set, HL, 10, 1));
        let lh = [8, 9, 10, 11].map(|set| (set, LH, 10, 1));
        for (set, probe, drop, quiet) in none.into_iter().chain(hl).chain(lh) {
            let block = [&[input(set)], &pair(0)[..]].concat();
            let expected = Expected {
                outcome: Outcome::Exact,
                upper: drop,
                lower: drop,
                splits: 0,
                quiet,
                pattern: &[probe],
                cases: &[(&[set], drop)],
                sheet: &[0, drop],
            };
            finds(&Arguments::new(&block), &expected);
        }
    }

    /// Only the members of the set become children.
    #[test]
    fn with_a_set_of_both_edges() {
        let children: [(u8, &Cases); 3] = [
            (12, &[(&[4], 10), (&[8], 10)]),
            (13, &[(&[1], 0), (&[4], 10), (&[8], 10)]),
            (14, &[(&[2], 0), (&[4], 10), (&[8], 10)]),
        ];
        for (set, cases) in children {
            let block = [&[input(set)], &pair(0)[..]].concat();
            let expected = Expected {
                outcome: Outcome::Exact,
                upper: 10,
                lower: 10,
                splits: 1,
                quiet: 1,
                pattern: &[LH],
                cases,
                sheet: &[0, 10],
            };
            finds(&Arguments::new(&block), &expected);
        }
    }
}

mod block_f {
    use super::*;

    /// Block F with these resistances at contacts 0 and 1.
    fn arguments(resistances: [u16; 2]) -> Arguments {
        let mut arguments = Arguments::new(&sample::block_f());
        arguments.table = vec![0; 16];
        arguments.table[..2].copy_from_slice(&resistances);
        arguments
    }

    /// The sheet with these currents from tick 0 on at contact 1. Contact 0 has 0, 20, 10.
    fn sheet(of_contact_1: [Word; 5]) -> [Word; ROW_TICKS + 5] {
        let mut sheet = [0; ROW_TICKS + 5];
        sheet[..3].copy_from_slice(&[0, 20, 10]);
        sheet[ROW_TICKS..].copy_from_slice(&of_contact_1);
        sheet
    }

    /// The envelope of contact 1: pulses of 31 from ticks 0 and 1 on.
    const ENVELOPE: [Word; 5] = [0, 16, 31 + 16, 16 + 31, 16];

    /// Resistances of contacts 0 and 1, and the envelope's drop, which is that at tick 2: 10 of contact 0 and 47 of contact
    /// 1. The pattern lh, lh, which is the first probe, has 10 and 46 there, and drops one less.
    const DROPS: [([u16; 2], u64); 2] = [([2, 1], 67), ([1, 1], 57)];

    /// Checks the search with all hop limits.
    #[track_caller]
    fn finds_with_all_hops(arguments: &Arguments, expected: &Expected) {
        for hop_limit in 1..=16 {
            let arguments = Arguments {
                hop_limit,
                ..arguments.clone()
            };
            finds(&arguments, expected);
        }
    }

    /// What a search without a split finds that is not exact.
    fn without_a_split<'a>(
        outcome: Outcome,
        cases: &'a [(&'a [u8], u64); 1],
        sheet: &'a [Word],
    ) -> Expected<'a> {
        let [(_, upper)] = *cases;
        Expected {
            outcome,
            upper,
            lower: upper - 1,
            splits: 0,
            quiet: 4,
            pattern: &[LH, LH],
            cases,
            sheet,
        }
    }

    #[test]
    fn is_spent_without_a_budget() {
        for (resistances, drop) in DROPS {
            let (cases, sheet) = ([(&[15, 15][..], drop)], sheet(ENVELOPE));
            let expected = without_a_split(Outcome::Spent, &cases, &sheet);
            finds_with_all_hops(&arguments(resistances).with_budget(0), &expected);
        }
    }

    /// 67,000 is above 66 * 1,015 and at most 66 * 1,016; 57,000 is above 56 * 1,017 and at most 56 * 1,018.
    #[test]
    fn is_within_without_a_split() {
        for ((resistances, drop), ratio) in DROPS.into_iter().zip([1_016, 1_018]) {
            let (cases, sheet) = ([(&[15, 15][..], drop)], sheet(ENVELOPE));
            let within = without_a_split(Outcome::Within, &cases, &sheet);
            let mut arguments = arguments(resistances);
            arguments.ratio = ratio;
            finds(&arguments, &within);
            arguments = arguments.with_budget(0);
            finds(&arguments, &within);
            arguments.ratio = ratio - 1;
            let spent = without_a_split(Outcome::Spent, &cases, &sheet);
            finds(&arguments, &spent);
        }
    }

    /// Net 0 has both gates in its cone, net 1 has one. Where net 0 is
    ///
    /// - l, net 2 has h, and net 3 may switch at tick 2 alone: 0, 16, 31, 16 at contact 1;
    /// - h, net 2 has l and net 3 has h: nothing;
    /// - hl, net 2 rises at tick 1 and net 3 may fall at tick 3: 0, 10, 5 at contact 0 and 0, 0, 16, 31, 16 at contact 1;
    /// - lh, net 2 falls at tick 1, net 3 may have both edges at tick 2 and rise at tick 3: 0, 20, 10 at contact 0, and
    ///   at contact 1 0, 16, 31, 16 and from tick 1 on 0, 15, 30, 15, so that it drops as much as the pattern lh, lh.
    #[test]
    fn is_exact_after_a_split() {
        let sheet = sheet([0, 16, 31 + 15, 16 + 30, 16]);
        for (resistances, upper_of_the_frame) in DROPS {
            let drop = upper_of_the_frame - 1;
            let expected = Expected {
                outcome: Outcome::Exact,
                upper: drop,
                lower: drop,
                splits: 1,
                quiet: 4,
                pattern: &[LH, LH],
                cases: &[
                    (&[1, 15], 31),
                    (&[2, 15], 0),
                    (&[4, 15], 31),
                    (&[8, 15], drop),
                ],
                sheet: &sheet,
            };
            finds_with_all_hops(&arguments(resistances), &expected);
            finds_with_all_hops(&arguments(resistances).with_budget(1), &expected);
        }
    }

    /// Nothing drops. The sheet is the envelope's, and so is the quiet tick.
    #[test]
    fn is_exact_without_a_split_where_no_resistance_is() {
        let expected = Expected {
            outcome: Outcome::Exact,
            upper: 0,
            lower: 0,
            splits: 0,
            quiet: 4,
            pattern: &[LH, LH],
            cases: &[(&[15, 15], 0)],
            sheet: &sheet(ENVELOPE),
        };
        finds_with_all_hops(&arguments([0, 0]), &expected);
        finds_with_all_hops(&arguments([0, 0]).with_budget(0), &expected);
    }
}

mod without_gates {
    use super::*;

    /// Every drop is 0, and the probe is the first allowed of lh, hl, h, l at each of 64 inputs.
    #[test]
    fn is_exact() {
        let sets: Vec<u8> = (0..64).map(|net| 1 + net % 15).collect();
        let probe: Vec<u8> = sets
            .iter()
            .map(|set| match set {
                1 => L,
                2 | 3 => H,
                4..8 => HL,
                _ => LH,
            })
            .collect();
        for inputs in [1, 2, 63, 64] {
            let block: Vec<Record> = sets[..inputs].iter().copied().map(input).collect();
            let expected = Expected {
                outcome: Outcome::Exact,
                upper: 0,
                lower: 0,
                splits: 0,
                quiet: 0,
                pattern: &probe[..inputs],
                cases: &[(&sets[..inputs], 0)],
                sheet: &[],
            };
            finds(&Arguments::new(&block), &expected);
            finds(&Arguments::new(&block).with_budget(0), &expected);
        }
    }
}

/// Which case is split, at which input, and where its children go.
mod splits {
    use super::*;

    /// Two inputs that allow everything, a pair of each, and these gates.
    fn two_pairs(more: &[Record]) -> Vec<Record> {
        [&[input(15); 2], &pair(0)[..], &pair(1), more].concat()
    }

    /// A search of two pairs after one split, with the list by cones, has these cases.
    #[track_caller]
    fn first_split(block: &[Record], cases: &Cases) {
        first_split_with(&Arguments::new(block), cases);
    }

    /// A search of two pairs after one split has these cases.
    #[track_caller]
    fn first_split_with(arguments: &Arguments, cases: &Cases) {
        let expected = Expected {
            outcome: Outcome::Spent,
            upper: 30,
            lower: 20,
            splits: 1,
            quiet: 1,
            pattern: &[LH, LH],
            cases,
            sheet: &[0, 30],
        };
        finds(&arguments.clone().with_budget(1), &expected);
    }

    const AT_NET_0: [(&[u8], u64); 4] = [
        (&[1, 15], 20),
        (&[2, 15], 20),
        (&[4, 15], 30),
        (&[8, 15], 30),
    ];

    const AT_NET_1: [(&[u8], u64); 4] = [
        (&[15, 1], 20),
        (&[15, 2], 20),
        (&[15, 4], 30),
        (&[15, 8], 30),
    ];

    /// Whichever has more gates.
    #[test]
    fn at_the_first_input_of_the_list() {
        for pin in [0, 1] {
            let more = silent(gate(BUF, &[pin]), 1);
            let mut arguments = Arguments::new(&two_pairs(&[more]));
            arguments.order = vec![0, 1];
            first_split_with(&arguments, &AT_NET_0);
            arguments.order = vec![1, 0];
            first_split_with(&arguments, &AT_NET_1);
        }
    }

    /// With net 1 first in the list, a case in which it is decided is split at net 0.
    #[test]
    fn at_the_first_undecided_input_of_the_list() {
        let mut arguments = Arguments::new(&two_pairs(&[])).with_budget(2);
        arguments.order = vec![1, 0];
        let expected = Expected {
            outcome: Outcome::Spent,
            upper: 30,
            lower: 20,
            splits: 2,
            quiet: 1,
            pattern: &[LH, LH],
            cases: &[
                (&[15, 1], 20),
                (&[15, 2], 20),
                (&[1, 4], 10),
                (&[15, 8], 30),
                (&[2, 4], 10),
                (&[4, 4], 20),
                (&[8, 4], 20),
            ],
            sheet: &[0, 30],
        };
        finds(&arguments, &expected);
    }

    #[test]
    fn at_the_lowest_net_on_a_tie() {
        first_split(&two_pairs(&[]), &AT_NET_0);
        let one_more_each = [0, 1].map(|net| silent(gate(BUF, &[net]), 1));
        first_split(&two_pairs(&one_more_each), &AT_NET_0);
    }

    /// Nets 2 and 3 are the pair of net 0, nets 4 and 5 that of net 1.
    #[test]
    fn at_the_input_with_most_gates() {
        for pin in [1, 4, 5] {
            let more = silent(gate(NOT, &[pin]), 1);
            first_split(&two_pairs(&[more]), &AT_NET_1);
        }
        for pin in [0, 2, 3] {
            let more = silent(gate(NOT, &[pin]), 1);
            first_split(&two_pairs(&[more]), &AT_NET_0);
        }
    }

    /// Net 6 is fed by net 0 on four pins, directly and through its pair, and counts once. Nets 7 and
    /// 8 are fed by net 1, the second through the first.
    #[test]
    fn counts_each_gate_once() {
        let more = [
            silent(gate(AND, &[0, 0, 2, 3]), 1),
            silent(gate(BUF, &[1]), 1),
            silent(gate(BUF, &[7]), 1),
        ];
        first_split(&two_pairs(&more), &AT_NET_1);
    }

    /// A gate that both inputs feed counts for each.
    #[test]
    fn counts_a_gate_for_each_input() {
        let both = silent(gate(AND, &[0, 1]), 1);
        first_split(&two_pairs(&[both]), &AT_NET_0);
        let one = silent(gate(BUF, &[1]), 1);
        first_split(&two_pairs(&[both, one]), &AT_NET_1);
    }

    /// The first of several cases with U is split. Its first child takes its place.
    #[test]
    fn the_first_case_with_the_greatest_upper_number() {
        let arguments = Arguments::new(&two_pairs(&[]));
        let spent = Expected {
            outcome: Outcome::Spent,
            upper: 30,
            lower: 20,
            splits: 2,
            quiet: 1,
            pattern: &[LH, LH],
            cases: &[
                (&[1, 15], 20),
                (&[2, 15], 20),
                (&[4, 1], 10),
                (&[8, 15], 30),
                (&[4, 2], 10),
                (&[4, 4], 20),
                (&[4, 8], 20),
            ],
            sheet: &[0, 30],
        };
        finds(&arguments.clone().with_budget(2), &spent);
        let exact = Expected {
            outcome: Outcome::Exact,
            upper: 20,
            lower: 20,
            splits: 3,
            quiet: 1,
            pattern: &[LH, LH],
            cases: &[
                (&[1, 15], 20),
                (&[2, 15], 20),
                (&[4, 1], 10),
                (&[8, 1], 10),
                (&[4, 2], 10),
                (&[4, 4], 20),
                (&[4, 8], 20),
                (&[8, 2], 10),
                (&[8, 4], 20),
                (&[8, 8], 20),
            ],
            sheet: &[0, 20],
        };
        finds(&arguments.clone().with_budget(3), &exact);
        finds(&arguments, &exact);
    }

    /// Net 0 has most gates and is first in the list, but its set has one member.
    #[test]
    fn at_no_decided_input() {
        let mut block = two_pairs(&[silent(gate(BUF, &[0]), 1)]);
        block[0] = input(4);
        let expected = Expected {
            outcome: Outcome::Exact,
            upper: 20,
            lower: 20,
            splits: 1,
            quiet: 1,
            pattern: &[HL, LH],
            cases: &[(&[4, 1], 10), (&[4, 2], 10), (&[4, 4], 20), (&[4, 8], 20)],
            sheet: &[0, 20],
        };
        finds(&Arguments::new(&block), &expected);
    }
}

/// Which pattern the search hands over.
mod handed_over {
    use super::*;

    /// The probe of the whole frame, lh, drops 5; that of the third child, hl, 10.
    #[test]
    fn is_a_later_probe_that_drops_more() {
        let block = [input(15), peaks(gate(BUF, &[0]), [5, 10])];
        let expected = Expected {
            outcome: Outcome::Exact,
            upper: 10,
            lower: 10,
            splits: 1,
            quiet: 1,
            pattern: &[HL],
            cases: &[(&[1], 0), (&[2], 0), (&[4], 10), (&[8], 5)],
            sheet: &[0, 10],
        };
        finds(&Arguments::new(&block), &expected);
    }

    /// Net 4 draws in envelopes alone, as it joins net 1 with itself. The probe of the case hl, any
    /// is hl, lh. It reaches 10 first, and so do later those of its children.
    #[test]
    fn is_the_first_of_several_that_drop_as_much() {
        let block = [
            input(15),
            input(15),
            peaks(gate(BUF, &[0]), [5, 10]),
            silent(gate(BUF, &[0]), 1),
            peaks(gate(XOR, &[1, 1]), [10, 10]),
        ];
        let expected = Expected {
            outcome: Outcome::Exact,
            upper: 10,
            lower: 10,
            splits: 3,
            quiet: 1,
            pattern: &[HL, LH],
            cases: &[
                (&[1, 15], 10),
                (&[2, 15], 10),
                (&[4, 1], 10),
                (&[8, 1], 5),
                (&[4, 2], 10),
                (&[4, 4], 10),
                (&[4, 8], 10),
                (&[8, 2], 5),
                (&[8, 4], 5),
                (&[8, 8], 5),
            ],
            sheet: &[0, 10],
        };
        finds(&Arguments::new(&block), &expected);
    }
}

/// The upper numbers and the sheet: which case is simulated, which has an envelope, and the cap.
mod bounds {
    use super::*;

    /// One gate that draws 10 where net 0 makes it rise, at ticks 2 and 9, and one that draws 100 at
    /// tick 5. The envelope with one hop fills ticks 2 to 9 of the first.
    fn filled_between(inputs: &[Record]) -> Arguments {
        let delayed = [1, 3, 8, 4].map(|delay| silent(gate(BUF, &[0]), delay));
        let first = inputs.len() as u16;
        let xor = peaks(gate(XOR, &[first, first + 1, first + 2]), [10, 0]);
        let buf = peaks(gate(BUF, &[first + 3]), [100, 0]);
        Arguments {
            hop_limit: 1,
            ..Arguments::new(&[inputs, &delayed, &[xor, buf]].concat())
        }
    }

    const FILLED: [Word; 10] = [0, 0, 10, 10, 10, 110, 10, 10, 10, 10];
    const SIMULATED: [Word; 10] = [0, 0, 10, 0, 0, 100, 0, 0, 0, 10];

    /// The trap of reading a decided case's drop from the envelope, which is 110.
    #[test]
    fn are_simulated_where_every_input_is_decided() {
        let expected = Expected {
            outcome: Outcome::Exact,
            upper: 100,
            lower: 100,
            splits: 0,
            quiet: 9,
            pattern: &[LH],
            cases: &[(&[8], 100)],
            sheet: &SIMULATED,
        };
        finds(&filled_between(&[input(8)]), &expected);
    }

    /// Net 1 feeds no gate, but the case is decided only once net 1 is.
    #[test]
    fn are_of_the_envelope_where_an_input_is_undecided() {
        let arguments = filled_between(&[input(8), input(15)]);
        let spent = Expected {
            outcome: Outcome::Spent,
            upper: 110,
            lower: 100,
            splits: 0,
            quiet: 9,
            pattern: &[LH, LH],
            cases: &[(&[8, 15], 110)],
            sheet: &FILLED,
        };
        finds(&arguments.clone().with_budget(0), &spent);
        let exact = Expected {
            outcome: Outcome::Exact,
            upper: 100,
            lower: 100,
            splits: 1,
            quiet: 9,
            pattern: &[LH, LH],
            cases: &[
                (&[8, 1], 100),
                (&[8, 2], 100),
                (&[8, 4], 100),
                (&[8, 8], 100),
            ],
            sheet: &SIMULATED,
        };
        finds(&arguments.with_budget(1), &exact);
    }

    /// The trap of trusting a child to be below its parent: 210 where net 1 is l, 200 for the whole
    /// frame. The sheet has no cap.
    #[test]
    fn are_capped_by_the_parent() {
        let arguments = Arguments {
            hop_limit: 2,
            ..Arguments::new(&sample::block_with_a_cap())
        };
        let whole = Expected {
            outcome: Outcome::Spent,
            upper: 200,
            lower: 100,
            splits: 0,
            quiet: 10,
            pattern: &[LH, LH, LH],
            cases: &[(&[9, 9, 15], 200)],
            sheet: &[0, 0, 10, 10, 10, 10, 10, 10, 10, 200, 10],
        };
        finds(&arguments.clone().with_budget(0), &whole);
        let split = Expected {
            splits: 1,
            cases: &[(&[9, 1, 15], 200), (&[9, 8, 15], 200)],
            sheet: &[0, 0, 10, 10, 10, 10, 10, 10, 10, 210, 10],
            ..whole
        };
        let arguments = arguments.with_budget(1);
        finds(&arguments, &split);
        let searched = searched(&LIBRARY, arguments);
        assert_eq!(searched.capped_cases(&SECOND), Ok(1));
    }

    /// Net 1 joins net 0 with itself, which draws in the envelope alone. No ratio reaches from 0.
    #[test]
    fn of_no_drop() {
        let block = [input(15), peaks(gate(XOR, &[0, 0]), [10, 10])];
        let arguments = Arguments {
            ratio: 10_000,
            ..Arguments::new(&block)
        };
        let spent = Expected {
            outcome: Outcome::Spent,
            upper: 10,
            lower: 0,
            splits: 0,
            quiet: 1,
            pattern: &[LH],
            cases: &[(&[15], 10)],
            sheet: &[0, 10],
        };
        finds(&arguments.clone().with_budget(0), &spent);
        let exact = Expected {
            outcome: Outcome::Exact,
            upper: 0,
            lower: 0,
            splits: 1,
            quiet: 0,
            pattern: &[LH],
            cases: &[(&[1], 0), (&[2], 0), (&[4], 0), (&[8], 0)],
            sheet: &[],
        };
        finds(&arguments, &exact);
    }

    /// As many gates as there can be, each with the greatest peak, at the greatest resistance.
    #[test]
    fn at_their_greatest() {
        let rising = |kind| peaks(gate(kind, &[0]), [65_535, 0]);
        let block = [&[input(12)], &[rising(BUF); 512][..], &[rising(NOT); 511]].concat();
        let arguments = Arguments {
            table: vec![65_535; 256],
            ..Arguments::new(&block)
        };
        let drop = |gates: u64| 65_535 * 65_535 * gates;
        let spent = Expected {
            outcome: Outcome::Spent,
            upper: drop(1023),
            lower: drop(512),
            splits: 0,
            quiet: 1,
            pattern: &[LH],
            cases: &[(&[12], drop(1023))],
            sheet: &[0, 65_535 * 1023],
        };
        // 1000 * 1023 is above 1998 * 512, and at most 1999 * 512.
        let mut at_ratio = arguments.clone().with_budget(0);
        at_ratio.ratio = 1_998;
        finds(&at_ratio, &spent);
        at_ratio.ratio = 1_999;
        let within = Expected {
            outcome: Outcome::Within,
            ..spent
        };
        finds(&at_ratio, &within);
        let exact = Expected {
            outcome: Outcome::Exact,
            upper: drop(512),
            lower: drop(512),
            splits: 1,
            quiet: 1,
            pattern: &[LH],
            cases: &[(&[4], drop(511)), (&[8], drop(512))],
            sheet: &[0, 65_535 * 512],
        };
        finds(&arguments, &exact);
    }
}

/// Searches where pulses of a gate overlap.
mod sums {
    use super::*;

    /// The currents of pulses of the greatest slopes and peak from each of these ticks on.
    fn row_of(starts: Range<usize>) -> [Word; ROW_TICKS] {
        // 65,535 is 516 * 127 + 3, and 3 * k / 127 is nearest to 1 from k 22 on, to 2 from 64 and to 3 from 106.
        let more = |k| [22, 64, 106].iter().filter(|&&from| from <= k).count() as Word;
        let steps = (0..=127).chain((0..127).rev());
        let pulse: Vec<Word> = steps.map(|k| 516 * k + more(k)).collect();
        let mut row = [0; ROW_TICKS];
        for start in starts {
            for (current, value) in row[start..].iter_mut().zip(&pulse) {
                *current += value;
            }
        }
        row
    }

    /// A full block: a net that switches at ticks 4 to 253 where its input switches, and 345 BUF and 345 NOT of it, which
    /// draw where they rise. Each of these may rise at ticks 5 to 254, but the BUF rise at one tick and the NOT at the next.
    fn rising_in_turn() -> Arguments {
        let mut block = switching_at(250, 12);
        let last = block.len() as u16 - 1;
        for kind in [BUF, NOT] {
            let rising = drawing(gate(kind, &[last]), [0, 1, 127, 127], [65_535, 0]);
            block.extend([rising; 345]);
        }
        assert_eq!(block.len(), 1024);
        Arguments {
            table: vec![65_535; 256],
            ..Arguments::new(&block)
        }
    }

    /// The currents of the envelope are above 32 bits, and U is twice L. A split decides the input.
    #[test]
    fn at_their_greatest() {
        let run = row_of(4..254);
        let (ceiling, row) = (run.map(|sum| 690 * sum), run.map(|sum| 345 * sum));
        let lower = 65_535 * row.iter().max().expect("512 ticks");
        assert!(ceiling.iter().any(|&current| current > 1 << 32));
        let spent = Expected {
            outcome: Outcome::Spent,
            upper: 2 * lower,
            lower,
            splits: 0,
            quiet: 253 + 253,
            pattern: &[LH],
            cases: &[(&[12], 2 * lower)],
            sheet: &ceiling,
        };
        let at_ratio = |ratio| Arguments {
            ratio,
            ..rising_in_turn().with_budget(0)
        };
        finds(&at_ratio(1_999), &spent);
        let within = Expected {
            outcome: Outcome::Within,
            ..spent
        };
        finds(&at_ratio(2_000), &within);
        finds(&at_ratio(10_000), &within);
        let exact = Expected {
            outcome: Outcome::Exact,
            upper: lower,
            splits: 1,
            cases: &[(&[4], lower), (&[8], lower)],
            sheet: &row,
            ..within
        };
        finds(&rising_in_turn(), &exact);
    }

    /// Net 1 has one pulse of 40 where the input rises. Net 3 has two of 30 where the input falls, as net 2 rises a tick
    /// later: 0, 15, 30, 15 from ticks 0 and 1 on. The greatest of them would be below net 1's, their sum of 45 is above.
    #[test]
    fn hand_over_the_pattern_with_the_greater_sum() {
        let block = [
            input(12),
            drawing(gate(BUF, &[0]), [0, 1, 2, 2], [40, 0]),
            silent(gate(NOT, &[0]), 1),
            drawing(gate(NOR, &[0, 2]), [0, 1, 2, 2], [30, 30]),
        ];
        let spent = Expected {
            outcome: Outcome::Spent,
            upper: 40 + 45,
            lower: 40,
            splits: 0,
            quiet: 4,
            pattern: &[LH],
            cases: &[(&[12], 40 + 45)],
            sheet: &[0, 20 + 15, 40 + 45, 20 + 45, 15],
        };
        finds(&Arguments::new(&block).with_budget(0), &spent);
        let exact = Expected {
            outcome: Outcome::Exact,
            upper: 45,
            lower: 45,
            splits: 1,
            pattern: &[HL],
            cases: &[(&[4], 45), (&[8], 40)],
            sheet: &[0, 20, 45, 45, 15],
            ..spent
        };
        finds(&Arguments::new(&block), &exact);
    }
}

/// The last tick at which the sheet that the search leaves is not 0.
mod quiet_ticks {
    use super::*;

    /// Net 0 makes one of its pair rise at tick 1, contact 0. Only where it is hl, net 4 draws at tick 4, contact 15.
    /// Net 6 joins a net with itself, which may draw at tick 8, contact 7, in the envelope alone. The pattern handed
    /// over ends at tick 1.
    #[test]
    fn are_of_the_final_sheet() {
        let more = [
            silent(gate(BUF, &[0]), 3),
            drawing(gate(BUF, &[3]), [15, 1, 1, 1], [0, 4]),
            silent(gate(BUF, &[0]), 7),
            drawing(gate(XOR, &[5, 5]), [7, 1, 1, 1], [4, 4]),
        ];
        let arguments = Arguments::new(&[&[input(15)], &pair(0)[..], &more].concat());
        let mut sheet = [0; ROW_TICKS * 15 + 5];
        sheet[1] = 10;
        sheet[ROW_TICKS * 15 + 4] = 4;
        let exact = Expected {
            outcome: Outcome::Exact,
            upper: 10,
            lower: 10,
            splits: 1,
            quiet: 4,
            pattern: &[LH],
            cases: &[(&[1], 0), (&[2], 0), (&[4], 10), (&[8], 10)],
            sheet: &sheet,
        };
        finds(&arguments, &exact);
        let mut of_the_envelope = sheet;
        of_the_envelope[1] = 20;
        of_the_envelope[ROW_TICKS * 7 + 8] = 4;
        let spent = Expected {
            outcome: Outcome::Spent,
            upper: 20,
            splits: 0,
            quiet: 8,
            cases: &[(&[15], 20)],
            sheet: &of_the_envelope,
            ..exact
        };
        finds(&arguments.with_budget(0), &spent);
    }

    /// Net 7 joins a net with itself, and may draw at tick 5 as long as net 0 is undecided, which has most gates.
    #[test]
    fn are_earlier_after_a_split_that_spends_the_budget() {
        let more = [
            silent(gate(BUF, &[0]), 4),
            peaks(gate(XOR, &[6, 6]), [5, 5]),
        ];
        let block = [&[input(15); 2], &pair(0)[..], &pair(1), &more].concat();
        let arguments = Arguments::new(&block);
        let whole = Expected {
            outcome: Outcome::Spent,
            upper: 40,
            lower: 20,
            splits: 0,
            quiet: 5,
            pattern: &[LH, LH],
            cases: &[(&[15, 15], 40)],
            sheet: &[0, 40, 0, 0, 0, 5],
        };
        finds(&arguments.clone().with_budget(0), &whole);
        let split = Expected {
            upper: 30,
            splits: 1,
            quiet: 1,
            cases: &[
                (&[1, 15], 20),
                (&[2, 15], 20),
                (&[4, 15], 30),
                (&[8, 15], 30),
            ],
            sheet: &[0, 30],
            ..whole
        };
        finds(&arguments.with_budget(1), &split);
    }

    /// The last gate rises at tick 3. In the envelope with one hop the gap in which the XOR has no l is filled, so that
    /// it may rise at tick 6 too, and ticks 4 and 5 are filled. A second input, which feeds nothing, is undecided.
    #[test]
    fn are_of_the_simulation_where_every_input_is_decided() {
        let arguments = |inputs: &[Record]| {
            let first = inputs.len() as u16;
            let delayed = [1, 10, 5].map(|delay| silent(gate(BUF, &[0]), delay));
            let xor = silent(gate(XOR, &[first, first + 1]), 1);
            let or = peaks(gate(OR, &[first + 3, first + 2]), [10, 0]);
            Arguments {
                hop_limit: 1,
                ..Arguments::new(&[inputs, &delayed, &[xor, or]].concat())
            }
        };
        let decided = Expected {
            outcome: Outcome::Exact,
            upper: 10,
            lower: 10,
            splits: 0,
            quiet: 3,
            pattern: &[LH],
            cases: &[(&[8], 10)],
            sheet: &[0, 0, 0, 10],
        };
        finds(&arguments(&[input(8)]), &decided);
        finds(&arguments(&[input(8)]).with_budget(0), &decided);
        let undecided = Expected {
            quiet: 6,
            pattern: &[LH, LH],
            cases: &[(&[8, 15], 10)],
            sheet: &[0, 0, 0, 10, 10, 10, 10],
            ..decided
        };
        let arguments = arguments(&[input(8), input(15)]);
        finds(&arguments, &undecided);
        finds(&arguments.with_budget(0), &undecided);
    }

    /// Arrival 255, and a delay of 1: the pulse starts at tick 254 and has 1 at tick 507, the last before its end.
    #[test]
    fn are_at_most_507() {
        let mut block = vec![input(15)];
        for (pin, delay) in (0..).zip([63, 63, 63, 63, 2]) {
            block.push(silent(gate(BUF, &[pin]), delay));
        }
        block.push(drawing(gate(BUF, &[5]), [15, 1, 127, 127], [127, 0]));
        let mut sheet = vec![0; ROW_TICKS * 15 + 254];
        sheet.extend((0..=127).chain((1..127).rev()));
        let expected = Expected {
            outcome: Outcome::Exact,
            upper: 127,
            lower: 127,
            splits: 0,
            quiet: 507,
            pattern: &[LH],
            cases: &[(&[15], 127)],
            sheet: &sheet,
        };
        finds(&Arguments::new(&block), &expected);
    }

    #[test]
    fn are_0_where_no_gate_has_a_peak() {
        let block = [
            input(15),
            input(15),
            drawing(gate(NAND, &[0, 1]), [0, 1, 127, 127], [0, 0]),
            drawing(gate(XOR, &[2, 1]), [15, 63, 127, 127], [0, 0]),
        ];
        let expected = Expected {
            outcome: Outcome::Exact,
            upper: 0,
            lower: 0,
            splits: 0,
            quiet: 0,
            pattern: &[LH, LH],
            cases: &[(&[15, 15], 0)],
            sheet: &[],
        };
        finds(&Arguments::new(&block), &expected);
    }
}

mod buffers {
    use super::*;

    /// What stood in the buffers, and how long those are that may be longer, do not matter.
    #[test]
    fn to_write_may_hold_anything() {
        let mut random = Random::new(7);
        for _ in 0..100 {
            let block = small_block(&mut random);
            let arguments = Arguments::random(&mut random, &block);
            let inputs = inputs(&block);
            let mut clean = Arguments {
                work: vec![0; 160 * block.len()],
                ..arguments.clone().with_budget(arguments.budget)
            };
            let found = clean.search(&LIBRARY).expect("accepted");
            let cases = 72 * found.cases as usize;
            for more in [0, 1, 72, 1 << 16] {
                let mut dirty = arguments.clone();
                dirty.sheet.fill_with(|| random.bits());
                dirty.work.resize(160 * block.len() + more, 0);
                dirty.store.resize(clean.store.len() + more, 0);
                for buffer in [&mut dirty.pattern, &mut dirty.work, &mut dirty.store] {
                    buffer.fill_with(|| random.byte(0, 255));
                }
                let before = dirty.clone();
                // Twice, the second time with what the first call left.
                for _ in 0..2 {
                    assert_eq!(dirty.search(&LIBRARY), Ok(found));
                    assert!(dirty.file == before.file);
                    assert!(dirty.table == before.table);
                    assert!(dirty.sheet == clean.sheet);
                    assert!(dirty.pattern[..inputs] == clean.pattern[..inputs]);
                    assert!(dirty.pattern[inputs..] == before.pattern[inputs..]);
                    assert!(dirty.store[..cases] == clean.store[..cases]);
                    assert!(dirty.store[cases..] == before.store[cases..]);
                }
            }
        }
    }
}

/// The library's Search against the second implementation's Simulate, by every pattern of small frames.
mod agreement {
    use super::*;

    /// What each search has to satisfy by itself.
    fn is_right(searched: &Searched) -> Result<(), String> {
        searched.has_the_right_outcome()?;
        searched.has_the_quiet_tick_of_its_sheet()?;
        searched.hands_over_a_pattern(&SECOND)?;
        searched.has_the_greatest_upper_number()
    }

    /// Two searches of the same file and table, which differ in all else.
    fn two_searches(random: &mut Random, block: &[Record]) -> [Searched; 2] {
        let first = Arguments::random(random, block);
        let mut second = Arguments::random(random, block);
        second.table.clone_from(&first.table);
        second.hop_limit = 1 + (first.hop_limit + random.below(15) as u64) % 16;
        [first, second].map(|arguments| searched(&LIBRARY, arguments))
    }

    /// Demand 3, on small frames.
    #[test]
    fn with_every_pattern() {
        let mut random = Random::new(8);
        let mut outcomes = [0; 3];
        let (mut patterns_below, mut quiet_before) = (0, 0);
        for _ in 0..200 {
            let block = small_block(&mut random);
            let searches = two_searches(&mut random, &block);
            for searched in &searches {
                assert_eq!(is_right(searched), Ok(()));
                outcomes[searched.found.outcome as usize] += 1;
            }
            let mut under = searches[0].lent.clone();
            for pattern in patterns(&block) {
                under.pattern[..pattern.len()].copy_from_slice(&pattern);
                let currents = under.simulate(&SECOND).expect("accepted");
                let Currents { drop, quiet } = currents;
                for searched in &searches {
                    let Found {
                        upper, quiet: last, ..
                    } = searched.found;
                    assert_eq!(searched.is_above(&pattern, currents, &under.sheet), Ok(()));
                    patterns_below += usize::from(0 < drop && drop < upper);
                    quiet_before += usize::from(0 < quiet && quiet < last);
                }
            }
        }
        println!("exact, within, spent: {outcomes:?}");
        println!("drops below U: {patterns_below}, earlier quiet ticks: {quiet_before}");
        assert!(outcomes.iter().all(|&times| times >= 20), "{outcomes:?}");
        assert!(patterns_below >= 1_000, "U is hardly ever above a drop");
        assert!(quiet_before >= 1_000, "a pattern hardly ever ends before");
    }

    /// With N patterns a budget of N - 1 is never spent. With fewer than the splits that the library
    /// makes the second implementation's is, and with as many it is not.
    #[test]
    fn of_budget_and_patterns() {
        let mut random = Random::new(9);
        let mut split = 0;
        for _ in 0..20 {
            let block = small_block(&mut random);
            let mut arguments = Arguments::random(&mut random, &block);
            arguments.ratio = random.pick(&[1_000, 1_000, 1_050]);
            let enough = patterns(&block).len() as u64 - 1;
            let found = searched(&LIBRARY, arguments.clone().with_budget(enough)).found;
            assert_ne!(found.outcome, Outcome::Spent);
            let splits = found.splits;
            let same = searched(&SECOND, arguments.clone().with_budget(splits));
            assert_eq!(same.found, found);
            if splits > 0 {
                let fewer = searched(&SECOND, arguments.with_budget(splits - 1));
                assert_eq!(fewer.found.outcome, Outcome::Spent);
                assert_eq!(fewer.found.splits, splits - 1);
                split += 1;
            }
        }
        println!("split: {split}");
        assert!(split >= 5, "hardly anything was split: {split}");
    }
}
