//! The refusals of the arguments of Envelope, Simulate, Search and the two makers of a list of inputs, 11 to 16 and
//! 19: at their edges, in their order, and after those of the file. A refusal leaves everything that was lent as it was.
//! The edges of 19 are in `orders.rs`.

use std::fmt::Debug;

use check::implementation::{Operation, LIBRARY, SECOND};
use check::sample::{drawing, gate, input, Arguments, Record};
use zimgurav::kind::{AND, BUF, NOT};
use zimgurav::{
    raw, store_bytes, work_bytes, Currents, Found, Refusal, ANSWER_NUMBERS, CASE_BYTES, CONTACTS,
    LEAST_RATIO, MOST_BUDGET, MOST_HOPS, MOST_NODES, MOST_RATIO, PATTERN_BYTES, RECORD_BYTES,
    ROW_TICKS, SHEET_WORDS,
};

const ENVELOPE: Operation<Currents> = Arguments::envelope;
const SIMULATE: Operation<Currents> = Arguments::simulate;
const SEARCH: Operation<Found> = Arguments::search;
const CONE_ORDER: Operation<u64> = Arguments::cone_order;
const BOUND_ORDER: Operation<u64> = Arguments::bound_order;

#[track_caller]
fn accepted<Answer: Debug>(call: Operation<Answer>, arguments: &Arguments) {
    for implementation in [LIBRARY, SECOND] {
        let mut lent = arguments.clone();
        let answer = call(&mut lent, &implementation);
        assert!(answer.is_ok(), "{}: {answer:?}", implementation.name);
    }
}

#[track_caller]
fn refused<Answer: Debug + PartialEq>(
    call: Operation<Answer>,
    arguments: &Arguments,
    number: u64,
    place: u64,
) {
    for implementation in [LIBRARY, SECOND] {
        let name = implementation.name;
        let mut lent = arguments.clone();
        let answer = call(&mut lent, &implementation);
        assert_eq!(answer, Err(Refusal { number, place }), "{name}");
        assert!(lent.file == arguments.file, "{name} changed the file");
        assert!(lent.table == arguments.table, "{name} changed the table");
        assert!(lent.sheet == arguments.sheet, "{name} changed the sheet");
        assert!(
            lent.pattern == arguments.pattern,
            "{name} changed the pattern"
        );
        assert!(
            lent.work == arguments.work,
            "{name} changed the work buffer"
        );
        assert!(
            lent.store == arguments.store,
            "{name} changed the case store"
        );
        assert!(
            lent.order == arguments.order,
            "{name} changed the list of inputs"
        );
        assert!(lent.made == arguments.made, "{name} wrote a list");
    }
}

/// Two inputs, the second never hl, and two gates that draw current.
fn block() -> Vec<Record> {
    let mut gates = [gate(NOT, &[0]), gate(AND, &[1, 2])];
    for gate in &mut gates {
        gate[14..18].fill(1);
    }
    vec![input(15), input(11), gates[0], gates[1]]
}

fn arguments() -> Arguments {
    Arguments::new(&block())
}

mod edges {
    use super::*;

    /// Numbers that are 0 or `low` where only the low bits are seen.
    fn wide(low: u64) -> impl Iterator<Item = u64> {
        let powers = [16, 32, 63].map(|bit| 1 << bit);
        powers
            .into_iter()
            .flat_map(move |power: u64| [power, power + low])
    }

    #[test]
    fn hop_limit() {
        for hop_limit in 1..=MOST_HOPS {
            let arguments = Arguments {
                hop_limit,
                ..arguments()
            };
            accepted(ENVELOPE, &arguments);
            accepted(SEARCH, &arguments);
            accepted(BOUND_ORDER, &arguments);
        }
        for hop_limit in wide(10).chain([0, MOST_HOPS + 1, 18, 256, 266, u64::MAX]) {
            let arguments = Arguments {
                hop_limit,
                ..arguments()
            };
            refused(ENVELOPE, &arguments, 11, 0);
            refused(SEARCH, &arguments, 11, 0);
            refused(BOUND_ORDER, &arguments, 11, 0);
            // Simulate and Cone order have no hop limit.
            accepted(SIMULATE, &arguments);
            accepted(CONE_ORDER, &arguments);
        }
    }

    #[test]
    fn table() {
        for length in (0..=300).chain([512, 4096, 65_536, 65_552, 65_792]) {
            let arguments = Arguments {
                table: vec![3; length],
                ..arguments()
            };
            let nodes = length / CONTACTS;
            if length % CONTACTS == 0 && (1..=MOST_NODES).contains(&nodes) {
                accepted(ENVELOPE, &arguments);
                accepted(SIMULATE, &arguments);
                accepted(SEARCH, &arguments);
                accepted(BOUND_ORDER, &arguments);
            } else {
                refused(ENVELOPE, &arguments, 12, 0);
                refused(SIMULATE, &arguments, 12, 0);
                refused(SEARCH, &arguments, 12, 0);
                refused(BOUND_ORDER, &arguments, 12, 0);
            }
            // Cone order has no table.
            accepted(CONE_ORDER, &arguments);
        }
    }

    #[test]
    fn ratio() {
        for ratio in [LEAST_RATIO, 1_001, 1_999, 2_000, 9_999, MOST_RATIO] {
            let arguments = Arguments {
                ratio,
                ..arguments()
            };
            accepted(SEARCH, &arguments);
        }
        let edges = [0, 1, LEAST_RATIO - 1, MOST_RATIO + 1, 11_000, u64::MAX];
        for ratio in wide(LEAST_RATIO).chain(edges) {
            let arguments = Arguments {
                ratio,
                ..arguments()
            };
            refused(SEARCH, &arguments, 13, 0);
            // The others have no ratio.
            accepted(ENVELOPE, &arguments);
            accepted(SIMULATE, &arguments);
        }
    }

    #[test]
    fn budget() {
        for budget in [0, 1, 2, 200, MOST_BUDGET - 1, MOST_BUDGET] {
            accepted(SEARCH, &arguments().with_budget(budget));
        }
        let edges = [MOST_BUDGET + 1, 10_002, 20_000, u64::MAX / 3, u64::MAX];
        for budget in wide(200).chain(edges) {
            let arguments = Arguments {
                budget,
                ..arguments().with_budget(MOST_BUDGET)
            };
            refused(SEARCH, &arguments, 14, 0);
            // The others have no budget.
            accepted(ENVELOPE, &arguments);
            accepted(SIMULATE, &arguments);
        }
    }

    #[test]
    fn sheet() {
        let (row, all) = (ROW_TICKS, SHEET_WORDS);
        // As many bytes as 8,192 words of 32 bits have are half the words.
        for length in [
            0,
            1,
            row,
            all / 2,
            all - 1,
            all + 1,
            all + row,
            2 * all,
            65_536 + all,
        ] {
            let arguments = Arguments {
                sheet: vec![7; length],
                ..arguments()
            };
            refused(ENVELOPE, &arguments, 15, 1);
            refused(SIMULATE, &arguments, 15, 1);
            refused(SEARCH, &arguments, 15, 1);
        }
    }

    #[test]
    fn pattern() {
        let all = PATTERN_BYTES;
        for length in [0, 1, 2, all - 1, all + 1, 2 * all, 256 + all, 65_536 + all] {
            let arguments = Arguments {
                pattern: vec![0; length],
                ..arguments()
            };
            refused(SIMULATE, &arguments, 15, 2);
            refused(SEARCH, &arguments, 15, 2);
            // Envelope has no pattern.
            accepted(ENVELOPE, &arguments);
        }
    }

    #[test]
    fn work() {
        for nets in [1, 2, 3, 410, 411, 1023, 1024] {
            let mut block = vec![gate(BUF, &[0]); nets];
            block[0] = input(15);
            let least = work_bytes(nets as u64);
            let less = work_bytes(nets as u64 - 1);
            for length in [0, 1, 159, least / 2, less, least - 1] {
                let arguments = Arguments {
                    work: vec![7; length],
                    ..Arguments::new(&block)
                };
                refused(ENVELOPE, &arguments, 15, 3);
                refused(SIMULATE, &arguments, 15, 3);
                refused(SEARCH, &arguments, 15, 3);
                refused(BOUND_ORDER, &arguments, 15, 3);
                // Cone order has no work buffer.
                accepted(CONE_ORDER, &arguments);
            }
            for length in [least, least + 1, least + 7, 2 * least, 200_000] {
                let arguments = Arguments {
                    work: vec![7; length],
                    ..Arguments::new(&block)
                };
                accepted(ENVELOPE, &arguments);
                accepted(SIMULATE, &arguments);
                accepted(SEARCH, &arguments);
                accepted(BOUND_ORDER, &arguments);
            }
        }
    }

    #[test]
    fn store() {
        for budget in [0, 1, 2, 3, 200, 303, 304, MOST_BUDGET - 1, MOST_BUDGET] {
            let least = store_bytes(budget);
            for length in [0, 1, 71, least / 2, least - CASE_BYTES, least - 1] {
                let arguments = Arguments {
                    budget,
                    store: vec![7; length],
                    ..arguments()
                };
                refused(SEARCH, &arguments, 15, 4);
                // The others have no case store.
                accepted(ENVELOPE, &arguments);
                accepted(SIMULATE, &arguments);
            }
            for length in [least, least + 1, least + 71, least + CASE_BYTES, 2 * least] {
                let arguments = Arguments {
                    budget,
                    store: vec![7; length],
                    ..arguments()
                };
                accepted(SEARCH, &arguments);
            }
        }
    }

    /// Each byte with each set, at the first and at the last input.
    #[test]
    fn pattern_bytes() {
        for inputs in [1, 2, 64] {
            for allowed in 1..=15 {
                let mut block = vec![input(15); inputs];
                block[inputs - 1] = input(allowed);
                let mut arguments = Arguments::new(&block);
                for byte in [0, 1, 2, 3, 4, 5, 7, 8, 16, 128, 255] {
                    arguments.pattern[inputs - 1] = byte;
                    if byte < 4 && allowed & (1 << byte) != 0 {
                        accepted(SIMULATE, &arguments);
                    } else {
                        refused(SIMULATE, &arguments, 16, inputs as u64 - 1);
                    }
                    // Envelope reads no pattern, and Search only writes it.
                    accepted(ENVELOPE, &arguments);
                    accepted(SEARCH, &arguments);
                }
            }
        }
    }

    /// The place is the lowest net with a bad byte.
    #[test]
    fn lowest_bad_pattern_byte() {
        let mut arguments = Arguments::new(&[input(1); 64]);
        for net in (0..64).rev() {
            arguments.pattern[net] = if net % 2 == 0 { 4 } else { 2 };
            refused(SIMULATE, &arguments, 16, net as u64);
        }
    }

    /// Bytes past the inputs are not read.
    #[test]
    fn bytes_past_the_inputs() {
        let mut arguments = arguments();
        arguments.pattern[2..].fill(255);
        accepted(SIMULATE, &arguments);
        arguments.pattern[1] = 255;
        refused(SIMULATE, &arguments, 16, 1);
    }
}

mod order {
    use super::*;

    /// One fault of the arguments: its refusal's number and place, and how to make it.
    type Fault = (u64, u64, fn(&mut Arguments));

    fn byte(arguments: &mut Arguments, net: usize, byte: usize, value: u8) {
        arguments.file[RECORD_BYTES * net + byte] = value;
    }

    /// Faults of the file, for each of checks 1 to 9.
    const FILE: [Fault; 11] = [
        (1, 0, |arguments| arguments.file.push(1)),
        (2, 0, |arguments| arguments.file.resize(20 * 1025, 0)),
        (3, 0, |arguments| arguments.file.clear()),
        (3, 0, |arguments| byte(arguments, 0, 0, 9)),
        (9, 0, |arguments| byte(arguments, 0, 18, 16)),
        (7, 1, |arguments| byte(arguments, 1, 19, 1)),
        (4, 2, |arguments| byte(arguments, 2, 0, 10)),
        (6, 2, |arguments| byte(arguments, 2, 3, 0)),
        (8, 2, |arguments| byte(arguments, 2, 4, 2)),
        (5, 3, |arguments| byte(arguments, 3, 0, 1)),
        (9, 3, |arguments| byte(arguments, 3, 2, 0)),
    ];

    const HOP_LIMIT: Fault = (11, 0, |arguments| arguments.hop_limit = 0);
    const TABLE: Fault = (12, 0, |arguments| arguments.table.truncate(15));
    const RATIO: Fault = (13, 0, |arguments| arguments.ratio = LEAST_RATIO - 1);
    const BUDGET: Fault = (14, 0, |arguments| arguments.budget = MOST_BUDGET + 1);
    const ORDER: Fault = (19, 0, |arguments| arguments.order.push(0));
    const SHEET: Fault = (15, 1, |arguments| arguments.sheet.truncate(SHEET_WORDS - 1));
    const PATTERN: Fault = (15, 2, |arguments| {
        arguments.pattern.truncate(PATTERN_BYTES - 1)
    });
    const WORK: Fault = (15, 3, |arguments| {
        arguments.work.truncate(work_bytes(4) - 1)
    });
    const STORE: Fault = (15, 4, |arguments| {
        arguments.store.truncate(store_bytes(200) - 1)
    });
    const FIRST_BYTE: Fault = (16, 0, |arguments| arguments.pattern[0] = 4);
    const SECOND_BYTE: Fault = (16, 1, |arguments| arguments.pattern[1] = 2);

    const OF_ENVELOPE: [Fault; 4] = [HOP_LIMIT, TABLE, SHEET, WORK];
    const OF_SIMULATE: [Fault; 6] = [TABLE, SHEET, PATTERN, WORK, FIRST_BYTE, SECOND_BYTE];
    const OF_SEARCH: [Fault; 9] = [
        HOP_LIMIT, TABLE, RATIO, BUDGET, ORDER, SHEET, PATTERN, WORK, STORE,
    ];
    const OF_BOUND_ORDER: [Fault; 3] = [HOP_LIMIT, TABLE, WORK];

    /// The block's arguments with these faults.
    fn with(faults: &[Fault]) -> Arguments {
        let mut arguments = arguments();
        // The earliest is made last, so that a shortened buffer still has the bytes of the others.
        for (_, _, make) in faults.iter().rev() {
            make(&mut arguments);
        }
        arguments
    }

    /// Each fault alone, each pair, and each fault with all later ones: the earliest is returned.
    #[track_caller]
    fn in_order<Answer: Debug + PartialEq>(call: Operation<Answer>, faults: &[Fault]) {
        accepted(call, &with(&[]));
        for (index, &fault) in faults.iter().enumerate() {
            let (number, place, _) = fault;
            refused(call, &with(&[fault]), number, place);
            refused(call, &with(&faults[index..]), number, place);
            for &later in &faults[index + 1..] {
                refused(call, &with(&[fault, later]), number, place);
            }
        }
    }

    #[test]
    fn of_envelope() {
        in_order(ENVELOPE, &OF_ENVELOPE);
    }

    #[test]
    fn of_simulate() {
        in_order(SIMULATE, &OF_SIMULATE);
    }

    #[test]
    fn of_search() {
        in_order(SEARCH, &OF_SEARCH);
    }

    #[test]
    fn of_bound_order() {
        in_order(BOUND_ORDER, &OF_BOUND_ORDER);
    }

    #[test]
    fn after_the_file_in_envelope() {
        for fault in FILE {
            in_order(ENVELOPE, &[&[fault], &OF_ENVELOPE[..]].concat());
        }
    }

    #[test]
    fn after_the_file_in_simulate() {
        for fault in FILE {
            in_order(SIMULATE, &[&[fault], &OF_SIMULATE[..]].concat());
        }
    }

    #[test]
    fn after_the_file_in_search() {
        for fault in FILE {
            in_order(SEARCH, &[&[fault], &OF_SEARCH[..]].concat());
        }
    }

    /// Cone order has no other check than the file's.
    #[test]
    fn after_the_file_in_the_makers() {
        for fault in FILE {
            in_order(CONE_ORDER, &[fault]);
            in_order(BOUND_ORDER, &[&[fault], &OF_BOUND_ORDER[..]].concat());
        }
    }

    /// A block whose last net, 5, arrives at tick 256: check 10 is the last of the file's.
    fn late_block() -> Vec<Record> {
        let mut block = vec![input(15)];
        for pin in 0..5 {
            let mut buffer = gate(BUF, &[pin]);
            buffer[2] = if pin == 4 { 4 } else { 63 };
            block.push(buffer);
        }
        block
    }

    #[track_caller]
    fn late<Answer: Debug + PartialEq>(call: Operation<Answer>, faults: &[Fault]) {
        for (_, _, make) in faults {
            let mut arguments = Arguments::new(&late_block());
            make(&mut arguments);
            refused(call, &arguments, 10, 5);
        }
    }

    #[test]
    fn after_the_arrival() {
        late(ENVELOPE, &OF_ENVELOPE);
        late(SIMULATE, &OF_SIMULATE);
        late(SEARCH, &OF_SEARCH);
        late(CONE_ORDER, &OF_SEARCH);
        late(BOUND_ORDER, &OF_BOUND_ORDER);
    }

    /// What an operation does not take is no fault there, and the pattern's bytes are one of Simulate
    /// alone.
    #[test]
    fn of_the_other_operation() {
        for fault in [HOP_LIMIT, RATIO, BUDGET, ORDER, STORE] {
            accepted(SIMULATE, &with(&[fault]));
        }
        for fault in [
            RATIO,
            BUDGET,
            ORDER,
            PATTERN,
            STORE,
            FIRST_BYTE,
            SECOND_BYTE,
        ] {
            accepted(ENVELOPE, &with(&[fault]));
            accepted(BOUND_ORDER, &with(&[fault]));
        }
        accepted(BOUND_ORDER, &with(&[SHEET]));
        accepted(CONE_ORDER, &with(&OF_SEARCH));
        for fault in [FIRST_BYTE, SECOND_BYTE] {
            accepted(SEARCH, &with(&[fault]));
        }
    }
}

/// All eight numbers, over what stood there before.
mod whole_answer {
    use super::*;

    fn envelope(arguments: &mut Arguments) -> raw::Answer {
        let mut answer = [u64::MAX; ANSWER_NUMBERS];
        // SAFETY: each pointer is good for its length, and no two buffers overlap.
        unsafe {
            raw::zimgurav_envelope(
                arguments.file.as_ptr(),
                arguments.file.len(),
                arguments.hop_limit,
                arguments.table.as_ptr(),
                arguments.table.len(),
                arguments.sheet.as_mut_ptr(),
                arguments.sheet.len(),
                arguments.work.as_mut_ptr(),
                arguments.work.len(),
                &mut answer,
            );
        }
        answer
    }

    fn simulate(arguments: &mut Arguments) -> raw::Answer {
        let mut answer = [u64::MAX; ANSWER_NUMBERS];
        // SAFETY: each pointer is good for its length, and no two buffers overlap.
        unsafe {
            raw::zimgurav_simulate(
                arguments.file.as_ptr(),
                arguments.file.len(),
                arguments.table.as_ptr(),
                arguments.table.len(),
                arguments.sheet.as_mut_ptr(),
                arguments.sheet.len(),
                arguments.pattern.as_ptr(),
                arguments.pattern.len(),
                arguments.work.as_mut_ptr(),
                arguments.work.len(),
                &mut answer,
            );
        }
        answer
    }

    fn search(arguments: &mut Arguments) -> raw::Answer {
        let mut answer = [u64::MAX; ANSWER_NUMBERS];
        // SAFETY: each pointer is good for its length, and no two buffers overlap.
        unsafe {
            raw::zimgurav_search(
                arguments.file.as_ptr(),
                arguments.file.len(),
                arguments.hop_limit,
                arguments.table.as_ptr(),
                arguments.table.len(),
                arguments.ratio,
                arguments.budget,
                arguments.order.as_ptr(),
                arguments.order.len(),
                arguments.sheet.as_mut_ptr(),
                arguments.sheet.len(),
                arguments.pattern.as_mut_ptr(),
                arguments.pattern.len(),
                arguments.work.as_mut_ptr(),
                arguments.work.len(),
                arguments.store.as_mut_ptr(),
                arguments.store.len(),
                &mut answer,
            );
        }
        answer
    }

    fn cone_order(arguments: &mut Arguments) -> raw::Answer {
        let mut answer = [u64::MAX; ANSWER_NUMBERS];
        let file = &arguments.file;
        // SAFETY: each pointer is good for its length, and no two buffers overlap.
        unsafe {
            raw::zimgurav_cone_order(file.as_ptr(), file.len(), &mut arguments.made, &mut answer);
        }
        answer
    }

    fn bound_order(arguments: &mut Arguments) -> raw::Answer {
        let mut answer = [u64::MAX; ANSWER_NUMBERS];
        // SAFETY: each pointer is good for its length, and no two buffers overlap.
        unsafe {
            raw::zimgurav_bound_order(
                arguments.file.as_ptr(),
                arguments.file.len(),
                arguments.hop_limit,
                arguments.table.as_ptr(),
                arguments.table.len(),
                arguments.work.as_mut_ptr(),
                arguments.work.len(),
                &mut arguments.made,
                &mut answer,
            );
        }
        answer
    }

    /// Both gates draw 257 at tick 1 of their pulse: net 2 from tick 0, net 3 from tick 0 for an
    /// edge of net 1 and from tick 1 for one of net 2. So the last current is at tick 2.
    #[test]
    fn accepted() {
        assert_eq!(envelope(&mut arguments()), [0, 514, 2, 0, 0, 0, 0, 0]);
        assert_eq!(search(&mut arguments()), [0, 0, 514, 514, 0, 1, 2, 0]);
        let mut lh_and_h = arguments();
        lh_and_h.pattern[..2].copy_from_slice(&[3, 1]);
        assert_eq!(simulate(&mut lh_and_h), [0, 257, 2, 0, 0, 0, 0, 0]);
        assert_eq!(simulate(&mut arguments()), [0, 0, 0, 0, 0, 0, 0, 0]);
        assert_eq!(cone_order(&mut arguments()), [0, 2, 0, 0, 0, 0, 0, 0]);
        assert_eq!(bound_order(&mut arguments()), [0, 2, 0, 0, 0, 0, 0, 0]);
    }

    /// Block S: each outcome, with its number.
    #[test]
    fn accepted_searches() {
        let rising = |kind| drawing(gate(kind, &[0]), [0, 1, 1, 1], [10, 0]);
        let block = [input(15), rising(BUF), rising(NOT)];
        let mut exact = Arguments::new(&block);
        assert_eq!(search(&mut exact), [0, 0, 10, 10, 1, 4, 1, 0]);
        let mut within = Arguments::new(&block).with_budget(0);
        within.ratio = 2_000;
        assert_eq!(search(&mut within), [0, 1, 20, 10, 0, 1, 1, 0]);
        let mut spent = Arguments::new(&block).with_budget(0);
        spent.ratio = 1_999;
        assert_eq!(search(&mut spent), [0, 2, 20, 10, 0, 1, 1, 0]);
    }

    /// The answer of a refused call.
    fn refusal(number: u64, place: u64) -> raw::Answer {
        [number, place, 0, 0, 0, 0, 0, 0]
    }

    #[test]
    fn refused() {
        let mut hops = arguments();
        hops.hop_limit = 17;
        assert_eq!(envelope(&mut hops), refusal(11, 0));
        assert_eq!(search(&mut hops), refusal(11, 0));
        let mut table = arguments();
        table.table.clear();
        assert_eq!(envelope(&mut table), refusal(12, 0));
        assert_eq!(simulate(&mut table), refusal(12, 0));
        assert_eq!(search(&mut table), refusal(12, 0));
        let mut ratio = arguments();
        ratio.ratio = 0;
        assert_eq!(search(&mut ratio), refusal(13, 0));
        let mut budget = arguments();
        budget.budget = MOST_BUDGET + 1;
        assert_eq!(search(&mut budget), refusal(14, 0));
        let mut work = arguments();
        work.work.clear();
        assert_eq!(envelope(&mut work), refusal(15, 3));
        assert_eq!(simulate(&mut work), refusal(15, 3));
        assert_eq!(search(&mut work), refusal(15, 3));
        let mut store = arguments();
        store.store.clear();
        assert_eq!(search(&mut store), refusal(15, 4));
        let mut pattern = arguments();
        pattern.pattern[1] = 2;
        assert_eq!(simulate(&mut pattern), refusal(16, 1));
        let mut file = arguments();
        file.file[20 * 3 + 2] = 0;
        assert_eq!(envelope(&mut file), refusal(9, 3));
        assert_eq!(simulate(&mut file), refusal(9, 3));
        assert_eq!(search(&mut file), refusal(9, 3));
    }

    #[test]
    fn refused_lists() {
        let mut order = arguments();
        order.order.clear();
        assert_eq!(search(&mut order), refusal(19, 0));
        let mut hops = arguments();
        hops.hop_limit = 17;
        assert_eq!(bound_order(&mut hops), refusal(11, 0));
        let mut table = arguments();
        table.table.clear();
        assert_eq!(bound_order(&mut table), refusal(12, 0));
        let mut work = arguments();
        work.work.clear();
        assert_eq!(bound_order(&mut work), refusal(15, 3));
        let mut file = arguments();
        file.file[20 * 3 + 2] = 0;
        assert_eq!(cone_order(&mut file), refusal(9, 3));
        assert_eq!(bound_order(&mut file), refusal(9, 3));
    }
}
