//! Every refusal is a sentence with its number, its place and what stands there; its status is 1, and nothing is
//! written.

use std::fs;
use std::path::Path;

use crate::run::{file, run, run_on, scratch, text, Ended};

pub const CELLS: &str = "examples/cells.txt";

/// What is said of the ranges.
pub const RANGES: &str = "a contact is 0 to 15, a delay 1 to 63, rise and fall are 1 to 127, \
                          a peak is 0 to 65,535, an input's set is 1 to 15";

/// The command says just these lines on standard error.
#[track_caller]
pub fn refused(ended: Ended, lines: &[&str]) {
    let expected = Ended {
        status: 1,
        output: String::new(),
        error: format!("zimgurav: {}\n", lines.join("\n  ")),
    };
    assert_eq!(ended, expected);
}

/// Block F with some of its bytes changed.
fn changed(changes: &[(usize, u8)]) -> Vec<u8> {
    let mut block = file("examples/block_f.blk");
    for (at, byte) in changes {
        block[*at] = *byte;
    }
    block
}

mod of_a_file {
    use super::*;

    #[track_caller]
    fn unread(block: &[u8], lines: &[&str]) {
        refused(run_on(block, &["read", "-"]), lines);
    }

    #[test]
    fn length() {
        unread(
            &changed(&[])[..61],
            &[
                "standard input: refused 1: the file's length is not a multiple of 20 bytes",
                "the file has 3 records and 1 byte more",
            ],
        );
    }

    #[test]
    fn records() {
        unread(
            &changed(&[])[..20].repeat(1_025),
            &[
                "standard input: refused 2: there are more than 1,024 records",
                "the file has 1,025 records",
            ],
        );
    }

    #[test]
    fn first() {
        const SENTENCE: &str =
            "standard input: refused 3: there is no record, or the first record is not an input";
        unread(b"", &[SENTENCE, "the file is empty"]);
        unread(
            &changed(&[(0, 2)]),
            &[
                SENTENCE,
                "net 0: AND of 0 pins; contact 0; delay 0, rise 0, fall 0 ticks; peaks 0 µA lh, 0 µA hl",
                "its bytes: 02 00 00 00 00 00 00 00 00 00 00 00 00 00 00 00 00 00 0f 00",
            ],
        );
    }

    #[test]
    fn kind() {
        unread(
            &changed(&[(40, 12)]),
            &[
                "standard input: refused 4 at net 2: a record's kind is 0 or above 9",
                "net 2: kind 12 of net 0; contact 0; delay 1, rise 1, fall 2 ticks; peaks 10 µA lh, 20 µA hl",
                "its bytes: 0c 00 01 01 00 00 00 00 00 00 00 00 01 02 0a 00 14 00 00 00",
            ],
        );
    }

    #[test]
    fn input() {
        let block = changed(&[]);
        unread(
            &[&block[..], &block[..20]].concat(),
            &[
                "standard input: refused 5 at net 4: an input stands after a gate, or is the 65th",
                "net 4: input, allowed l, h, hl, lh",
                "its bytes: 01 00 00 00 00 00 00 00 00 00 00 00 00 00 00 00 00 00 0f 00",
            ],
        );
    }

    #[test]
    fn pin_count() {
        unread(
            &changed(&[(43, 5)]),
            &[
                "standard input: refused 6 at net 2: a gate's pin count is wrong for its kind",
                "net 2: NOT of 5 pins; contact 0; delay 1, rise 1, fall 2 ticks; peaks 10 µA lh, 20 µA hl",
                "its bytes: 08 00 01 05 00 00 00 00 00 00 00 00 01 02 0a 00 14 00 00 00",
                "a NOT or BUF has 1 pin, any other gate 2 to 4",
            ],
        );
    }

    #[test]
    fn stray_byte() {
        unread(
            &changed(&[(5, 255)]),
            &[
                "standard input: refused 7 at net 0: a byte that has to be 0 is not: 1 to 17 or 19 of an input, \
                 or an unused pin, 18 or 19 of a gate",
                "net 0: input, allowed l, h, hl, lh",
                "its bytes: 01 00 00 00 00 ff 00 00 00 00 00 00 00 00 00 00 00 00 0f 00",
            ],
        );
    }

    #[test]
    fn pin() {
        unread(
            &changed(&[(64, 3)]),
            &[
                "standard input: refused 8 at net 3: a gate's pin is not a net below its own",
                "net 3: NAND of nets 3, 2; contact 1; delay 2, rise 2, fall 2 ticks; peaks 30 µA lh, 31 µA hl",
                "its bytes: 03 01 02 02 03 00 02 00 00 00 00 00 02 02 1e 00 1f 00 00 00",
            ],
        );
    }

    #[test]
    fn range() {
        const MEANING: &str = "a contact, delay, rise or fall of a gate or of a list's row, \
                               or an input's set of allowed excitations, is out of range";
        unread(
            &changed(&[(61, 16)]),
            &[
                &format!("standard input: refused 9 at net 3: {MEANING}"),
                "net 3: NAND of nets 1, 2; contact 16; delay 2, rise 2, fall 2 ticks; peaks 30 µA lh, 31 µA hl",
                "its bytes: 03 10 02 02 01 00 02 00 00 00 00 00 02 02 1e 00 1f 00 00 00",
                RANGES,
            ],
        );
        unread(
            &changed(&[(38, 16)]),
            &[
                &format!("standard input: refused 9 at net 1: {MEANING}"),
                "net 1: input, allowed set 16",
                "its bytes: 01 00 00 00 00 00 00 00 00 00 00 00 00 00 00 00 00 00 10 00",
                RANGES,
            ],
        );
    }

    /// Four inverters more, of 63 ticks each, after net 2, which arrives at tick 63.
    #[test]
    fn arrival() {
        let mut block = changed(&[(42, 63)]);
        block.truncate(60);
        for pin in 2..6 {
            let mut gate = block[40..60].to_vec();
            gate[4] = pin;
            block.extend(gate);
        }
        unread(
            &block,
            &[
                "standard input: refused 10 at net 6: a gate's arrival is after tick 255",
                "net 6: NOT of net 5; contact 0; delay 63, rise 1, fall 2 ticks; peaks 10 µA lh, 20 µA hl; \
                 arrives at tick 315",
                "its bytes: 08 00 3f 01 05 00 00 00 00 00 00 00 01 02 0a 00 14 00 00 00",
            ],
        );
    }

    /// A text that has the name of no bench text.
    #[test]
    fn text_as_a_file() {
        let ended = run_on(b"INPUT(a)\nb = NOT(a)\n", &["read", "-"]);
        let hint =
            "\n  it is a text: a bench text needs --cells LIST, and a name that ends in .bench, or standard input\n";
        assert!(ended.error.ends_with(hint), "{ended:?}");
        assert_eq!(ended.status, 1);
    }

    /// Every subcommand that takes a block reads it first.
    #[test]
    fn by_every_subcommand() {
        let page = scratch("refused.html");
        for rest in [
            &["envelope"][..],
            &["simulate", "lh", "lh"],
            &["search"],
            &["report", "-o", &page],
        ] {
            let mut arguments = rest.to_vec();
            arguments.insert(1, "-");
            let ended = run_on(&changed(&[(64, 3)]), &arguments);
            assert!(ended.error.contains("refused 8 at net 3:"), "{ended:?}");
            assert_eq!((ended.status, &ended.output[..]), (1, ""), "{rest:?}");
        }
        assert!(!Path::new(&page).exists());
    }
}

mod of_arguments {
    use super::*;

    #[track_caller]
    fn of_block_f(arguments: &[&str], lines: &[&str]) {
        let arguments = [&[arguments[0], "examples/block_f.blk"], &arguments[1..]].concat();
        refused(run(&arguments), lines);
    }

    #[test]
    fn hop_limit() {
        for subcommand in ["envelope", "search"] {
            of_block_f(
                &[subcommand, "--hop-limit", "17"],
                &[
                    "examples/block_f.blk: refused 11: the hop limit is not 1 to 16",
                    "the hop limit is 17 runs",
                ],
            );
        }
    }

    #[test]
    fn table() {
        let path = scratch("seventeen-nodes.txt");
        fs::write(&path, "1,1,1,1,1,1,1,1,1,1,1,1,1,1,1,1\n".repeat(17)).expect("written");
        of_block_f(
            &["simulate", "lh", "lh", "--table", &path],
            &[
                "examples/block_f.blk: refused 12: the table does not have 16 resistances \
                 for each of 1 to 16 bus nodes",
                &format!("the table is 17 bus nodes of {path}"),
            ],
        );
    }

    #[test]
    fn ratio() {
        of_block_f(
            &["search", "--ratio", "999"],
            &[
                "examples/block_f.blk: refused 13: the ratio is not 1,000 to 10,000",
                "the ratio is 999 thousandths",
            ],
        );
    }

    /// The command has no case store for such a budget.
    #[test]
    fn budget() {
        of_block_f(
            &["search", "--budget", "18446744073709551615"],
            &[
                "examples/block_f.blk: refused 14: the budget is above 10,000",
                "the budget is 18,446,744,073,709,551,615 splits",
            ],
        );
    }

    /// What is wrong with a list of inputs, by the lines of its file. A report refuses it as a search does.
    #[track_caller]
    fn of_list(block: &[&str], list: &str, faults: &[&str]) {
        let [path, page] = ["list.txt", "refused.html"].map(scratch);
        fs::write(&path, list).expect("written");
        let meaning = "the list of inputs to split does not name each input exactly once";
        let refusal = format!("{path}: refused 19: {meaning}");
        let lines = [&[&refusal[..]], faults].concat();
        let order = ["--order", &path];
        refused(run(&[&["search"], block, &order].concat()), &lines);
        let report = [&["report"], block, &order, &["-o", &page]].concat();
        refused(run(&report), &lines);
        assert!(!Path::new(&page).exists());
    }

    #[test]
    fn order() {
        let block = ["examples/block_f.blk"];
        for (list, faults) in [
            ("", &["no line names the inputs 0, 1"][..]),
            ("# 0\n1", &["no line names the input 0"]),
            ("0\n1 0", &["line 2 names 0 a second time, after line 1"]),
            (
                "1 1 1",
                &["line 1 names 1 twice", "no line names the input 0"],
            ),
            (
                "0\n\n1\n2",
                &["line 4 names 2, which is a gate and no input"],
            ),
            (
                "4 0 1",
                &["line 1 names 4, and examples/block_f.blk has 4 nets"],
            ),
            (
                "256 1",
                &[
                    "line 1 names 256, and examples/block_f.blk has 4 nets",
                    "no line names the input 0",
                ],
            ),
        ] {
            of_list(&block, list, faults);
        }
    }

    /// Of a bench text by its names, also where a gate's net has more than a byte.
    #[test]
    fn order_by_names() {
        let c17 = ["examples/c17.bench", "--cells", CELLS];
        let of_c17 = |list, faults: &[&str]| of_list(&c17, list, faults);
        of_c17(
            "1 2 3\n6 22\n",
            &[
                "line 2 names 22, which is a gate and no input",
                "no line names the input 7",
            ],
        );
        of_c17(
            "7 6\n3 2\n7 1\n",
            &["line 3 names 7 a second time, after line 1"],
        );
        let gates = (1..300).map(|gate| format!("n{gate} = NOT(n0)\n"));
        let path = scratch("long.bench");
        let text = "INPUT(n0)\n".to_string() + &gates.collect::<String>();
        fs::write(&path, text).expect("written");
        of_list(
            &[&path, "--cells", CELLS],
            "n0 n299",
            &["line 1 names n299, which is a gate and no input"],
        );
    }

    /// The list is judged after the other arguments; where it is made by bounds, they are refused as ever.
    #[test]
    fn order_and_others() {
        let path = scratch("no-list.txt");
        fs::write(&path, "0").expect("written");
        for order in [&path, "bounds", "cone"] {
            of_block_f(
                &["search", "--order", order, "--hop-limit", "0"],
                &[
                    "examples/block_f.blk: refused 11: the hop limit is not 1 to 16",
                    "the hop limit is 0 runs",
                ],
            );
            of_block_f(
                &["search", "--order", order, "--ratio", "10001"],
                &[
                    "examples/block_f.blk: refused 13: the ratio is not 1,000 to 10,000",
                    "the ratio is 10,001 thousandths",
                ],
            );
        }
    }

    #[test]
    fn pattern() {
        let highs = ["h"; 49];
        let arguments = [&["simulate", "examples/adder24.blk"], &highs[..]].concat();
        refused(
            run(&arguments),
            &[
                "examples/adder24.blk: refused 16 at net 48: an input's byte of the pattern \
                 is no excitation that the input is allowed",
                "net 48: input, allowed l; the pattern has h there",
            ],
        );
    }

    /// A refused search writes no file.
    #[test]
    fn no_file_is_written() {
        let paths = ["refused.svg", "refused.csv", "refused.vcd", "refused.txt"].map(scratch);
        let [svg, csv, vcd, pattern] = &paths;
        let files = [
            ["--svg", svg],
            ["--csv", csv],
            ["--vcd", vcd],
            ["--pattern", pattern],
        ];
        let [list, words] = ["twice.txt", "words.txt"].map(scratch);
        fs::write(&list, "0 0").expect("written");
        fs::write(&words, "a b").expect("written");
        for (option, value, status) in [
            ("--ratio", "1", 1),
            ("--order", &list[..], 1),
            ("--order", &words[..], 2),
        ] {
            let search = ["search", "examples/block_f.blk", option, value];
            let ended = run(&[&search[..], &files.concat()].concat());
            assert_eq!((ended.status, &ended.output[..]), (status, ""), "{ended:?}");
            let written = paths.iter().find(|path| Path::new(path).exists());
            assert_eq!(written, None);
        }
    }
}

mod of_a_text {
    use super::*;

    #[track_caller]
    fn unread(text: &str, lines: &[&str]) {
        let arguments = ["read", "-", "--cells", CELLS];
        refused(run_on(text.as_bytes(), &arguments), lines);
        let path = scratch("refused.blk");
        let arguments = ["bench", "-", "--cells", CELLS, "-o", &path];
        refused(run_on(text.as_bytes(), &arguments), lines);
        assert!(!Path::new(&path).exists());
    }

    #[test]
    fn line() {
        unread(
            "INPUT(a)\nINPUT(b)\n\tc = NAND(a b # no comma\n",
            &[
                "standard input: refused 17 at line 3: a line of the text fits no form, has no known kind \
                 or a wrong pin count, or is an INPUT after a gate",
                "line 3: \\tc = NAND(a b # no comma",
                "the closing bracket is missing",
            ],
        );
    }

    /// Of a long line the beginning is shown, and so it is of a long part of it.
    #[test]
    fn long_line() {
        let line = "c = NAND(a, b) ".repeat(20);
        let ended = run_on(line.as_bytes(), &["read", "-", "--cells", CELLS]);
        let beginning = &line[..160];
        let shown = format!(
            "\n  line 1: {beginning} ...\n  only a comment, from # on, may stand \
             after the closing bracket, but there stands {beginning} ...\n"
        );
        assert!(ended.error.ends_with(&shown), "{ended:?}");
    }

    /// The name that no earlier line gives, or the line that gave it.
    #[test]
    fn name() {
        const SENTENCE: &str = "a line of the text uses a name that no earlier line gives, \
                                or gives one that an earlier line gave";
        for (line, fault) in [
            ("c = NOT(d)", "no earlier line gives d"),
            (
                "c = AND(a, b, c)",
                "no earlier line gives c, and a gate cannot feed itself",
            ),
            (
                "d = NOT(c)",
                "no earlier line gives c, but line 5 does: a gate stands after those that feed it",
            ),
            (
                "c = AND( a b , b)",
                "no earlier line gives ab: blanks are skipped, so that a b is the name ab",
            ),
            ("b = AND(b, a)", "line 2 gives b already"),
            ("INPUT(a)", "line 1 gives a already"),
        ] {
            unread(
                &format!("INPUT(a)\r\nINPUT(b) # c\n\n{line}\r\nc = NOT(a)"),
                &[
                    &format!("standard input: refused 18 at line 4: {SENTENCE}"),
                    &format!("line 4: {line}"),
                    fault,
                ],
            );
        }
    }

    #[test]
    fn no_record() {
        unread(
            "# nothing\nOUTPUT(a)\n",
            &[
                "standard input: refused 3: there is no record, or the first record is not an input",
                "the text gives 0 records",
            ],
        );
    }

    #[test]
    fn too_many_records() {
        let gates = (1..1_030).map(|gate| format!("n{gate} = NOT(n0)\n"));
        let text = "INPUT(n0)\n".to_string() + &gates.collect::<String>();
        unread(
            &text,
            &[
                "standard input: refused 2: there are more than 1,024 records",
                "the text gives 1,030 records",
            ],
        );
    }

    /// The place is a net: what stands there is the line that gives it.
    #[test]
    fn input_and_arrival() {
        let inputs: String = (0..66)
            .map(|input| format!("INPUT(a{input})\n\n"))
            .collect();
        unread(
            &inputs,
            &[
                "standard input: refused 5 at net 64: an input stands after a gate, or is the 65th",
                "line 129: INPUT(a64)",
            ],
        );
        let gates = (1..=300).map(|gate| format!("INPUT{gate} = NOT(INPUT{})\n", gate - 1));
        let text = "INPUT(INPUT0)\nOUTPUT(x)\n".to_string() + &gates.collect::<String>();
        unread(
            &text,
            &[
                "standard input: refused 10 at net 256: a gate's arrival is after tick 255",
                "line 258: INPUT256 = NOT(INPUT255)",
            ],
        );
    }

    /// A row of the list out of its range, by the list's line.
    #[test]
    fn row() {
        let path = scratch("contact-16.txt");
        let cells = text(CELLS).replace("XOR   4 ", "XOR   16");
        fs::write(&path, cells).expect("written");
        refused(
            run(&["read", "examples/c17.bench", "--cells", &path]),
            &[
                &format!(
                    "{path}: refused 9 at row 4: a contact, delay, rise or fall of a gate or of a list's row, \
                     or an input's set of allowed excitations, is out of range"
                ),
                "line 10: XOR   16       3      2      4      120            100",
                RANGES,
            ],
        );
    }
}
