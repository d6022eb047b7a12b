//! Bench's refusals: 15 and 9 of its buffers and list, 2, 3, 5 and 10 of the records, and the order of all of
//! them. The expected answers are written from what was asked for, and both the library and the second
//! implementation must give them.

mod common;

use check::sample::{drawing, gate, Arguments, KIND_WORDS};
use common::{called, gives, gives_with, inputs, refused, refused_with, third, with_gate};
use zimgurav::kind::{AND, BUF, NAND, NOT, XNOR};
use zimgurav::{BLOCK_BYTES, LIST_BYTES, RECORD_BYTES};

mod buffers_and_rows {
    use super::*;

    fn text() -> Arguments {
        Arguments::of_text(third("c=NAND(b,a)").as_bytes())
    }

    #[test]
    fn record_buffer() {
        for length in [0, 1, 60, BLOCK_BYTES - RECORD_BYTES, BLOCK_BYTES - 1] {
            let records = vec![7; length];
            refused_with(&Arguments { records, ..text() }, 15, 1);
        }
        for length in [BLOCK_BYTES, BLOCK_BYTES + 1, 2 * BLOCK_BYTES, 65_536 + 60] {
            let records = (0..length).map(|at| at as u8).collect();
            let block = with_gate(gate(NAND, &[1, 0]));
            gives_with(&Arguments { records, ..text() }, &block);
        }
    }

    #[test]
    fn list() {
        for length in [0, 1, 8, LIST_BYTES - 1, LIST_BYTES + 1, 72, 320, 65_600] {
            let list = vec![1; length];
            refused_with(&Arguments { list, ..text() }, 15, 2);
        }
        let list = vec![1; LIST_BYTES];
        let nand = drawing(gate(NAND, &[1, 0]), [1, 1, 1, 1], [257, 257]);
        gives_with(&Arguments { list, ..text() }, &with_gate(nand));
    }

    /// The plain list with a byte of a row changed.
    fn with_byte(row: usize, byte: usize, value: u8) -> Arguments {
        let mut arguments = text();
        arguments.list[8 * row + byte] = value;
        arguments
    }

    /// The fields of every row, used or not, at both sides of their edges.
    #[test]
    fn ranges() {
        let fields: [(&[u8], &[u8]); 4] = [
            (&[0, 1, 15], &[16, 17, 128, 255]),
            (&[1, 2, 63], &[0, 64, 128, 255]),
            (&[1, 2, 127], &[0, 128, 255]),
            (&[1, 2, 127], &[0, 128, 255]),
        ];
        for row in 0..8 {
            for (byte, (good, bad)) in fields.iter().enumerate() {
                for &value in *good {
                    let compared = called(&with_byte(row, byte, value));
                    assert_eq!(compared.answer, Ok(3), "row {row}, byte {byte}: {value}");
                }
                for &value in *bad {
                    refused_with(&with_byte(row, byte, value), 9, row as u64);
                }
            }
            for (byte, value) in (4..8).zip([0, 1, 128, 255]) {
                assert_eq!(called(&with_byte(row, byte, value)).answer, Ok(3));
            }
        }
    }

    #[test]
    fn lowest_bad_row() {
        for row in 0..8 {
            let mut arguments = text();
            for (later, byte) in (row..8).zip([3, 2, 1, 0, 3, 2, 1, 0]) {
                arguments.list[8 * later + byte] = 255;
            }
            refused_with(&arguments, 9, row as u64);
        }
    }

    /// A gate has the fields of its kind's row, whatever its neighbours have; BUFF those of BUF.
    #[test]
    fn rows_of_the_kinds() {
        let mut arguments = text();
        for (row, bytes) in arguments.list.chunks_exact_mut(8).enumerate() {
            let number = row as u8;
            let low = 100 + 10 * number;
            bytes.copy_from_slice(&[number, 8 + number, 16 + number, 32 + number, low, 1, low, 2]);
        }
        let mut lines = String::from("INPUT(a)\nINPUT(b)\n");
        let mut block = inputs(2);
        let words = KIND_WORDS.into_iter().zip(AND..=BUF);
        for (word, kind) in words.chain([("BUFF", BUF)]) {
            let (names, pins): (_, &[u16]) = match kind {
                AND..=XNOR => ("b,a", &[1, 0]),
                _ => ("b", &[1]),
            };
            lines += &format!("g{word}={word}({names})\n");
            let row = kind - AND;
            let low = 100 + 10 * u16::from(row);
            let fields = [row, 8 + row, 16 + row, 32 + row];
            block.push(drawing(gate(kind, pins), fields, [low + 256, low + 512]));
        }
        arguments.text = lines.into_bytes();
        gives_with(&arguments, &block);
    }
}

/// What the records themselves are refused for: 2, 3, 5 and 10.
mod records {
    use super::*;

    /// Lines of inputs `i0` and on.
    fn input_lines(count: usize) -> String {
        (0..count).map(|net| format!("INPUT(i{net})\n")).collect()
    }

    /// Lines of inverters of `i0`, `g0` and on.
    fn gate_lines(count: usize) -> String {
        (0..count).map(|net| format!("g{net}=NOT(i0)\n")).collect()
    }

    #[test]
    fn record_limit() {
        for inputs_first in [1, 64] {
            let block = |records| {
                let gates = vec![gate(NOT, &[0]); records - inputs_first];
                [inputs(inputs_first), gates].concat()
            };
            let text = |records| input_lines(inputs_first) + &gate_lines(records - inputs_first);
            for records in [1023, 1024] {
                gives(text(records), &block(records));
            }
            for records in [1025, 1026, 1100] {
                refused(text(records), 2, 0);
            }
            // Lines without a record do not count.
            gives(text(1024) + "OUTPUT(g1)\n\n#\n", &block(1024));
        }
    }

    /// A full block fills the shortest buffer to its end.
    #[test]
    fn full_buffer() {
        let text = input_lines(64) + &gate_lines(959) + "last=XNOR(g957,g958,i63,g0)";
        let mut block = [inputs(64), vec![gate(NOT, &[0]); 959]].concat();
        block.push(gate(XNOR, &[1021, 1022, 63, 64]));
        let arguments = Arguments::of_text(text.as_bytes());
        assert_eq!(arguments.records.len(), BLOCK_BYTES);
        gives_with(&arguments, &block);
        let mut longer = arguments;
        longer.records = vec![9; BLOCK_BYTES + 21];
        gives_with(&longer, &block);
    }

    #[test]
    fn input_limit() {
        gives(input_lines(64), &inputs(64));
        for count in [65, 66, 100, 1024] {
            refused(input_lines(count), 5, 64);
        }
        refused("\n\n".to_string() + &input_lines(65), 5, 64);
        refused(input_lines(65) + &gate_lines(959), 5, 64);
        refused(input_lines(65) + &gate_lines(960), 2, 0);
        refused(input_lines(1025), 2, 0);
    }

    /// Inverters one after the other behind an input, with these delays for NOT and, for the last, BUF.
    fn chain(not: u8, gates: usize, buf: u8) -> Arguments {
        let mut text = String::from("OUTPUT(z)\n\nINPUT(g0)\n");
        for net in 1..=gates {
            text += &format!("g{net}=NOT(g{})\n", net - 1);
        }
        text += &format!("OUTPUT(g{gates})\nz=BUFF(g{gates})\n");
        let mut arguments = Arguments::of_text(text.as_bytes());
        arguments.list[8 * 6 + 1] = not;
        arguments.list[8 * 7 + 1] = buf;
        arguments
    }

    /// The place is the net, and not the line.
    #[test]
    fn arrivals() {
        for (not, gates, buf) in [(63, 4, 3), (1, 254, 1), (1, 192, 63), (51, 4, 51)] {
            assert_eq!(called(&chain(not, gates, buf)).answer, Ok(gates as u64 + 2));
        }
        for (not, gates, buf, net) in [
            (63, 4, 4, 5),
            (63, 5, 1, 5),
            (63, 900, 1, 5),
            (1, 254, 2, 255),
            (1, 255, 1, 256),
            (1, 256, 1, 256),
            (1, 193, 63, 194),
            (52, 4, 51, 5),
        ] {
            refused_with(&chain(not, gates, buf), 10, net);
        }
    }

    /// A gate arrives its delay after the latest of its pins, wherever that stands.
    #[test]
    fn latest_pin() {
        for pins in ["d,a", "a,d", "a,c,b,d", "d,d,d,d"] {
            let lines = format!("c=NOT(a)\nd=NOT(c)\ne=AND({pins})\nf=NOT(a)");
            let mut arguments = Arguments::of_text(third(&lines).as_bytes());
            arguments.list[8 * 6 + 1] = 63;
            for delay in [1, 63] {
                arguments.list[1] = delay;
                assert_eq!(called(&arguments).answer, Ok(6));
            }
            let more = "\ng=NOT(e)\nh=AND(g,a)";
            arguments.text.extend(more.bytes());
            arguments.list[1] = 3;
            assert_eq!(called(&arguments).answer, Ok(8));
            arguments.list[1] = 34;
            refused_with(&arguments, 10, 7);
        }
    }

    #[test]
    fn before_one_another() {
        let late = |text: String| {
            let mut arguments = Arguments::of_text(text.as_bytes());
            arguments.list[8 * 6 + 1] = 63;
            arguments
        };
        let chain = "c1=NOT(c0)\nc2=NOT(c1)\nc3=NOT(c2)\nc4=NOT(c3)\nc5=NOT(c4)\n";
        let first = "INPUT(i0)\nINPUT(c0)\n";
        refused_with(&late(format!("{first}{chain}")), 10, 6);
        refused_with(&late(format!("{first}{chain}{}", gate_lines(1017))), 10, 6);
        refused_with(&late(format!("{first}{chain}{}", gate_lines(1018))), 2, 0);
        let inputs = input_lines(64) + "INPUT(c0)\n";
        refused_with(&late(format!("{inputs}{chain}")), 5, 64);
        refused_with(&late(format!("{inputs}{chain}{}", gate_lines(955))), 2, 0);
    }
}

mod order {
    use super::*;

    /// A fault: its refusal's number and place, and how to make it.
    type Fault = (u64, u64, fn(&mut Arguments));

    /// Puts another line in place of the text's line of this number, from 1.
    fn put(arguments: &mut Arguments, number: usize, line: &str) {
        let text = String::from_utf8(arguments.text.clone()).expect("a text");
        let mut lines: Vec<&str> = text.split('\n').collect();
        lines[number - 1] = line;
        arguments.text = lines.join("\n").into_bytes();
    }

    /// Faults of the buffers, of the list, and of lines 2 to 6, in the order in which they are found.
    const FAULTS: [Fault; 10] = [
        (15, 1, |lent| lent.records.truncate(BLOCK_BYTES - 1)),
        (15, 2, |lent| lent.list.truncate(LIST_BYTES - 1)),
        (9, 0, |lent| lent.list[0] = 16),
        (9, 2, |lent| lent.list[8 * 2 + 3] = 128),
        (9, 6, |lent| lent.list[8 * 6 + 1] = 0),
        (17, 2, |lent| put(lent, 2, "INPUT(b))")),
        (18, 3, |lent| put(lent, 3, "c=AND(a,z)")),
        (17, 4, |lent| put(lent, 4, "INPUT(d)")),
        (18, 5, |lent| put(lent, 5, "e=NOT(e)")),
        (17, 6, |lent| put(lent, 6, "f=not(a)")),
    ];

    /// The text and the list with these faults.
    fn with(text: &str, faults: &[Fault]) -> Arguments {
        let mut arguments = Arguments::of_text(text.as_bytes());
        for (_, _, make) in faults.iter().rev() {
            make(&mut arguments);
        }
        arguments
    }

    const TEXT: &str = "INPUT(a)\nINPUT(b)\nc=AND(a,b)\nd=NOT(a)\ne=NOT(a)\nf=NOT(a)\n";

    /// Each fault alone, each pair, and each fault with all later ones: the earliest is returned.
    #[track_caller]
    fn in_order(text: &str) {
        for (index, &fault) in FAULTS.iter().enumerate() {
            let (number, place, _) = fault;
            refused_with(&with(text, &[fault]), number, place);
            refused_with(&with(text, &FAULTS[index..]), number, place);
            for &later in &FAULTS[index + 1..] {
                refused_with(&with(text, &[fault, later]), number, place);
            }
        }
    }

    #[test]
    fn of_the_checks() {
        let inverters = vec![gate(NOT, &[0]); 3];
        gives(TEXT, &[with_gate(gate(AND, &[0, 1])), inverters].concat());
        in_order(TEXT);
    }

    /// Every one of them comes before 2, 3, 5 and 10, even where the line stands last.
    #[test]
    fn before_the_records() {
        let gates: String = (0..1024).map(|net| format!("g{net}=NOT(a)\n")).collect();
        let chain = (1..=256).map(|net| format!("h{net}=OR(h{},a)\n", net - 1));
        let chain: String = chain.collect();
        let inputs: String = (0..65).map(|net| format!("INPUT(i{net})\n")).collect();
        for (number, place, text) in [
            (2, 0, format!("INPUT(a)\n{gates}")),
            (3, 0, "\nOUTPUT(a)\n".to_string()),
            (5, 64, inputs),
            (10, 257, format!("INPUT(a)\nINPUT(h0)\n{chain}")),
        ] {
            refused(&text, number, place);
            for &(number, place, make) in &FAULTS[..5] {
                refused_with(&with(&text, &[(number, place, make)]), number, place);
            }
            let line = text.lines().count() as u64 + 1;
            refused(format!("{text}x=NOT(("), 17, line);
            refused(format!("{text}x=NOT(y)"), 18, line);
        }
        in_order(&format!("{TEXT}{}", gates.replace("NOT(a)", "BUF(a)")));
    }

    /// A line with both faults is refused for its form.
    #[test]
    fn form_before_name() {
        for line in [
            "c=AND(y,z,)",
            "c=AND(z)",
            "c=NOT(y,z)",
            "c=AND(v,w,x,y,z)",
            "c=and(y,z)",
            "a=AND(a)",
            "a=FOO(a,b)",
            "b=NOT(b)b",
            "z=AND(z,_)",
            "c=AND(z,abcdefghijklmnopq)",
            "abcdefghijklmnopq=NOT(z)",
            "INPUT(a)a",
            "INPUT(a,a)",
        ] {
            refused(third(line), 17, 3);
        }
        // An input after a gate, with a name that is given already.
        refused(third("c=NOT(a)\nINPUT(a)"), 17, 4);
        refused(third("c=NOT(a)\nINPUT(c)"), 17, 4);
        refused(third("c=NOT(a)\n\nINPUT(d)"), 17, 5);
    }

    /// Of two lines the earlier one's fault is returned.
    #[test]
    fn line_by_line() {
        refused(third("c=NOT(z)\nd=NOT(("), 18, 3);
        refused(third("d=NOT((\nc=NOT(z)"), 17, 3);
        refused(third("c=NOT(z)\nd=NOT(c)"), 18, 3);
        refused(third("INPUT(b)\nx"), 18, 3);
        refused("x\nINPUT(a)\nINPUT(a)", 17, 1);
    }
}

/// Texts of far more records than a block may have: each line is still judged, with all names before it.
mod long_texts {
    use super::*;

    const INPUTS: usize = 2;
    const GATES: usize = 3000;

    /// The name of a record. Names of gates differ in their last letters alone, and have all 16.
    fn name(record: usize) -> String {
        match record {
            0 => "a".to_string(),
            1 => "b".to_string(),
            _ => format!("gate{record:012}"),
        }
    }

    /// Two inputs and 3,000 gates, each of the record before it and one far before it.
    fn text() -> String {
        let inputs: String = (0..INPUTS)
            .map(|net| format!("INPUT({})\n", name(net)))
            .collect();
        let gates = (INPUTS..INPUTS + GATES).map(|net| {
            let (own, near, far) = (name(net), name(net - 1), name(net / 3));
            format!("{own}=XOR({near},{far})\n")
        });
        inputs + &gates.collect::<String>()
    }

    /// The number of a line after all of them.
    const LAST: u64 = (INPUTS + GATES) as u64 + 1;

    #[track_caller]
    fn with_last_line(line: &str, number: u64, place: u64) {
        refused(text() + line, number, place);
    }

    #[test]
    fn without_a_fault() {
        with_last_line("", 2, 0);
        with_last_line("OUTPUT(z)", 2, 0);
        with_last_line("z=NOT(a)", 2, 0);
        // Late ones too: the last of them would arrive at tick 189,000.
        let mut late = Arguments::of_text(text().as_bytes());
        let delays = late.list.iter_mut().skip(1).step_by(8);
        delays.for_each(|delay| *delay = 63);
        refused_with(&late, 2, 0);
    }

    #[test]
    fn line_that_fits_no_form() {
        with_last_line("z=NOT(a", 17, LAST);
        with_last_line("INPUT(z)", 17, LAST);
        with_last_line("INPUT(a)", 17, LAST);
    }

    #[test]
    fn unknown_name() {
        with_last_line("z=NOT(y)", 18, LAST);
        with_last_line("z=NOT(z)", 18, LAST);
        with_last_line(&format!("z=NOT({})", name(INPUTS + GATES)), 18, LAST);
        with_last_line("z=OR(a,b,gate00000000001)", 18, LAST);
    }

    #[test]
    fn name_given_twice() {
        for record in [0, 9, 1023, 1024, 1025, 1999, INPUTS + GATES - 1] {
            with_last_line(&format!("{}=NOT(a)", name(record)), 18, LAST);
        }
    }

    /// Pins of records before and past the 1,024th.
    #[test]
    fn known_pins() {
        for records in [[0, 9], [1023, 1024], [1025, 1999], [INPUTS + GATES - 1, 1]] {
            let [one, other] = records.map(name);
            with_last_line(&format!("z=OR({one},{other})"), 2, 0);
            with_last_line(&format!("z=OR({one},{other},x)"), 18, LAST);
        }
    }

    /// A fault just past the 1,024th record, and one in the middle.
    #[test]
    fn fault_before_the_end() {
        for line in [1024, 1025, 1026, 2000] {
            let text = text();
            let mut lines: Vec<&str> = text.lines().collect();
            lines[line - 1] = "z=NOT(";
            refused(lines.join("\n"), 17, line as u64);
            lines[line - 1] = "b=NOT(a)";
            refused(lines.join("\n"), 18, line as u64);
            lines[line - 1] = "z=NOT(a)";
            // The record of that line is the next one's pin.
            refused(lines.join("\n"), 18, line as u64 + 1);
        }
    }

    #[test]
    fn inputs_alone() {
        let inputs: String = (0..GATES).map(|net| format!("INPUT(i{net})\n")).collect();
        refused(&inputs, 2, 0);
        refused(format!("{inputs}INPUT(i1999)"), 18, GATES as u64 + 1);
        refused(format!("{inputs}c=AND(i1024,i2999)"), 2, 0);
        refused(format!("{inputs}c=AND(i1024,i3000)"), 18, GATES as u64 + 1);
    }
}
