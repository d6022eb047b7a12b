//! Bench: each form, what blanks, comments and names may be, and blocks that are written as texts. The expected
//! records and refusals are written from what was asked for, and both the library and the second implementation
//! must give them.

mod common;

use check::sample::{
    gate, input, plain_text, Arguments, Netlist, Random, Record, Shape, BLANKS, KIND_WORDS,
};
use common::{gives, gives_with, inputs, refused, third, with_gate};
use zimgurav::kind::{AND, BUF, NAND, NOR, NOT, OR, XNOR, XOR};
use zimgurav::{raw, ANSWER_NUMBERS, BLOCK_BYTES, LIST_BYTES};

mod forms {
    use super::*;

    #[test]
    fn inputs_and_gates() {
        let text = "INPUT(a)\nINPUT(b)\nOUTPUT(d)\nc = NAND(a, b)\nd = NOT(c)\n";
        let gates = [gate(NAND, &[0, 1]), gate(NOT, &[2])];
        gives(text, &[inputs(2), gates.to_vec()].concat());
        gives("INPUT(a)", &inputs(1));
    }

    /// Pins stand as they are written, a name twice too.
    #[test]
    fn pins_as_written() {
        gives(third("c=OR(b,a)"), &with_gate(gate(OR, &[1, 0])));
        gives(third("c=XOR(b,b)"), &with_gate(gate(XOR, &[1, 1])));
        gives(
            third("c=NOR(b,a,a,b)"),
            &with_gate(gate(NOR, &[1, 0, 0, 1])),
        );
    }

    /// A kind word takes the pins of its kind, and no other number of them.
    #[test]
    fn kinds_and_pin_counts() {
        let words = KIND_WORDS.into_iter().zip(AND..=BUF);
        for (word, kind) in words.chain([("BUFF", BUF)]) {
            for count in 0..8 {
                let line = format!("c={word}({})", vec!["b"; count].join(","));
                let right = match kind {
                    AND..=XNOR => (2..=4).contains(&count),
                    _ => count == 1,
                };
                if right {
                    gives(third(&line), &with_gate(gate(kind, &vec![1; count])));
                } else {
                    refused(third(&line), 17, 3);
                }
            }
        }
    }

    #[test]
    fn words_that_are_no_kind() {
        let words = "\
            A AN ANDD ANDAND and And aND NAN nand O ORR or NO NORR XO XORX XN XNO XNORR NXOR \
            NOTT not B BU BUFFF BUFFFF BUFf buff Buf BUFS INV DFF INPUT OUTPUT 1 a";
        for word in words.split(' ').chain([""]) {
            for pins in ["a", "a,b"] {
                refused(third(&format!("c={word}({pins})")), 17, 3);
            }
        }
    }

    /// The `=` decides the form, so that the words of the forms are names too.
    #[test]
    fn words_as_names() {
        let text = "\
            INPUT(INPUT)\nINPUT(OUTPUT)\nOUTPUT(OUTPUT)\nAND=NAND(INPUT,OUTPUT)\nNOT=NOT(AND)\n\
            BUFF=BUFF(NOT)\nBUF=BUF(BUFF)\nXNOR=OR(INPUT,BUF,NOT)\n";
        let gates = [
            gate(NAND, &[0, 1]),
            gate(NOT, &[2]),
            gate(BUF, &[3]),
            gate(BUF, &[4]),
            gate(OR, &[0, 5, 3]),
        ];
        gives(text, &[inputs(2), gates.to_vec()].concat());
        gives(third("INPUT=NOT(a)"), &with_gate(gate(NOT, &[0])));
        gives(third("OUTPUT=AND(a,b)"), &with_gate(gate(AND, &[0, 1])));
    }

    /// OUTPUT lines stand anywhere, give no record and no name, and look none up.
    #[test]
    fn outputs() {
        for output in ["a", "c", "zz", "OUTPUT", "a1b2c3d4e5f6g7h8"] {
            let output = format!("OUTPUT({output})");
            let text = format!(
                "{output}\nINPUT(a)\n{output}\nINPUT(b)\n{output}\nc=AND(a,b)\n{output}\n{output}"
            );
            gives(text, &with_gate(gate(AND, &[0, 1])));
        }
        gives(third("OUTPUT(c)\nc=NOT(a)"), &with_gate(gate(NOT, &[0])));
        refused(third("OUTPUT(c)\nd=NOT(c)"), 18, 4);
    }

    #[test]
    fn outputs_that_fit_no_form() {
        let lines = "\
            OUTPUT OUTPUT() OUTPUT(a OUTPUTa) OUTPUT(a,b) OUTPUT(a)) OUTPUT(a)b OUTPUT(a_1) \
            OUTPUT(abcdefghijklmnopq) output(a) OUTPUTS(a) OUT(a)";
        for line in lines.split(' ') {
            refused(third(line), 17, 3);
            refused(format!("{line}\nINPUT(a)"), 17, 1);
        }
    }

    #[test]
    fn inputs_that_fit_no_form() {
        let lines = "\
            INPUT INPUT( INPUT() INPUT(c INPUTc) INPUT)c( INPUT(c)) INPUT((c) INPUT((c)) \
            INPUT(c,d) INPUT(c,) INPUT(,c) INPUT(c)d INPUT(c); dINPUT(c) INPUT(c)INPUT(d) \
            INPUT(INPUT(c)) INPUT[c] INPUTc INPUT:c INPUT=c INPUT= input(c) Input(c) \
            INPUt(c) INPU(c) NPUT(c) INPUTS(c) IN(c) (c) () ( ) INPUT(c)=NOT(a)";
        for line in lines.split(' ') {
            refused(third(line), 17, 3);
        }
    }

    #[test]
    fn gates_that_fit_no_form() {
        let lines = "\
            , = c c= c=a c=AND =AND(a,b) c=(a,b) c=() AND(a,b) NOT(a) c=AND( c=AND() \
            c=AND(,) c=AND(a,b c=ANDa,b) c=AND)a,b( c=AND(a,b)) c=AND((a,b) c=AND((a,b)) \
            c=AND(a,b)d c=AND(a,b), c=AND(a,b)= c==AND(a,b) =c=AND(a,b) c=d=NOT(a) \
            c=AND=(a,b) c=AND(a=b) c=AND(a,b=a) c=AND(,a,b) c=AND(a,,b) c=AND(a,b,) \
            c=AND(a;b) c=AND(a.b) c=AND[a,b] c=AND(a)(b) c:AND(a,b) c,d=AND(a,b) \
            c(a)=AND(a,b) c=NOT(a)OUTPUT(c) c=NOT(!a) c=NOT(a)d=NOT(b) c=NOT(NOT(a)) \
            -c=NOT(a) c=NOT(a)\0 \u{feff}c=NOT(a) c=N\u{d6}T(a)";
        for line in lines.split(' ') {
            refused(third(line), 17, 3);
        }
    }
}

/// One byte, of each value, in each place where it can mean something else.
mod bytes {
    use super::*;

    /// The texts with the byte for `?`.
    fn with(byte: u8, text: &str) -> Vec<u8> {
        let bytes = text.bytes();
        bytes
            .map(|each| if each == b'?' { byte } else { each })
            .collect()
    }

    /// With each byte that passes the text gives two inputs; with every other it is refused by 17 at the line.
    fn two_inputs(text: &str, line: u64, passes: impl Fn(u8) -> bool) {
        for byte in 0..=255 {
            let text = with(byte, text);
            if passes(byte) {
                gives(text, &inputs(2));
            } else {
                refused(text, 17, line);
            }
        }
    }

    fn blank(byte: u8) -> bool {
        BLANKS.contains(&byte)
    }

    #[test]
    fn in_a_name() {
        let passes = |byte: u8| blank(byte) || byte.is_ascii_alphanumeric();
        two_inputs("INPUT(a)\nINPUT(b?)\nOUTPUT(a)\n", 2, passes);
    }

    #[test]
    fn in_a_pin() {
        for byte in 0..=255 {
            let text = with(byte, "INPUT(a)\nINPUT(b)\nc=NOT(?b)\n");
            if blank(byte) {
                gives(text, &with_gate(gate(NOT, &[1])));
            } else {
                let number = if byte.is_ascii_alphanumeric() { 18 } else { 17 };
                refused(text, number, 3);
            }
        }
    }

    #[test]
    fn in_a_word() {
        two_inputs("INPUT(a)\nINP?UT(b)\n", 2, blank);
    }

    #[test]
    fn alone_in_a_line_or_after_one() {
        let passes = |byte| blank(byte) || b"\n#".contains(&byte);
        two_inputs("INPUT(a)\n?\nINPUT(b)\n", 2, passes);
        two_inputs("INPUT(a)?\nINPUT(b)", 1, passes);
    }

    #[test]
    fn in_a_comment() {
        for byte in 0..=255 {
            gives(with(byte, "INPUT(a)#?\n#?\nINPUT(b)#?"), &inputs(2));
        }
    }
}

mod blanks_and_lines {
    use super::*;

    const TEXT: &str = "INPUT(ab)\nOUTPUT(cd)\ncd=NAND(ab,ab)\nef=BUFF(cd)\n";

    fn block() -> Vec<Record> {
        vec![input(15), gate(NAND, &[0, 0]), gate(BUF, &[1])]
    }

    /// Each blank alone, and several, at each place of the text.
    #[test]
    fn blanks_anywhere() {
        for blanks in ["\t", "\r", " ", "\r\r", " \t \r"] {
            for at in 0..=TEXT.len() {
                let mut text = TEXT.to_string();
                text.insert_str(at, blanks);
                gives(text, &block());
            }
            let all: String = TEXT.chars().map(|each| format!("{blanks}{each}")).collect();
            gives(all, &block());
        }
    }

    /// A comment cuts a line at any place; what is left of it is nothing, or fits no form.
    #[test]
    fn comments_anywhere() {
        let line = "cd=AND(a,b)";
        for at in 0..=line.len() {
            let text = third(&format!("{}#{}", &line[..at], &line[at..]));
            match at {
                0 => gives(text, &inputs(2)),
                11 => gives(text, &with_gate(gate(AND, &[0, 1]))),
                _ => refused(text, 17, 3),
            }
        }
        let long = "INPUT(x) # c=AND(".repeat(1000);
        gives(third(&format!("# {long}")), &inputs(2));
        gives(format!("INPUT(a)#{long}"), &inputs(1));
        gives("INPUT(a)##\n # #\n#INPUT(b)", &inputs(1));
    }

    /// Lines end at byte 10 alone, and the last one also at the text's end.
    #[test]
    fn line_ends() {
        let lines = TEXT.trim_end();
        for end in ["", "\n", "\r\n", "\n\n\n", " # end", "\n#", "\n \t", "\r"] {
            gives(format!("{lines}{end}"), &block());
        }
        gives(TEXT.replace('\n', "\r\n"), &block());
        gives(TEXT.replace('\n', "\n\n"), &block());
        refused(TEXT.replace('\n', "\r"), 17, 1);
    }

    /// Lines that are empty count.
    #[test]
    fn lines_count_from_1() {
        for (lines, line) in [("", 1), ("\n", 2), ("\n\r\n \n\t\n#\n # x\n", 7)] {
            refused(format!("{lines}x"), 17, line);
            refused(format!("{lines}x\n"), 17, line);
            refused(format!("{lines}INPUT(a)\nINPUT(a)"), 18, line + 1);
        }
        let many = "# a comment\n\n".repeat(40_000);
        refused(format!("INPUT(a)\n{many}INPUT(a)"), 18, 80_002);
        gives(format!("INPUT(a)\n{many}INPUT(b)"), &inputs(2));
    }

    #[test]
    fn no_record() {
        for text in [
            "",
            "\n",
            " ",
            "\r\n\r\n",
            "\t\n \n\r\n  ",
            "#",
            "# INPUT(a)\n#\n",
            "OUTPUT(a)",
            "\nOUTPUT(a)\nOUTPUT(b) # c\n",
        ] {
            refused(text, 3, 0);
        }
    }
}

mod names {
    use super::*;

    /// The first letters of a name of 16, and of one of 17.
    fn long(letters: usize) -> &'static str {
        &"Ab0dE1gh2JkLm3oPq"[..letters]
    }

    /// In each place a name has 1 to 16 letters, however many blanks stand between them.
    #[test]
    fn lengths() {
        for letters in 1..=17 {
            let name = long(letters);
            let spaced = name.replace("", " \t\r");
            for name in [name, &spaced] {
                let texts = [
                    (third(&format!("OUTPUT({name})")), inputs(2)),
                    (third(&format!("INPUT({name})")), inputs(3)),
                    (third(&format!("{name}=NOT(b)")), with_gate(gate(NOT, &[1]))),
                    (
                        format!("INPUT(a)\nINPUT({name})\nc=AND(a,{name})"),
                        with_gate(gate(AND, &[0, 1])),
                    ),
                ];
                for (place, (text, block)) in texts.iter().enumerate() {
                    if letters <= 16 {
                        gives(text, block);
                    } else {
                        refused(text, 17, if place == 3 { 2 } else { 3 });
                    }
                }
            }
        }
        refused(third(&format!("c=NOT({})", long(17))), 17, 3);
        refused(third(&format!("c=AND(a,b,{})", "x".repeat(500))), 17, 3);
        refused(third(&format!("INPUT({})", "x".repeat(70_000))), 17, 3);
    }

    /// Names of 1 to 16 letters of which each begins the next are different names.
    #[test]
    fn beginnings() {
        let mut text = String::new();
        for letters in 1..=16 {
            text += &format!("INPUT({})\n", long(letters));
        }
        let mut block = inputs(16);
        for letters in 1..=16 {
            text += &format!("g{letters}=NOT({})\n", long(letters));
            block.push(gate(NOT, &[letters as u16 - 1]));
        }
        gives(text, &block);
        for letters in 2..=16 {
            let (name, shorter) = (long(letters), long(letters - 1));
            refused(format!("INPUT({name})\nc=NOT({shorter})"), 18, 2);
            refused(format!("INPUT({shorter})\nc=NOT({name})"), 18, 2);
        }
    }

    /// Names that differ in one letter, whichever, are different names.
    #[test]
    fn one_letter_apart() {
        for length in [1, 7, 8, 9, 15, 16] {
            for at in 0..length {
                let name = long(length).to_string();
                let mut other = name.clone();
                other.replace_range(at..=at, "z");
                let text = format!("INPUT({name})\nINPUT({other})\nc=AND({other},{name})");
                gives(text, &with_gate(gate(AND, &[1, 0])));
                refused(format!("INPUT({name})\nc=NOT({other})"), 18, 2);
                refused(format!("INPUT({name})\nc=AND({name},{other})"), 18, 2);
            }
        }
    }

    /// Small letters and capitals differ, and so do digits with and without zeros before them.
    #[test]
    fn other_letters() {
        gives("INPUT(a)\nINPUT(A)\nx=NOT(A)", &with_gate(gate(NOT, &[1])));
        refused("INPUT(a)\nx=NOT(A)", 18, 2);
        gives(
            "INPUT(1)\nINPUT(01)\n0=NOT(01)",
            &with_gate(gate(NOT, &[1])),
        );
        refused("INPUT(1)\nx=NOT(01)", 18, 2);
        gives("INPUT(O)\nINPUT(0)\nx=NOT(0)", &with_gate(gate(NOT, &[1])));
    }

    /// A pin's name has to be given by an earlier line: by no output, no later line and not by its own.
    #[test]
    fn unknown() {
        for line in [
            "c=NOT(z)",
            "c=NOT(c)",
            "c=AND(c,a)",
            "c=AND(a,z)",
            "c=AND(z,a)",
            "c=AND(a,b,a,z)",
            "c=OR(a,b,c)",
            "c=NOT(OUTPUT)",
            "c=NOT(NOT)",
            "c=NOT(d)\nd=NOT(a)",
            "c=NOT(d)\nOUTPUT(d)",
        ] {
            refused(third(line), 18, 3);
        }
        refused("c=NOT(a)\nINPUT(a)", 18, 1);
        refused("OUTPUT(a)\nc=NOT(a)", 18, 2);
        refused("INPUT(a)#INPUT(b)\nc=NOT(b)", 18, 2);
        refused(third("#c=NOT(a)\nd=NOT(c)"), 18, 4);
    }

    #[test]
    fn given_twice() {
        refused("INPUT(a)\nINPUT(a)", 18, 2);
        refused("INPUT(ab)\nINPUT(a \tb)", 18, 2);
        refused(third("INPUT(a)"), 18, 3);
        refused(third("a=NOT(b)"), 18, 3);
        refused(third("b=NOT(b)"), 18, 3);
        refused(third("c=NOT(a)\nc=NOT(a)"), 18, 4);
        refused(third("c=NOT(a)\nd=NOT(a)\nc=OR(a,d)"), 18, 5);
        refused(third("c=NOT(a)\nd=NOT(a)\n\nb=NOT(d)"), 18, 6);
        let long = long(16);
        refused(format!("INPUT({long})\n{long}=NOT({long})"), 18, 2);
    }
}

/// A block written as a text and turned back is the same block, with blanks and comments anywhere and with
/// none.
#[test]
fn blocks_written_as_texts() {
    let mut random = Random::new(6);
    let mut arguments = Arguments::new(&[]);
    for turn in 0..1_500 {
        let records = match turn % 100 {
            0 => 1024,
            1 => 1 + random.below(1024),
            _ => 1 + random.below(40),
        };
        let shape = Shape::random(&mut random, records);
        let netlist = Netlist::random(&mut random, &shape);
        arguments.lend_text(&mut random, &netlist.lines, netlist.list);
        gives_with(&arguments, &netlist.block);
        if records < 40 {
            arguments.text = plain_text(&netlist.lines);
            gives_with(&arguments, &netlist.block);
        }
    }
}

/// All eight numbers, over what stood there before.
#[test]
fn whole_answer() {
    let answer = |text: &str, list: &[u8], length: usize| {
        let mut records = vec![0; length];
        let mut answer = [u64::MAX; ANSWER_NUMBERS];
        // SAFETY: each pointer is good for its length, and no two buffers overlap.
        unsafe {
            raw::zimgurav_bench(
                text.as_ptr(),
                text.len(),
                list.as_ptr(),
                list.len(),
                records.as_mut_ptr(),
                records.len(),
                &mut answer,
            );
        }
        answer
    };
    let refusal = |number, place| [number, place, 0, 0, 0, 0, 0, 0];
    let (list, ones) = (Arguments::new(&[]).list, [1; LIST_BYTES]);
    let text = third("c=AND(a,b)");
    assert_eq!(answer(&text, &list, BLOCK_BYTES), [0, 3, 0, 0, 0, 0, 0, 0]);
    assert_eq!(answer(&text, &ones, 90_000), [0, 3, 0, 0, 0, 0, 0, 0]);
    assert_eq!(answer(&text, &list, 60), refusal(15, 1));
    assert_eq!(answer(&text, &ones[1..], BLOCK_BYTES), refusal(15, 2));
    assert_eq!(answer(&text, &[0; LIST_BYTES], BLOCK_BYTES), refusal(9, 0));
    assert_eq!(answer("", &list, BLOCK_BYTES), refusal(3, 0));
    assert_eq!(answer(&third("c"), &list, BLOCK_BYTES), refusal(17, 3));
    assert_eq!(
        answer(&third("c=NOT(c)"), &list, BLOCK_BYTES),
        refusal(18, 3)
    );
}
