//! Of a line of a bench text that fits no form, the command says why.

use crate::refusals::{refused, CELLS};
use crate::run::run_on;

/// What is said of the forms of a line.
const FORMS: &str = "the forms are INPUT(name), OUTPUT(name) and name = KIND(name, ...), \
                     a name is 1 to 16 letters or digits, and # begins a comment";

/// Each of these lines is refused as the second one of a text, and its fault is told.
#[track_caller]
fn unread(faults: &[(&str, &str)]) {
    for (line, fault) in faults {
        let text = format!("INPUT(a)\n{line}\r\nOUTPUT(a)\n");
        refused(
            run_on(text.as_bytes(), &["read", "-", "--cells", CELLS]),
            &[
                "standard input: refused 17 at line 2: a line of the text fits no form, has no known kind \
                 or a wrong pin count, or is an INPUT after a gate",
                &format!("line 2: {line}"),
                fault,
            ],
        );
    }
}

#[test]
fn kinds() {
    unread(&[
        (
            "y = NADN(a, b)",
            "there is no kind NADN; the nearest is NAND",
        ),
        (
            "y = nandd(a, b)",
            "there is no kind nandd; the nearest is NAND",
        ),
        (
            "y = X NR(a, b)",
            "there is no kind XNR; the nearest are XOR and XNOR",
        ),
        (
            "y = IOR(a, a)",
            "there is no kind IOR; the nearest are OR, NOR and XOR",
        ),
        (
            "y = NAND2(a, b)",
            "there is no kind NAND2; the nearest is NAND",
        ),
        (
            "y = NAND2X1(a, b)",
            "there is no kind NAND2X1; the nearest is NAND",
        ),
        (
            "y = and3(a, a, a)",
            "there is no kind and3; the nearest is AND",
        ),
        ("y = BUFX4(a)", "there is no kind BUFX4; the nearest is BUF"),
        ("y = INV(a)", "there is no kind INV; here it is called NOT"),
        (
            "y = inverter(a)",
            "there is no kind inverter; here it is called NOT",
        ),
        (
            "y = INV_X1(a)",
            "there is no kind INV_X1; here it is called NOT",
        ),
        (
            "y = INVX1(a)",
            "there is no kind INVX1; here it is called NOT",
        ),
        (
            "y = BUFFER(a)",
            "there is no kind BUFFER; here it is called BUF",
        ),
        (
            "y = EXOR(a, a)",
            "there is no kind EXOR; here it is called XOR",
        ),
        (
            "y = EOR(a, a)",
            "there is no kind EOR; here it is called XOR",
        ),
        (
            "y = EXNOR(a, a)",
            "there is no kind EXNOR; here it is called XNOR",
        ),
        (
            "y = NXOR(a, a)",
            "there is no kind NXOR; here it is called XNOR",
        ),
        ("y = DFF(a)", "there is no kind DFF: a block has no latches"),
        (
            "y = DLATCH(a)",
            "there is no kind DLATCH: a block has no latches",
        ),
        (
            "y = LATCH(a)",
            "there is no kind LATCH: a block has no latches",
        ),
        ("y = gnd", "there is no kind gnd: a constant is an input, whose set in the block file ties it low or high"),
        ("y = (a, b)", "a kind is missing after ="),
        ("y =", "a kind is missing after ="),
    ]);
}

/// Where no kind is close, all are said.
#[test]
fn kinds_like_none() {
    for word in ["MUX", "a", "GATE", "AOI21", "é", "!", "INPUT"] {
        let fault = format!(
            "there is no kind {word}; the kinds are AND, NAND, OR, NOR, XOR, XNOR, NOT, BUF and BUFF"
        );
        unread(&[(&format!("y = {word}(a)"), &fault)]);
        unread(&[(&format!("y = {word}"), &fault)]);
    }
}

#[test]
fn capitals() {
    unread(&[
        (
            "input(b)",
            "words are written in capitals: INPUT, not input",
        ),
        (
            "Output(b)",
            "words are written in capitals: OUTPUT, not Output",
        ),
        ("input b", "words are written in capitals: INPUT, not input"),
        (
            "y = nand(a, b)",
            "words are written in capitals: NAND, not nand",
        ),
        (
            "y = Buff(a_1)",
            "words are written in capitals: BUFF, not Buff",
        ),
        ("y = not a", "words are written in capitals: NOT, not not"),
    ]);
}

#[test]
fn signs_of_other_tools() {
    for sign in ["_", "[", "]", ".", "$"] {
        let fault = format!(
            "the name n{sign}1 has a '{sign}', as other tools write it: \
             a name has letters and digits alone, so this one has to be changed"
        );
        for line in ["INPUT(#)", "OUTPUT( # )", "# = NOT(a)", "y = OR(a, #, +)"] {
            unread(&[(&line.replace('#', &format!("n{sign}1")), &fault)]);
        }
    }
}

#[test]
fn characters() {
    unread(&[
        (
            "INPUT(a-1)",
            "the name a-1 has a '-': a name has letters and digits alone",
        ),
        (
            "y = NOT(~a)",
            "the name ~a has a '~': a name has letters and digits alone",
        ),
        (
            "INPUT(b) = NOT(a)",
            "the name INPUT(b) has a '(': a name has letters and digits alone",
        ),
        (
            "gr\u{fc}n = NOT(a)",
            "the name gr\u{fc}n has the character \u{fc}, U+00FC: \
             a name has letters from A to Z and a to z and digits alone",
        ),
        (
            "INPUT(\u{1d465})",
            "the name \u{1d465} has the character \u{1d465}, U+1D465: \
             a name has letters from A to Z and a to z and digits alone",
        ),
    ]);
}

/// What cannot be seen is shown by its number.
#[test]
fn characters_that_are_not_seen() {
    for (name, shown, has) in [
        (
            &b"a\x0cb"[..],
            "a\\x0cb",
            "the byte \\x0c: a name has letters and digits alone",
        ),
        (
            b"a\xff",
            "a\\xff",
            "the byte \\xff: a name has letters and digits alone",
        ),
        (
            b"\xc3",
            "\\xc3",
            "the byte \\xc3: a name has letters and digits alone",
        ),
        (
            b"a\xc2\xa0b",
            "a\\u{a0}b",
            "the character U+00A0: a name has letters from A to Z and a to z and digits alone",
        ),
        (
            b"\xef\xbb\xbfa",
            "\\u{feff}a",
            "the character U+FEFF: a name has letters from A to Z and a to z and digits alone",
        ),
    ] {
        let text = [b"INPUT(", name, b")"].concat();
        let ended = run_on(&text, &["read", "-", "--cells", CELLS]);
        let said = format!("\n  line 1: INPUT({shown})\n  the name {shown} has {has}\n");
        assert!(ended.error.ends_with(&said), "{ended:?}");
    }
}

#[test]
fn byte_order_mark() {
    for line in ["INPUT(a)", "# a comment", "y = NAND(a, b)", ""] {
        let text = format!("\u{feff}{line}\n");
        let ended = run_on(text.as_bytes(), &["read", "-", "--cells", CELLS]);
        let said = format!(
            "\n  line 1: \\u{{feff}}{line}\n  the line begins with a byte order mark, U+FEFF, \
             which cannot be seen: store the text without it\n"
        );
        assert!(ended.error.ends_with(&said), "{ended:?}");
    }
}

#[test]
fn long_names() {
    unread(&[
        (
            "INPUT(abcdefghijklmnopq)",
            "the name abcdefghijklmnopq has 17 letters and digits, and a name has at most 16",
        ),
        (
            "y = NAND(a, clock12345 enable12345)",
            "the name clock12345enable12345 has 21 letters and digits, and a name has at most 16: \
             blanks are skipped, so that clock12345 enable12345 is the name clock12345enable12345",
        ),
    ]);
    let name = "n".repeat(2_000);
    let fault = format!(
        "the name {} ... has 2,000 letters and digits, and a name has at most 16\n",
        &name[..160]
    );
    let ended = run_on(
        format!("{name} = NOT(a)").as_bytes(),
        &["read", "-", "--cells", CELLS],
    );
    assert!(ended.error.ends_with(&fault), "{ended:?}");
}

#[test]
fn pin_counts() {
    for (kind, inverts) in [
        ("AND", ""),
        ("NAND", ", of which only the last inverts"),
        ("OR", ""),
        ("NOR", ", of which only the last inverts"),
        ("XOR", ""),
        ("XNOR", ", of which only the last inverts"),
    ] {
        let takes = format!("{kind} takes 2 to 4 pins, and the line gives");
        unread(&[
            (
                &format!("y = {kind}(a, a, a, a, a)"),
                &format!("{takes} 5: split the gate into several{inverts}"),
            ),
            (
                &format!("y = {kind}( a )"),
                &format!("{takes} 1: a gate of one pin is a BUF or a NOT"),
            ),
        ]);
    }
    for kind in ["NOT", "BUF", "BUFF"] {
        let fault = format!("{kind} takes 1 pin, and the line gives 2");
        unread(&[(&format!("y = {kind}(a, a a)"), &fault)]);
    }
}

/// Where a pin is written with blanks inside, a comma may be missing.
#[test]
fn missing_commas() {
    unread(&[
        (
            "y = NAND(a b)",
            "blanks are skipped, so that a b is the name ab: \
             NAND takes 2 to 4 pins, with commas between them",
        ),
        (
            "y = OR( a  b c )",
            "blanks are skipped, so that a  b c is the name abc: \
             OR takes 2 to 4 pins, with commas between them",
        ),
    ]);
}

#[test]
fn inputs_after_a_gate() {
    for line in ["INPUT(b)", "INPUT(n_1)", "INPUT b"] {
        let fault = "all inputs stand before all gates, and line 4 gives the gate n1";
        let text = format!("INPUT(a)\n# n0 = NOT(a)\nOUTPUT(n2)\nn 1 = NOT(a)\nn2=NOT(n1)\n{line}");
        let ended = run_on(text.as_bytes(), &["read", "-", "--cells", CELLS]);
        let said = format!(" or is an INPUT after a gate\n  line 6: {line}\n  {fault}\n");
        assert!(ended.error.ends_with(&said), "{ended:?}");
    }
}

#[test]
fn brackets() {
    unread(&[
        ("INPUT b", "the opening bracket is missing after INPUT"),
        ("INPUTb)", "the opening bracket is missing after INPUT"),
        ("OUTPUT", "the opening bracket is missing after OUTPUT"),
        ("INPUT[b]", "the opening bracket is missing after INPUT"),
        (
            "y = NAND a, b)",
            "the opening bracket is missing after NAND",
        ),
        ("y = BUFFa)", "the opening bracket is missing after BUFF"),
        ("y = NOT a", "the opening bracket is missing after NOT"),
        ("y = AND)a, b(", "the opening bracket is missing after AND"),
        ("INPUT(b", "the closing bracket is missing"),
        (
            "INPUT(",
            "the line ends inside the brackets: a form stands on one line, whole",
        ),
        (
            "y = NAND(a, # and b",
            "the line ends inside the brackets: a form stands on one line, whole",
        ),
        ("y = NAND(a, b", "the closing bracket is missing"),
    ]);
    for (line, rest) in [
        ("y = NAND(a, b);", ";"),
        ("y = NAND(a, b))", ")"),
        ("INPUT(b) // the second", "// the second"),
        ("INPUT(b) INPUT(c) # two", "INPUT(c)"),
    ] {
        let fault = format!(
            "only a comment, from # on, may stand after the closing bracket, but there stands {rest}"
        );
        unread(&[(line, &fault)]);
    }
    let fault = "a second ( stands inside the brackets: only names stand there, \
                 and each gate has a line of its own";
    for line in ["INPUT((b)", "y = NAND((a, b)", "y = NAND(a, OR(b, c))"] {
        unread(&[(line, fault)]);
    }
}

#[test]
fn missing_names() {
    unread(&[
        ("= NAND(a, b)", "a name is missing before ="),
        ("INPUT()", "a name is missing after the opening bracket"),
        ("y = NOT( )", "a name is missing after the opening bracket"),
    ]);
    for (line, place) in [
        ("y = NAND(, a)", "before the first comma"),
        ("y = NAND(a, , b)", "between two commas"),
        ("y = NAND(a, b, )", "after the last comma"),
        ("INPUT(b,)", "after the last comma"),
    ] {
        let fault = format!("a name is missing {place}, or there is a comma too many");
        unread(&[(line, &fault)]);
    }
}

#[test]
fn declarations() {
    unread(&[
        ("INPUT(b, c)", "INPUT takes one name: write a line for each"),
        (
            "OUTPUT(a, b, c)",
            "OUTPUT takes one name: write a line for each",
        ),
        ("INPUTS(b)", "there is no form INPUTS; the nearest is INPUT"),
        (
            "ouptut(b)",
            "there is no form ouptut; the nearest is OUTPUT",
        ),
        ("INPU b", "there is no form INPU; the nearest is INPUT"),
    ]);
}

#[test]
fn equals() {
    unread(&[
        ("NAND(a, b)", "a name and = are missing before NAND"),
        ("not(a)", "a name and = are missing before not"),
        ("y NAND(a, b)", "= is missing before NAND"),
        (
            "y == NAND(a, b)",
            "a second = stands on the line, and the line of a gate has one",
        ),
        (
            "y = z = NOT(a)",
            "a second = stands on the line, and the line of a gate has one",
        ),
    ]);
}

/// Where nothing better can be said, the forms are.
#[test]
fn other_lines() {
    for line in [
        "hello",
        "(a)",
        ")",
        ",",
        "module f(a, b)",
        "IN(a)",
        "?",
        "NAND a, b",
        "nand2 g1(y, a, b)",
    ] {
        unread(&[(line, FORMS)]);
    }
}

/// Of several faults the first one is told, but that of a word before those in its brackets.
#[test]
fn several_faults() {
    unread(&[
        (
            "y_1 = NADN(a, b_1",
            "the name y_1 has a '_', as other tools write it: \
             a name has letters and digits alone, so this one has to be changed",
        ),
        (
            "y = NADN(a, b_1",
            "there is no kind NADN; the nearest is NAND",
        ),
        (
            "y = NAND(, b;, c",
            "a name is missing before the first comma, or there is a comma too many",
        ),
        (
            "y = NAND(a, b;",
            "the name b; has a ';': a name has letters and digits alone",
        ),
        (
            "y = NAND(a;",
            "the name a; has a ';': a name has letters and digits alone",
        ),
        ("y = NAND(a", "the closing bracket is missing"),
    ]);
}
