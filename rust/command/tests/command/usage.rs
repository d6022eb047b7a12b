//! Wrong usage: a message on standard error, status 2, nothing on standard output.

use std::ffi::{OsStr, OsString};
use std::fs::{self, File};
use std::os::unix::ffi::OsStrExt;
use std::path::Path;

use crate::refusals::RANGES;
use crate::run::{command, file, printed, root, run, run_on, scratch, text, Ended};

/// The command says just this on standard error.
#[track_caller]
fn wrong(arguments: &[&str], message: &str) {
    let expected = Ended {
        status: 2,
        output: String::new(),
        error: format!("zimgurav: {message}\n"),
    };
    assert_eq!(run(arguments), expected, "{arguments:?}");
}

/// The same, with where to find help.
#[track_caller]
fn misused(arguments: &[&str], message: &str) {
    let help = format!("'zimgurav {} --help' says how it is used", arguments[0]);
    wrong(arguments, &format!("{message}\n{help}"));
}

const BLOCK: &str = "examples/block_f.blk";

#[test]
fn subcommands() {
    let ended = run(&[]);
    assert_eq!((ended.status, &ended.output[..]), (2, ""));
    let help = printed(&["--help"]);
    assert_eq!(
        ended.error,
        format!("zimgurav: a subcommand is missing\n\n{help}")
    );
    wrong(
        &["draw", BLOCK],
        "there is no subcommand draw; 'zimgurav --help' lists them",
    );
}

/// Help is asked for in several ways.
#[test]
fn help() {
    let whole = printed(&["--help"]);
    assert_eq!(printed(&["help"]), whole);
    assert_eq!(printed(&["help", "help"]), whole);
    assert_eq!(printed(&["help", "search"]), printed(&["search", "--help"]));
    assert_eq!(
        printed(&["search", BLOCK, "-h"]),
        printed(&["search", "-h"])
    );
    wrong(
        &["help", "draw"],
        "there is no subcommand draw; 'zimgurav --help' lists them",
    );
    wrong(&["help", "read", "more"], "more is an operand too many");
}

/// The release, the commit and the version of the calls.
#[test]
fn version() {
    let version = printed(&["--version"]);
    assert_eq!(printed(&["-V"]), version);
    let calls = format!(", version {} of the calls\n", zimgurav::VERSION);
    assert!(version.starts_with("zimgurav 0.1.0, "), "{version}");
    assert!(version.ends_with(&calls), "{version}");
}

#[test]
fn operands() {
    misused(&["read"], "BLOCK is missing");
    misused(&["bench", "--cells", "x", "-o", "y"], "TEXT is missing");
    misused(&["search", BLOCK, "more"], "more is an operand too many");
    misused(&["selftest", "more"], "more is an operand too many");
    misused(&["simulate", BLOCK], "PATTERN is missing");
}

#[test]
fn options() {
    misused(&["read", BLOCK, "--svg", "x"], "there is no option --svg");
    misused(&["read", BLOCK, "-x"], "there is no option -x");
    misused(&["read", BLOCK, "--nets=1"], "--nets takes no value");
    misused(
        &["search", BLOCK, "--budget", "1", "--budget=2"],
        "--budget is given twice",
    );
    misused(&["report", BLOCK], "-o FILE is missing");
    let text = "examples/c17.bench";
    misused(
        &["bench", text, "--cells", "examples/cells.txt"],
        "-o BLOCK is missing",
    );
}

#[test]
fn options_without_a_value() {
    for empty in [
        &["--svg"][..],
        &["--svg="],
        &["--svg", ""],
        &["--svg", "--csv", "x"],
    ] {
        let arguments = [&["search", BLOCK], empty].concat();
        misused(&arguments, "--svg takes a value: --svg FILE");
    }
}

/// A word that is no number is told the range that is meant, also one that looks like an option.
#[test]
fn numbers() {
    for (option, range, number) in [
        ("--budget", "0 to 10000", "-5"),
        ("--budget", "0 to 10000", "1e4"),
        ("--budget", "0 to 10000", "18446744073709551616"),
        ("--hop-limit", "1 to 16", "ten"),
        ("--hop-limit", "1 to 16", "-1"),
        ("--ratio", "1000 to 10000", "1.5"),
    ] {
        misused(
            &["search", BLOCK, option, number],
            &format!("{option} takes a whole number, {range}, and not {number}"),
        );
    }
    misused(
        &["search", BLOCK, "--budget", "-x"],
        "--budget takes a value: --budget N",
    );
}

#[test]
fn standard_input_as_an_output() {
    for option in ["--svg", "--csv", "--vcd", "--pattern"] {
        misused(
            &["search", BLOCK, option, "-"],
            &format!("{option} takes the name of a file; - is standard input"),
        );
    }
    assert!(!root().join("-").exists());
}

#[test]
fn files() {
    wrong(&["read", "nowhere.blk"], "nowhere.blk: no such file");
    wrong(&["read", "examples"], "examples: it is a folder");
    wrong(&["read", "/dev/zero"], "/dev/zero: longer than 64 MiB");
    for (path, fault) in [
        ("nowhere/x.csv", "there is no folder nowhere"),
        ("nowhere/", "there is no folder nowhere/"),
        ("examples", "it is a folder"),
    ] {
        let arguments = ["envelope", BLOCK, "--csv", path];
        wrong(&arguments, &format!("{path}: {fault}"));
    }
    // The answer is printed before a file that cannot be written ends the command.
    let ended = run(&["envelope", BLOCK, "--csv", "/dev/full"]);
    assert_eq!(ended.output, printed(&["envelope", BLOCK]));
    assert_eq!(
        (ended.status, &ended.error[..]),
        (2, "zimgurav: /dev/full: No space left on device\n")
    );
}

/// Without a cell list it is told what that is.
#[test]
fn texts_without_a_list() {
    let message = "a bench text needs a cell list, --cells LIST: a text with a line for each kind of gate, \
                   which has its contact, delay, rise, fall and peaks\n\
                   examples/cells.txt in the repository is one, and 'zimgurav help bench' says more";
    let path = scratch("no-list.blk");
    for arguments in [
        &["read", "examples/c17.bench"][..],
        &["bench", "examples/c17.bench", "-o", &path],
        &["bench", "-", "-o", &path],
    ] {
        misused(arguments, message);
    }
}

/// A text that is not there is told before a list is asked for, or found missing.
#[test]
fn texts_that_are_missing() {
    for arguments in [
        &["search", "nowhere.bench"][..],
        &["bench", "nowhere.bench", "-o", "target/x"],
        &["read", "nowhere.bench", "--cells", "nowhere.txt"],
    ] {
        wrong(arguments, "nowhere.bench: no such file");
    }
}

#[test]
fn lists_without_a_text() {
    misused(
        &["read", BLOCK, "--cells", "examples/cells.txt"],
        "--cells is for a bench text, and the name of one ends in .bench",
    );
}

#[test]
fn standard_input_twice() {
    for arguments in [
        &["simulate", "-", "-"][..],
        &["simulate", "-", "--table", "-", "lh"],
        &["bench", "-", "--cells", "-", "-o", "x"],
        &["search", "-", "--order", "-"],
    ] {
        misused(arguments, "standard input is given for more than one file");
    }
}

/// What a terminal would take for orders is not handed on to it.
#[test]
fn control_characters() {
    let path = scratch("controls.txt");
    fs::write(&path, "\u{1b}[2J\u{7}\n").expect("written");
    let arguments = ["envelope", BLOCK, "--table", &path];
    let message = "line 1: '\u{fffd}[2J\u{fffd}' is no resistance from 0 to 65535 milliohms";
    wrong(&arguments, &format!("{path}: {message}"));
}

/// A cell list in which a line of the example is another one, or is followed by others.
#[track_caller]
fn wrong_list(line: &str, lines: &str, message: &str) {
    let path = scratch("cells.txt");
    let list = text("examples/cells.txt");
    let found = list.lines().find(|each| each.trim().starts_with(line));
    let list = list.replace(found.expect("a line"), lines);
    fs::write(&path, list).expect("written");
    let arguments = ["read", "examples/c17.bench", "--cells", &path];
    wrong(&arguments, &format!("{path}: {message}"));
}

#[test]
fn cell_lists() {
    wrong_list("NOR", "", "no line gives NOR");
    wrong_list(
        "OR",
        "OR 0 1 1 1 1 1\nOR 0 1 1 1 1 1",
        "line 9 gives OR a second time",
    );
    wrong_list(
        "OR",
        "OR 0 1 1 1 1 1\nBUFF 0 1 1 1 1 1",
        "line 14 gives BUF a second time",
    );
    wrong_list(
        "NOT",
        "INV 0 1 1 1 1 1",
        "there is no kind INV; here it is called NOT\n  line 12: INV 0 1 1 1 1 1",
    );
    wrong_list(
        "OR",
        "INPUT 0 1 1 1 1 1",
        "there is no kind INPUT; the kinds are AND, NAND, OR, NOR, XOR, XNOR, NOT, BUF and BUFF\n  \
         line 8: INPUT 0 1 1 1 1 1",
    );
    wrong_list(
        "OR",
        "OR 0 1 1 1 1",
        "a kind has contact, delay, rise, fall, peak lh and peak hl\n  line 8: OR 0 1 1 1 1",
    );
    wrong_list(
        "OR",
        "OR 0 256 1 1 1 1",
        &format!(
            "256 is no delay, which is a whole number in its range: {RANGES}\n  line 8: OR 0 256 1 1 1 1"
        ),
    );
    wrong_list(
        "OR",
        "OR 0 1 1 1 1 8.5",
        &format!(
            "8.5 is no peak hl, which is a whole number in its range: {RANGES}\n  line 8: OR 0 1 1 1 1 8.5"
        ),
    );
}

#[test]
fn tables() {
    for ohms in ["65.536", "-1", "-.5"] {
        let range = "0 to 65.535, as 0.5 or 12, with at most three decimals";
        misused(
            &["envelope", BLOCK, "--ohms", ohms],
            &format!("--ohms takes {range}, and not {ohms}"),
        );
    }
    misused(
        &["envelope", BLOCK, "--ohms", "1", "--table", "x"],
        "a table is either of a file, --table, or of one node, --ohms",
    );
    let path = scratch("table.txt");
    let arguments = ["envelope", BLOCK, "--table", &path];
    for (table, message) in [
        (
            "# none\n\n1 2 3\n",
            "line 3: 3 resistances, and a node has 16, one for each contact",
        ),
        (
            "1 1 1 1 1 1 1 1 1 1 1 1 1 1 1 65536",
            "line 1: '65536' is no resistance from 0 to 65535 milliohms",
        ),
        (
            "1,1,1,1,1,1,1,1,,1,1,1,1,1,1,1,1",
            "line 1: '' is no resistance from 0 to 65535 milliohms",
        ),
    ] {
        fs::write(&path, table).expect("written");
        wrong(&arguments, &format!("{path}: {message}"));
    }
}

#[test]
fn patterns() {
    misused(
        &["simulate", BLOCK, "lh"],
        "the pattern has 1 word, and examples/block_f.blk has 2 inputs",
    );
    misused(&["simulate", BLOCK, "lh", "LH"], "LH is not l, h, hl or lh");
    for operand in ["LH", "lh LH"] {
        misused(
            &["simulate", BLOCK, operand],
            "LH is not l, h, hl or lh, and no file",
        );
    }
}

#[test]
fn files_of_patterns() {
    let path = scratch("a pattern.txt");
    for (pattern, message) in [
        ("# x\nlh\nlh up\n", "line 3: up is not l, h, hl or lh"),
        (
            "lh",
            "the pattern has 1 word, and examples/block_f.blk has 2 inputs",
        ),
    ] {
        fs::write(&path, pattern).expect("written");
        wrong(&["simulate", BLOCK, &path], &format!("{path}: {message}"));
    }
}

/// Of a list of inputs, a word that calls no net.
#[test]
fn files_of_orders() {
    let path = scratch("an order.txt");
    let text = "examples/c17.bench";
    let of_block = "the nets of a block file go by their numbers";
    let of_text = "the nets of a bench text go by their names, not by their numbers";
    for (list, block, message) in [
        (
            "0\n# x\n1, 2\n",
            &[BLOCK][..],
            format!("line 3: 1, is no net number: {of_block}"),
        ),
        (
            "-1",
            &[BLOCK],
            format!("line 1: -1 is no net number: {of_block}"),
        ),
        (
            "1 2\n\n4 6 7",
            &[text, "--cells", "examples/cells.txt"],
            format!("line 3: no net has the name 4: {of_text}"),
        ),
    ] {
        fs::write(&path, list).expect("written");
        let arguments = [&["search"], block, &["--order", &path]].concat();
        wrong(&arguments, &format!("{path}: {message}"));
    }
    wrong(
        &["search", BLOCK, "--order", "nowhere"],
        "nowhere: no such file",
    );
}

/// Subcommands that do not search have no order.
#[test]
fn orders_where_nothing_is_split() {
    for subcommand in ["envelope", "simulate", "read"] {
        let arguments = [subcommand, BLOCK, "--order", "cone"];
        misused(&arguments, "there is no option --order");
    }
    misused(
        &["search", BLOCK, "--order", "--svg"],
        "--order takes a value: --order ORDER",
    );
}

/// A list of inputs in a file, by names or numbers, on several lines or one, is as good as one that is made, and so is
/// one on standard input.
#[test]
fn orders_in_other_forms() {
    let cells = ["--cells", "examples/cells.txt"];
    let search = |order: &str| {
        let arguments = ["search", "examples/c17.bench", "--order", order];
        printed(&[&arguments[..], &cells].concat())
    };
    let path = scratch("order.txt");
    let bounds = search("bounds");
    let list = "split order: bounds (2 7 3 6 1)";
    assert!(bounds.contains(list), "{bounds}");
    fs::write(&path, "\u{feff}# by bounds\r\n2 7\t3\r\n\r\n6 # then\r\n1").expect("written");
    assert_eq!(
        search(&path),
        bounds.replace(": bounds (", &format!(": {path} ("))
    );
    let arguments = [
        &["search", "examples/c17.bench", "--order", "-"],
        &cells[..],
    ]
    .concat();
    let ended = run_on(b"2 7 3 6 1", &arguments);
    let expected = bounds.replace(": bounds (", ": standard input (");
    assert_eq!((ended.status, ended.output), (0, expected));
    assert_eq!(
        search("cone"),
        printed(&[&["search", "examples/c17.bench"], &cells[..]].concat())
    );
    let block = scratch("c17.blk");
    printed(&[&["bench", "examples/c17.bench", "-o", &block], &cells[..]].concat());
    let numbers = printed(&["search", &block, "--order=bounds"]);
    assert!(
        numbers.contains("split order: bounds (1 4 2 3 0)\n"),
        "{numbers}"
    );
}

/// Words in one operand, and a pattern or a block on standard input, are as good as others.
#[test]
fn operands_in_other_forms() {
    let simulated = printed(&["simulate", BLOCK, "lh", "hl"]);
    assert_eq!(printed(&["simulate", BLOCK, "lh hl"]), simulated);
    let ended = run_on(b"lh # first\nhl # second\n", &["simulate", BLOCK, "-"]);
    assert_eq!((ended.status, ended.output), (0, simulated));
    let block = file(BLOCK);
    let ended = run_on(&block, &["search", "-"]);
    let expected = printed(&["search", BLOCK]).replace(BLOCK, "standard input");
    assert_eq!((ended.status, ended.output), (0, expected));
}

/// Names of files need not be text.
#[test]
fn names_that_are_no_text() {
    let name = |ending: &str| {
        let mut name = OsString::from(scratch("name"));
        name.push(OsStr::from_bytes(b"\xff"));
        name.push(ending);
        name
    };
    let (block, pattern, picture) = (name(".blk"), name(".txt"), name(".svg"));
    fs::copy(root().join(BLOCK), &block).expect("a copy");
    fs::write(&pattern, "lh lh").expect("written");
    let mut option = OsString::from("--svg=");
    option.push(&picture);
    let ended = command(&["simulate"])
        .args([&block, &pattern, &option])
        .output();
    let ended = ended.expect("the command starts");
    assert_eq!(
        (ended.status.code(), &ended.stderr[..]),
        (Some(0), &b""[..])
    );
    assert!(Path::new(&picture).is_file());
}

/// Words after `--` are operands.
#[test]
fn operands_that_look_like_options() {
    for word in ["-h", "--help", "--nets"] {
        let message = format!("{word}: no such file");
        wrong(&["read", "--", word], &message);
    }
}

/// A reader that has closed its end is no failure; an output that takes nothing is, and a standard error that takes
/// nothing leaves the status.
#[test]
fn outputs_that_take_nothing() {
    let (reader, writer) = std::io::pipe().expect("a pipe");
    drop(reader);
    let ended = command(&["search", BLOCK]).stdout(writer).output();
    let ended = ended.expect("the command starts");
    assert_eq!(
        (ended.status.code(), &ended.stderr[..]),
        (Some(0), &b""[..])
    );
    let full = || {
        File::options()
            .write(true)
            .open("/dev/full")
            .expect("a full device")
    };
    let ended = command(&["search", BLOCK]).stdout(full()).output();
    let ended = ended.expect("the command starts");
    let message = "zimgurav: standard output: No space left on device\n";
    assert_eq!(
        (ended.status.code(), &ended.stderr[..]),
        (Some(2), message.as_bytes())
    );
    let ended = command(&["read", "nowhere"]).stderr(full()).output();
    assert_eq!(ended.expect("the command starts").status.code(), Some(2));
}

/// A long search shows that it goes on, but not into a pipe.
#[test]
fn no_progress_into_a_pipe() {
    let adder = ["search", "examples/adder24.blk", "--budget", "10000"];
    assert!(printed(&adder).contains("\nsplits       10,000\n"));
}

/// The names of a text's nets, without comments and blanks.
#[test]
fn names_of_nets() {
    let text = b"INPUT(a) # x=y\r\n# q = NOT(a)\nO U\tT = NOT(a)\r\nOUTPUT(OUT)\nINPUT = BUF(a)";
    let ended = run_on(
        text,
        &["read", "-", "--cells", "examples/cells.txt", "--nets"],
    );
    let nets: Vec<&str> = ended
        .output
        .lines()
        .filter(|line| line.starts_with("net "))
        .collect();
    let nets: Vec<&str> = nets
        .iter()
        .filter_map(|line| line.split(':').next())
        .collect();
    assert_eq!(nets, ["net 0 \"a\"", "net 1 \"OUT\"", "net 2 \"INPUT\""]);
}

/// Lists, tables and patterns may come from other systems and editors.
#[test]
fn texts_in_other_forms() {
    let other = |text: &str| format!("\u{feff}{}", text.replace('\n', "\r\n").replace("  ", "\t"));
    let [list, table, pattern] = ["other-cells.txt", "other-table.txt", "other.txt"].map(scratch);
    fs::write(&list, other(&text("examples/cells.txt"))).expect("written");
    fs::write(&table, other(&text("examples/table.txt"))).expect("written");
    fs::write(&pattern, other("lh\nhl # second\n\nh\nl\nlh")).expect("written");
    let ended = run(&[
        "simulate",
        "examples/c17.bench",
        &pattern,
        "--cells",
        &list,
        "--table",
        &table,
    ]);
    let expected = printed(&[
        "simulate",
        "examples/c17.bench",
        "lh hl h l lh",
        "--cells",
        "examples/cells.txt",
        "--table",
        "examples/table.txt",
    ]);
    let expected = expected.replace("examples/table.txt", &table);
    assert_eq!((ended.status, ended.output), (0, expected));
}
