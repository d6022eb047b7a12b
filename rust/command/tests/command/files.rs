//! Files that the command writes: never over one that a call reads or writes otherwise, and whole or not at all.

use std::fs::{self, File};
use std::os::unix::fs::{symlink, PermissionsExt};
use std::path::Path;
use std::process::{Command, Stdio};

use crate::run::{command, file, printed, run, run_on, scratch, Ended};

const BLOCK: &str = "examples/block_f.blk";
const LIST: &str = "examples/cells.txt";

/// A new folder with block F in it, as `a.blk`.
fn folder(name: &str) -> String {
    let folder = scratch(name);
    fs::create_dir_all(&folder).expect("a folder");
    fs::write(format!("{folder}/a.blk"), file(BLOCK)).expect("written");
    folder
}

/// The names in a folder.
fn names(folder: &str) -> Vec<String> {
    let entries = fs::read_dir(folder).expect("a folder");
    let mut names: Vec<String> = entries
        .map(|entry| entry.expect("a file").file_name().into_string())
        .map(|name| name.expect("text"))
        .collect();
    names.sort();
    names
}

/// What the command ends with that is told that two words are of one file.
fn one_file(subcommand: &str, first: &str, other: &str) -> Ended {
    let help = format!("'zimgurav {subcommand} --help' says how it is used");
    Ended {
        status: 2,
        output: String::new(),
        error: format!("zimgurav: {first} is the same file as {other}\n{help}\n"),
    }
}

/// An output that is also an input, by the same name or another.
#[test]
fn over_an_input() {
    let text = "examples/c17.bench";
    for (written, read) in [
        (text, text),
        ("examples/../examples/c17.bench", text),
        (LIST, "--cells examples/cells.txt"),
        ("./examples/cells.txt", "--cells examples/cells.txt"),
    ] {
        let ended = run(&["bench", text, "--cells", LIST, "-o", written]);
        assert_eq!(ended, one_file("bench", &format!("-o {written}"), read));
    }
}

/// An output that is an input through a link of either kind.
#[test]
fn over_an_input_through_a_link() {
    let folder = folder("links");
    let [block, hard, soft] = ["a.blk", "b.blk", "c.blk"].map(|name| format!("{folder}/{name}"));
    fs::hard_link(&block, &hard).expect("a link");
    symlink(&block, &soft).expect("a link");
    for link in [hard, soft] {
        let ended = run(&["search", &block, "--csv", &link]);
        assert_eq!(ended, one_file("search", &format!("--csv {link}"), &block));
    }
    assert_eq!(fs::read(&block).expect("the block"), file(BLOCK));
}

/// Two outputs of a search in a folder are one file.
#[track_caller]
fn one_output(folder: &str, svg: &str, csv: &str) {
    let arguments = ["search", "a.blk", "--svg", svg, "--csv", csv];
    let ended = command(&arguments).current_dir(folder).output();
    let error = String::from_utf8(ended.expect("the command starts").stderr);
    let expected = one_file("search", &format!("--svg {svg}"), &format!("--csv {csv}"));
    assert_eq!(error.expect("text"), expected.error);
}

/// Two outputs that are one file, which exists or not, in two spellings or through a link that leads nowhere yet.
#[test]
fn over_an_output() {
    let folder = folder("spellings");
    symlink("a.x", format!("{folder}/link")).expect("a link");
    symlink("b.x", format!("{folder}/other")).expect("a link");
    symlink(&folder, format!("{folder}/again")).expect("a link");
    fs::write(format!("{folder}/b.x"), "old").expect("written");
    for (first, second) in [
        ("a.x", "a.x"),
        ("a.x", "./a.x"),
        ("again/a.x", "a.x"),
        ("link", "a.x"),
        ("again/link", "./link"),
        ("b.x", "b.x"),
        ("b.x", "./again/b.x"),
        ("other", "b.x"),
    ] {
        one_output(&folder, first, second);
    }
    assert_eq!(names(&folder), ["a.blk", "again", "b.x", "link", "other"]);
    let old = fs::read_to_string(format!("{folder}/b.x"));
    assert_eq!(old.expect("the old file"), "old");
}

/// An output that standard input comes from, or standard output or standard error goes to.
#[test]
fn over_a_standard_stream() {
    let folder = folder("streams");
    let block = format!("{folder}/a.blk");
    let [input, output, error] =
        ["a.blk", "output", "error"].map(|name| format!("{folder}/{name}"));
    let create = |path: &str| File::create(path).expect("a file");
    let [mut of_input, mut of_output, mut of_error] =
        [&input, &output, &error].map(|path| command(&["search", "-", "--csv", path]));
    let block = || File::open(&block).expect("a file");
    of_input.stdin(block());
    of_output.stdin(block()).stdout(create(&output));
    of_error.stdin(block()).stderr(create(&error));
    let said = |mut command: Command| {
        let ended = command.output().expect("the command starts");
        assert_eq!(ended.status.code(), Some(2));
        String::from_utf8(ended.stderr).expect("text")
    };
    let expected =
        |path: &str, stream: &str| one_file("search", &format!("--csv {path}"), stream).error;
    assert_eq!(said(of_input), expected(&input, "standard input"));
    assert_eq!(said(of_output), expected(&output, "standard output"));
    assert_eq!(said(of_error), "");
    let said_of_error = fs::read_to_string(&error).expect("the message");
    assert_eq!(said_of_error, expected(&error, "standard error"));
    assert_eq!(fs::read(input).expect("the block"), file(BLOCK));
}

/// An output over the list of inputs that a search is given.
#[test]
fn over_an_order() {
    let folder = folder("order");
    let [block, list] = ["a.blk", "cone"].map(|name| format!("{folder}/{name}"));
    fs::write(&list, "1 0").expect("written");
    let arguments = ["search", &block, "--order", &list, "--csv", &list];
    let (written, read) = (format!("--csv {list}"), format!("--order {list}"));
    assert_eq!(run(&arguments), one_file("search", &written, &read));
    assert_eq!(fs::read_to_string(&list).expect("the list"), "1 0");
}

/// A word of a pattern, or of an order, or a number, is no file.
#[test]
fn words_that_are_no_files() {
    let folder = folder("words");
    fs::write(format!("{folder}/bounds"), "old").expect("written");
    for arguments in [
        &["simulate", "a.blk", "lh", "lh", "--csv", "lh"][..],
        &["search", "a.blk", "--budget", "5", "--svg", "5"],
        &["search", "a.blk", "--order", "cone", "--svg", "cone"],
        &["search", "a.blk", "--order", "bounds", "--svg", "bounds"],
    ] {
        let ended = command(arguments).current_dir(&folder).output();
        assert!(ended.expect("the command starts").status.success());
    }
    assert_eq!(names(&folder), ["5", "a.blk", "bounds", "cone", "lh"]);
    let picture = fs::read_to_string(format!("{folder}/bounds")).expect("the picture");
    assert!(picture.starts_with("<svg "), "{picture}");
}

/// A file that has the name of an order is read where it is given with its folder, and not else.
#[test]
fn orders_by_a_word_or_a_file() {
    let folder = folder("names");
    fs::write(format!("{folder}/cone"), "1 0").expect("written");
    for (order, line) in [
        ("cone", "\nsplit order: cone (0 1)\n"),
        ("./cone", "\nsplit order: ./cone (1 0)\n"),
    ] {
        let arguments = ["search", "a.blk", "--order", order];
        let ended = command(&arguments).current_dir(&folder).output();
        let output = String::from_utf8(ended.expect("the command starts").stdout);
        assert!(output.expect("text").contains(line), "{order}");
    }
}

/// A file that exists is replaced, with its permissions, and where a link leads to it the link stays.
#[test]
fn replaced() {
    let folder = folder("replaced");
    let [block, old, link] = ["a.blk", "old.csv", "link"].map(|name| format!("{folder}/{name}"));
    fs::write(&old, "old").expect("written");
    fs::set_permissions(&old, PermissionsExt::from_mode(0o640)).expect("permissions");
    symlink("old.csv", &link).expect("a link");
    printed(&["envelope", &block, "--csv", &link]);
    let written = fs::read_to_string(&old).expect("the values");
    assert!(
        written.starts_with("tick,contact 0 ceiling (uA),"),
        "{written}"
    );
    assert_eq!(fs::read_link(&link).expect("a link"), Path::new("old.csv"));
    let mode = fs::metadata(&old).expect("a file").permissions().mode();
    assert_eq!(mode & 0o777, 0o640);
    assert_eq!(names(&folder), ["a.blk", "link", "old.csv"]);
}

/// Where a file cannot be written whole, here since none may have more than a kilobyte, the old one is as it was.
#[test]
fn whole_or_not_at_all() {
    let folder = folder("full");
    let [block, old] = ["a.blk", "old.csv"].map(|name| format!("{folder}/{name}"));
    fs::write(&old, "old").expect("written");
    let ended = Command::new("sh")
        .args(["-c", "ulimit -f 1; exec \"$0\" \"$@\""])
        .arg(env!("CARGO_BIN_EXE_zimgurav"))
        .args(["envelope", &block, "--csv", &old])
        .stdin(Stdio::null())
        .output()
        .expect("a shell");
    let error = String::from_utf8(ended.stderr).expect("text");
    assert_eq!(ended.status.code(), Some(2), "{error}");
    assert_eq!(error, format!("zimgurav: {old}: File too large\n"));
    assert_eq!(names(&folder), ["a.blk", "old.csv"]);
    assert_eq!(fs::read_to_string(&old).expect("the old file"), "old");
}

/// A link into a folder that is not there is told, and where no file can be made.
#[test]
fn places_where_nothing_can_be_written() {
    let folder = folder("nowhere");
    let [block, link] = ["a.blk", "link"].map(|name| format!("{folder}/{name}"));
    symlink("missing/x.csv", &link).expect("a link");
    let ended = run(&["envelope", &block, "--csv", &link]);
    let message = "it is a link into a folder that is not there";
    assert_eq!(ended.error, format!("zimgurav: {link}: {message}\n"));
    assert_eq!((ended.status, &ended.output[..]), (2, ""));
    let ended = run(&["envelope", &block, "--csv", "/proc/x.csv"]);
    let message = "zimgurav: /proc/x.csv: no file can be made in its folder: ";
    assert!(ended.error.starts_with(message), "{ended:?}");
    assert_eq!(ended.status, 2);
}

/// What is no file is written as it is: a pipe, here standard output.
#[test]
fn devices_and_pipes() {
    let ended = run_on(&file(BLOCK), &["envelope", "-", "--csv", "/dev/stdout"]);
    assert!(
        ended.output.contains("\ntick,contact 0 ceiling (uA),"),
        "{ended:?}"
    );
    assert_eq!((ended.status, &ended.error[..]), (0, ""));
}
