//! What the documents show of the command: every `$ zimgurav` on them prints what stands after it.

use std::fs;
use std::os::unix::fs::symlink;
use std::path::Path;

use crate::run::{command, file, printed, root, run_on, scratch, text};

/// The documents, and how many commands each shows with what it prints.
const DOCUMENTS: [(&str, usize); 3] = [
    ("README.md", 1),
    ("docs/REFERENCE.md", 2),
    ("examples/README.md", 2),
];

/// The commands of a document, each with the lines that it is said to print.
fn shown(document: &str) -> Vec<(String, String)> {
    let mut shown: Vec<(String, String)> = Vec::new();
    let mut inside = false;
    for line in document.lines() {
        if let Some(command) = line.strip_prefix("    $ ") {
            inside = command.starts_with("zimgurav ");
            if inside {
                shown.push((command.to_string(), String::new()));
            }
        } else if inside && (line.is_empty() || line.starts_with("    ")) {
            let (_, lines) = shown.last_mut().expect("a command");
            *lines += line.get(4..).unwrap_or_default();
            *lines += "\n";
        } else {
            inside = false;
        }
    }
    shown
}

/// The command prints the lines that a document says it does.
#[track_caller]
fn prints(path: &str, command: &str, lines: &str) {
    let words: Vec<&str> = command.split(' ').skip(1).collect();
    let now = printed(&words);
    assert_eq!(now.trim_end(), lines.trim_end(), "{path}: {command}");
}

#[test]
fn show_what_is_printed() {
    for (path, count) in DOCUMENTS {
        let commands = shown(&text(path));
        assert_eq!(commands.len(), count, "{path}");
        let commands = commands.iter();
        commands.for_each(|(command, lines)| prints(path, command, lines));
    }
}

/// The commands of README, from the netlist to the page, can be given as they stand there.
#[test]
fn commands_of_the_readme() {
    let folder = scratch("readme");
    fs::create_dir_all(&folder).expect("a folder");
    let link = Path::new(&folder).join("examples");
    symlink(root().join("examples"), &link).expect("a link");
    let page = text("README.md");
    let lines = page
        .lines()
        .filter_map(|line| line.strip_prefix("    zimgurav "));
    let commands: Vec<&str> = lines.filter_map(|line| line.split(" #").next()).collect();
    assert!(commands.len() > 6, "{commands:?}");
    for line in commands {
        let words: Vec<&str> = line.split_whitespace().collect();
        let ended = command(&words).current_dir(&folder).output();
        let ended = ended.expect("the command starts");
        assert!(
            ended.status.success(),
            "{line}: {}",
            String::from_utf8_lossy(&ended.stderr)
        );
    }
    for written in [
        "c17.blk",
        "c17.svg",
        "adder24.svg",
        "adder24.html",
        "worst.txt",
    ] {
        assert!(Path::new(&folder).join(written).is_file(), "{written}");
    }
}

/// What the reference page shows of a refusal of a file, as the command says it of standard input.
fn shown_refusal(name: &str) -> String {
    let page = text("docs/REFERENCE.md");
    let beginning = format!("    zimgurav: {name}: ");
    let (_, refusal) = page.split_once(&beginning).expect("a refusal");
    let (refusal, _) = refusal.split_once("\n\n").expect("its end");
    let refusal = refusal.replace("\n    ", "\n");
    format!("zimgurav: standard input: {refusal}\n")
}

/// The refusals that the reference page shows are those that the command says.
#[test]
fn show_refusals() {
    let mut block = file("examples/block_f.blk");
    block[64] = 3;
    let ended = run_on(&block, &["read", "-"]);
    assert_eq!(ended.error, shown_refusal("block.blk"));
    let (block, cells) = ("examples/rotate8.bench", "examples/cells.txt");
    let arguments = ["search", block, "--cells", cells, "--order", "-"];
    let ended = run_on(b"s0 s1\ns0 d0 d1 d2 d3 d4 d5 d6 d7\n", &arguments);
    assert_eq!(ended.error, shown_refusal("order.txt"));
}

/// The list of inputs that the reference page shows is one that a search takes.
#[test]
fn show_an_order() {
    let page = text("docs/REFERENCE.md");
    let (_, list) = page
        .split_once("one for `examples/rotate8.bench`:\n\n")
        .expect("a list");
    let (list, _) = list.split_once("\n\n").expect("its end");
    let (block, cells) = ("examples/rotate8.bench", "examples/cells.txt");
    let arguments = ["search", block, "--cells", cells, "--order", "-"];
    let ended = run_on(list.as_bytes(), &arguments);
    let order = "\nsplit order: standard input (s0 s1 s2 d0 d1 d2 d3 d4 d5 d6 d7)\n";
    assert!(ended.output.contains(order), "{ended:?}");
}

/// The figures that the reference page has of the two lists, where the block is one of the examples.
#[test]
fn show_what_a_list_is_worth() {
    let page = text("docs/REFERENCE.md");
    let (_, table) = page.split_once("| exact after |\n").expect("a table");
    let (table, _) = table.split_once("\n\n").expect("its end");
    let rows = table.lines().filter(|line| line.starts_with("| `"));
    let rows: Vec<Vec<&str>> = rows.map(|row| row.split(" | ").collect()).collect();
    assert_eq!(rows.len(), 6);
    rows.iter().for_each(|row| figures_are_right(row));
}

/// A row has U after 50, 200 and 1,000 splits, and after how many the search was exact.
#[track_caller]
fn figures_are_right(row: &[&str]) {
    let block = row[0].split('`').nth(1).expect("a block");
    let block = format!("examples/{block}");
    let cells: &[&str] = match block.ends_with(".bench") {
        true => &["--cells", "examples/cells.txt"],
        false => &[],
    };
    let order = row[1].trim_matches('`');
    for (budget, upper) in ["50", "200", "1000"].iter().zip(&row[2..]) {
        let arguments = ["search", &block, "--order", order, "--budget", budget];
        let answer = printed(&[&arguments[..], cells].concat());
        let shown = format!("\nU            {upper} nV");
        assert!(answer.contains(&shown), "{row:?}: {answer}");
        let exact = answer.contains("\noutcome      exact ");
        let splits = format!("\nsplits       {}\n", row[5].trim_end_matches(" |"));
        let ended = if *budget == "1000" {
            row[5] != "- |"
        } else {
            exact
        };
        assert_eq!(exact, ended, "{row:?}: {answer}");
        assert!(!exact || answer.contains(&splits), "{row:?}: {answer}");
    }
}

/// The reference page has every subcommand and every option of it.
#[test]
fn list_the_options() {
    let page = text("docs/REFERENCE.md");
    let (_, section) = page
        .split_once("## The command `zimgurav`")
        .expect("the section");
    let (section, _) = section.split_once("\n## ").expect("its end");
    let whole = printed(&["--help"]);
    let names = listed(&whole, " ");
    assert_eq!(names.len(), 7);
    let missing = names
        .iter()
        .find(|name| !section.contains(&format!("| `{name}")));
    assert_eq!(missing, None);
    let helps: Vec<String> = names
        .iter()
        .map(|name| printed(&[name, "--help"]))
        .collect();
    let options: Vec<&str> = helps.iter().flat_map(|help| listed(help, "  ")).collect();
    assert_eq!(options.len(), 37);
    let missing = options
        .iter()
        .find(|option| !section.contains(&format!("`{option}`")));
    assert_eq!(missing, None);
}

/// The beginnings of the lines that are indented, up to a mark.
fn listed<'a>(help: &'a str, mark: &str) -> Vec<&'a str> {
    let lines = help.lines().filter_map(|line| line.strip_prefix("  "));
    let beginnings = lines.filter_map(|line| line.split(mark).next());
    beginnings.map(str::trim_end).collect()
}
