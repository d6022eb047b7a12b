//! Pictures and pages: well-formed, with nothing from elsewhere, and those of the documents as the command draws them.

use std::collections::BTreeSet;
use std::fs;

use crate::markup::well_formed;
use crate::run::{lone_input, printed, root, run_on, scratch, text};

/// The blocks of the examples, as operands.
const BLOCKS: [&[&str]; 5] = [
    &["examples/block_s.blk"],
    &["examples/block_f.blk"],
    &["examples/adder24.blk"],
    &["examples/c17.bench", "--cells", "examples/cells.txt"],
    &["examples/rotate8.bench", "--cells", "examples/cells.txt"],
];

/// The text that a command writes to the file of its last option.
fn written(arguments: &[&str], name: &str) -> String {
    let path = scratch(name);
    printed(&[arguments, &[&path]].concat());
    fs::read_to_string(path).expect("what was written")
}

/// It is well-formed, and neither runs nor loads anything.
fn stands_alone(markup: &str, what: &str) {
    assert_eq!(well_formed(markup), Ok(()), "{what}");
    for loading in [
        "<script",
        "<link",
        "<img",
        "src=",
        "href",
        "url(",
        "@import",
        "javascript",
    ] {
        assert!(!markup.contains(loading), "{what} has {loading}");
    }
    let addresses = markup.matches("http").count();
    let names = markup
        .matches("xmlns=\"http://www.w3.org/2000/svg\"")
        .count();
    assert_eq!(addresses, names, "{what}");
}

#[test]
fn pictures_stand_alone() {
    let calls = BLOCKS.map(|block| ["envelope", "search"].map(|name| [&[name], block].concat()));
    for call in calls.as_flattened() {
        let arguments = [&call[..], &["--svg"]].concat();
        let picture = written(&arguments, "picture.svg");
        stands_alone(&picture, &format!("{arguments:?}"));
    }
    let simulate = ["simulate", "examples/block_f.blk", "lh", "lh", "--svg"];
    stands_alone(&written(&simulate, "simulated.svg"), "a simulation");
}

#[test]
fn pages_stand_alone() {
    for block in BLOCKS {
        let arguments = [&["report"], block, &["-o"]].concat();
        let page = written(&arguments, "page.html");
        stands_alone(&page, &format!("{arguments:?}"));
        assert_eq!(page.matches("<svg ").count(), 2, "{block:?}");
    }
}

/// A block without gates has a picture and a page too.
#[test]
fn without_gates() {
    let path = scratch("no-gates.html");
    let ended = run_on(&lone_input(), &["report", "-", "-o", &path]);
    assert_eq!((ended.status, &ended.error[..]), (0, ""));
    let page = fs::read_to_string(path).expect("the page");
    stands_alone(&page, "a page without gates");
    assert!(page.contains("The block has no gates"));
    let ended = run_on(&lone_input(), &["search", "-"]);
    assert!(ended
        .output
        .ends_with("pattern      lh\n\ncontact   at most   at tick   pattern   at tick\n"));
}

/// Names that have to be escaped.
#[test]
fn names_are_escaped() {
    let path = scratch("a <b> & \"c\".blk");
    fs::copy(root().join("examples/block_s.blk"), &path).expect("a copy");
    stands_alone(
        &written(&["search", &path, "--svg"], "escaped.svg"),
        "a picture",
    );
    let page = written(&["report", &path, "-o"], "escaped.html");
    stands_alone(&page, "a page");
    assert!(page.contains("a &lt;b&gt; &amp; &quot;c&quot;.blk"));
}

/// What a page says is what the subcommands print.
#[test]
fn a_page_has_the_numbers() {
    let page = written(&["report", "examples/adder24.blk", "-o"], "adder24.html");
    let page = page.replace("<code>", "").replace("</code>", "");
    let outputs =
        ["search", "envelope", "read"].map(|name| printed(&[name, "examples/adder24.blk"]));
    let rows: Vec<String> = outputs
        .iter()
        .flat_map(|output| rows_of_numbers(output))
        .collect();
    assert_eq!(rows.len(), 8 + 2 + 5);
    let missing = rows.iter().find(|row| !page.contains(*row));
    assert_eq!(missing, None);
}

/// The list of inputs stands on the page whole, and on the picture as far as there is room; in what is printed it is
/// wrapped.
#[test]
fn the_order_is_shown() {
    let order = ["search", "examples/adder24.blk", "--order", "bounds"];
    let page = [&["report"], &order[1..], &["-o"]].concat();
    let page = written(&page, "order.html");
    let picture = written(&[&order[..], &["--svg"]].concat(), "order.svg");
    let printed = printed(&order);
    let (_, list) = printed.split_once("\nsplit order: ").expect("the list");
    let (list, _) = list.split_once("\n\n").expect("its end");
    assert_eq!(list.lines().count(), 2, "{list}");
    let line = format!("split order: {}", list.replace("\n  ", " "));
    assert!(page.contains(&format!("<br/>{line}</p>")), "{line}");
    let beginning = format!(">{}", line.split_at(50).0);
    assert!(picture.contains(&beginning), "{beginning}");
    assert!(page.contains(&beginning), "{beginning}");
}

/// The rows in which a page has the numbers that a subcommand prints after their names.
fn rows_of_numbers(output: &str) -> Vec<String> {
    let lines = output.lines().filter_map(|line| line.split_once("   "));
    let numbers = lines.filter(|(name, _)| !name.trim().is_empty() && *name != "contact");
    let rows = numbers
        .map(|(name, words)| format!("<tr><th>{}</th><td>{}</td></tr>", name.trim(), words.trim()));
    rows.collect()
}

/// The tables of a page have the words that the subcommands print.
#[test]
fn a_page_has_the_tables() {
    let (block, pattern) = ("examples/adder24.blk", scratch("pattern.txt"));
    let page = written(&["report", block, "-o"], "tables.html");
    let searched = printed(&["search", block, "--pattern", &pattern]);
    let enveloped = printed(&["envelope", block]);
    let envelopes: Vec<Vec<&str>> = rows_of_contacts(&enveloped).collect();
    let greatest = rows_of_contacts(&searched)
        .zip(envelopes)
        .map(|(row, envelope)| {
            let words = [row, envelope[1..].to_vec()].concat();
            let cells: Vec<String> = words
                .iter()
                .map(|word| format!("<td>{word}</td>"))
                .collect();
            cells.concat()
        });
    let greatest: Vec<String> = greatest.collect();
    assert_eq!(greatest.len(), 12);
    let pattern = fs::read_to_string(pattern).expect("the pattern");
    let inputs = pattern.lines().filter_map(|line| {
        let (word, net) = line.split_once(" # ")?;
        Some(format!("<td>{net}</td><td>{}</td>", word.trim()))
    });
    let ticks = [
        "<td>1</td><td>260</td><td>280</td>",
        "<td>51</td><td>0</td><td>0</td>",
    ];
    let ticks = ticks.map(str::to_string);
    for row in greatest.into_iter().chain(inputs).chain(ticks) {
        assert!(page.contains(&format!("<tr>{row}")), "{row}");
    }
    assert!(!page.contains("<td>52</td><td>0</td>"));
}

/// The words of the lines that a subcommand prints of contacts, without those of the headings.
fn rows_of_contacts(printed: &str) -> impl Iterator<Item = Vec<&str>> {
    let (_, lines) = printed.split_once("\ncontact ").expect("the headings");
    let rows = lines.lines().skip(1);
    rows.map(|line| {
        line.split("  ")
            .map(str::trim)
            .filter(|word| !word.is_empty())
            .collect()
    })
}

/// The pictures of the documents are those that the commands beside them draw, and no others.
#[test]
fn pictures_of_the_documents() {
    let page = text("docs/pictures/README.md");
    let commands = page
        .lines()
        .filter_map(|line| line.strip_prefix("    zimgurav "));
    let mut drawn = BTreeSet::from(["README.md".to_string()]);
    for command in commands {
        let words: Vec<&str> = command.split(' ').collect();
        let (path, arguments) = words.split_last().expect("a file");
        let picture = written(arguments, "document.svg");
        assert!(picture == text(path), "{command}");
        drawn.insert(path.replace("docs/pictures/", ""));
    }
    let entries = fs::read_dir(root().join("docs/pictures")).expect("a folder");
    let files = entries.map(|entry| entry.expect("a file").file_name().into_string());
    let files: Result<BTreeSet<String>, _> = files.collect();
    assert_eq!(files.expect("text"), drawn);
    assert!(drawn.len() > 4, "{drawn:?}");
}
