//! A page about a block: the numbers, the pictures and the tables of a search and of the envelope. It loads nothing
//! and has no script.

use std::iter;

use zimgurav::CONTACTS;

use crate::block::Block;
use crate::columns::Columns;
use crate::evaluation::{Drawn, Searched, Setting};
use crate::number::grouped;
use crate::picture::Picture;
use crate::sheet::Sheet;
use crate::summary::{self, Numbers};
use crate::svg;
use crate::xml::escaped;

/// How the page looks, on a screen and on paper.
const STYLE: &str = "
body { font: 15px/1.5 sans-serif; color: #1a1a1a; background: #fff; max-width: 66rem; margin: 2rem auto; padding: 0 1rem; }
h1 { font-size: 1.5rem; margin-bottom: 0.2rem; }
h2 { font-size: 1.2rem; margin-top: 2.2rem; border-bottom: 1px solid #ccc; }
table { border-collapse: collapse; margin: 1rem 0; }
th, td { padding: 0.15rem 0.8rem; vertical-align: top; border-bottom: 1px solid #e5e5e5; }
table.numbers th { text-align: left; font-weight: normal; color: #555; white-space: nowrap; }
table.columns th, table.columns td { text-align: right; font-variant-numeric: tabular-nums; }
svg { max-width: 100%; height: auto; }
summary { cursor: pointer; }
p.made { color: #555; margin-top: 2.5rem; }
@media print { body { margin: 0; } h2 { break-after: avoid; } tr, svg { break-inside: avoid; } }
";

/// The page about a search of the block and its envelope.
pub fn page(block: &Block, setting: &Setting, searched: &Searched, ceiling: &Drawn) -> String {
    let title = escaped(&format!("Supply current of {}", block.name));
    let size = block.size();
    let [values, order] =
        summary::search_setting(block, setting, searched).map(|line| escaped(&line));
    let mut pictures = [
        Picture::of_search(block, setting, searched),
        Picture::of_envelope(block, setting, ceiling),
    ];
    let greatest = pictures.iter().map(Picture::greatest).max();
    for picture in &mut pictures {
        picture.reaching = greatest.unwrap_or(0);
    }
    let [of_search, of_envelope] = pictures.map(|picture| svg::draw(&picture));
    let sections = [
        search_section(block, setting, searched) + &of_search,
        currents_section(block, searched, ceiling),
        section(
            "Envelope",
            &(numbers(&summary::of_envelope(ceiling)) + &of_envelope),
        ),
        pattern_section(block, searched),
        block_section(block),
        table_section(setting),
        sheet_section(block, &searched.ceiling),
    ];
    format!(
        "<!DOCTYPE html>\n<html lang=\"en\">\n<head>\n<meta charset=\"utf-8\"/>\n<title>{title}</title>\n\
         <style>{STYLE}</style>\n</head>\n<body>\n<h1>{title}</h1>\n<p>{size}<br/>{values}<br/>{order}</p>\n\
         {}<p class=\"made\">Made by zimgurav, version {} of the calls. \
         Every current and every drop is an answer of the proved library.</p>\n</body>\n</html>\n",
        sections.concat(),
        zimgurav::VERSION,
    )
}

fn search_section(block: &Block, setting: &Setting, searched: &Searched) -> String {
    let numbers = numbers(&summary::of_search(block, setting, searched));
    let remark = "<p>For the drop, use U; for the currents, the sheet. The sheet takes its words from different \
                  cases, so that its own drop may be above U.</p>\n";
    section("Search", &(numbers + remark))
}

/// The greatest currents of all sheets, side by side.
fn currents_section(block: &Block, searched: &Searched, ceiling: &Drawn) -> String {
    let sheets = [
        ("search, at most", &searched.ceiling),
        ("worst pattern found", &searched.simulated.sheet),
        ("envelope, at most", &ceiling.sheet),
    ];
    let columns = columns(&summary::greatest_currents(block, &sheets));
    section("Greatest current of each contact", &columns)
}

/// The excitation of each input.
fn pattern_section(block: &Block, searched: &Searched) -> String {
    let words = searched.pattern.words().enumerate();
    let rows = words.map(|(net, word)| vec![block.net(net), word.to_string()]);
    let inputs = Columns {
        headings: vec!["input".to_string(), "excitation".to_string()],
        rows: rows.collect(),
    };
    section(
        "Worst pattern found",
        &folded("The inputs, one by one", &columns(&inputs)),
    )
}

fn block_section(block: &Block) -> String {
    let nets = summary::nets(block).into_iter();
    let nets: String = nets
        .map(|net| format!("<li>{}</li>\n", escaped(&net)))
        .collect();
    let nets = format!("<ul>\n{nets}</ul>\n");
    let numbers = numbers(&summary::of_block(block));
    section("Block", &(numbers + &folded("The nets, one by one", &nets)))
}

/// The resistances of the bus nodes.
fn table_section(setting: &Setting) -> String {
    let headings = (0..CONTACTS).map(|contact| contact.to_string());
    let nodes = setting.table.resistances.chunks(CONTACTS).enumerate();
    let rows = nodes.map(|(node, resistances)| {
        let resistances = resistances.iter().map(u16::to_string);
        iter::once(node.to_string()).chain(resistances).collect()
    });
    let resistances = Columns {
        headings: iter::once("node".to_string()).chain(headings).collect(),
        rows: rows.collect(),
    };
    section(
        "Resistances of the bus nodes to the contacts, in milliohms",
        &columns(&resistances),
    )
}

/// The microamperes of the used contacts, tick by tick.
fn sheet_section(block: &Block, sheet: &Sheet) -> String {
    let contacts = block.contacts();
    let headings = contacts.iter().map(|contact| format!("contact {contact}"));
    let rows = (0..=sheet.quiet as usize).map(|tick| {
        let currents = contacts.iter().map(|contact| sheet.row(*contact)[tick]);
        let currents = currents.map(grouped);
        iter::once(tick.to_string()).chain(currents).collect()
    });
    let ticks = Columns {
        headings: iter::once("tick".to_string()).chain(headings).collect(),
        rows: rows.collect(),
    };
    section(
        "Sheet of the search, in microamperes",
        &folded("The ticks, one by one", &columns(&ticks)),
    )
}

fn section(heading: &str, contents: &str) -> String {
    format!("<h2>{heading}</h2>\n{contents}")
}

/// Contents that a reader unfolds.
fn folded(title: &str, contents: &str) -> String {
    format!("<details>\n<summary>{title}</summary>\n{contents}</details>\n")
}

fn numbers(numbers: &Numbers) -> String {
    let rows = numbers.iter().map(|(name, words)| {
        let words = match *name {
            "pattern" => format!("<code>{}</code>", escaped(words)),
            _ => escaped(words),
        };
        format!("<tr><th>{name}</th><td>{words}</td></tr>\n")
    });
    let rows: String = rows.collect();
    format!("<table class=\"numbers\">\n{rows}</table>\n")
}

fn columns(columns: &Columns) -> String {
    let rows = columns.rows.iter().map(|row| line("td", row));
    let rows: String = iter::once(line("th", &columns.headings))
        .chain(rows)
        .collect();
    format!("<table class=\"columns\">\n{rows}</table>\n")
}

/// A row of a table, with its words in such cells.
fn line(cell: &str, words: &[String]) -> String {
    let cells = words.iter().map(|word| {
        let word = escaped(word);
        format!("<{cell}>{word}</{cell}>")
    });
    let cells: String = cells.collect();
    format!("<tr>{cells}</tr>\n")
}
