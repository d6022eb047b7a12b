//! docs/TRACE.md both ways: every name that it cites is there, every heading and refusal of document 01 has
//! its rows, and so has all public code of the crates.

use std::collections::BTreeSet;

use check::repository::crates;
use check::trace::{code, rows, Row, PARTS};

/// The headings of document 01 that say what binds us, and the change requests.
const HEADINGS: [&str; 17] = [
    "The block file",
    "Refusals in checking order",
    "Excitations and sets",
    "Levels and simulation",
    "Envelope",
    "Search",
    "Program",
    "Examples, starred ones proved",
    "Traps of this method",
    "List of forms by place",
    "What the checker must hold us to",
    "Request 1: bench netlists",
    "Request 2: one pass for both edges",
    "Request 3: the quiet tick to the tick",
    "Request 4: nearest, half to even",
    "Request 5: overlapping pulses add",
    "Request 6: split order from the bounds",
];

/// The names of a row that are nowhere, and items with a name but no kind, whose names nobody looks up.
fn wrong(row: &Row) -> Vec<String> {
    let cited = row.citations().into_iter();
    let nowhere = cited.filter(|each| each.line.is_none());
    let mut wrong: Vec<String> = nowhere.map(|each| each.name).collect();
    let items = row.right.split("; ").filter(|item| item.contains('`'));
    for right in items.map(str::to_string) {
        let item = sentence(&right);
        if !row.left.starts_with('`') && item.citations().is_empty() {
            wrong.push(right);
        }
    }
    wrong
}

/// A row of the first part with these items.
fn sentence(right: &str) -> Row {
    Row {
        section: String::new(),
        left: String::new(),
        right: right.to_string(),
    }
}

#[test]
fn every_name_is_there() {
    let rows: Vec<Row> = PARTS.into_iter().flat_map(rows).collect();
    let wrong: Vec<String> = rows.iter().flat_map(wrong).collect();
    assert!(wrong.is_empty(), "{wrong:#?}");
    let cited: usize = rows.iter().map(|row| row.citations().len()).sum();
    assert!(cited > 500, "{cited} names");
}

#[test]
fn every_heading_and_refusal_has_its_rows() {
    let rows = rows(PARTS[0]);
    let sections: BTreeSet<&str> = rows.iter().map(|row| row.section.as_str()).collect();
    assert_eq!(sections, BTreeSet::from(HEADINGS));
    for number in 1..=16 {
        let mut refusals = rows.iter().filter(|row| row.section == HEADINGS[1]);
        let row = refusals.find(|row| row.left.starts_with(&format!("{number}. ")));
        assert!(row.is_some_and(|row| row.citations().len() > 1), "{number}");
    }
}

/// A row of the second part has words of document 01, or says what it is a part of.
#[test]
fn all_public_code_has_its_row() {
    let code = crates().into_iter().flat_map(|(name, _)| code(&name));
    let code = code.filter(|code| code.public);
    let public: BTreeSet<String> = code.map(|code| code.path).collect();
    let rows = rows(PARTS[1]);
    let cited = rows.iter().flat_map(|row| row.citations());
    let listed: BTreeSet<String> = cited.map(|each| each.name.replace("code ", "")).collect();
    let missing: Vec<&String> = public.difference(&listed).collect();
    assert!(missing.is_empty(), "no row for {missing:#?}");
    for row in rows {
        let whole = |path: &str| public.contains(path.trim_matches('`'));
        let part = row.right.strip_prefix("part of ");
        let is_part = part.is_some_and(|part| part.split(" and ").all(whole));
        assert!(is_part || row.right.starts_with('"'), "{}", row.left);
    }
}

#[test]
fn a_name_that_is_nowhere_is_seen() {
    let row = sentence(
        "def `block` `Record` `net_count`, `byte_at`, `Kind` `rule_of` (how); law `block` `Record` `net_count`; \
         promise `block::record::Record::word`, `wordy`; code `block::Net::start`, `stop`; the view: `block::View`; \
         edit `block` `kind_10_known`, `kind_11_known`; test `read.rs` `order::*`, `ranges::delay`, `order`",
    );
    let expected = [
        "law block Record net_count",
        "promise block::record::Record::wordy",
        "code block::Net::stop",
        "edit block kind_11_known",
        "test read.rs ranges::order",
        "the view: `block::View`",
    ];
    assert_eq!(wrong(&row), expected);
    assert_eq!(row.citations().len(), 13);
}
