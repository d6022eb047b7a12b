//! docs/THEOREMS.md: every name that it lists is declared in a file that stands beside it.

use check::repository::{declares, text};

/// The words of a cell that stand between backquotes.
fn quoted(cell: &str) -> Vec<&str> {
    cell.split('`').skip(1).step_by(2).collect()
}

/// Whether a quoted word is a file's path below `crates/`.
fn is_path(word: &str) -> bool {
    word.ends_with(".antt") || word.ends_with(".rt")
}

/// Whether a file below `crates/` declares the name: in the code as a function or a struct.
fn is_in(path: &str, name: &str) -> bool {
    let code = ["fn NAME(", "fn NAME<", "struct NAME(", "struct NAME {"]
        .map(|form| form.replace("NAME", name));
    text(format!("crates/{path}")).lines().any(|line| {
        if path.ends_with(".rt") {
            code.iter().any(|declared| line.contains(declared.as_str()))
        } else {
            declares(line, name)
        }
    })
}

/// The names of a row, each with the files in which it may be: those of the first cell with the files of
/// the second, and in the other cells a name that has its file in parentheses behind it.
fn listed(row: &str) -> Vec<(&str, Vec<&str>)> {
    let cells: Vec<&str> = row.split(" | ").collect();
    let [names, files, others @ ..] = &cells[..] else {
        return Vec::new();
    };
    let files: Vec<&str> = quoted(files);
    if files.is_empty() || !files.iter().all(|file| is_path(file)) {
        return Vec::new();
    }
    let mut listed: Vec<(&str, Vec<&str>)> = quoted(names)
        .into_iter()
        .map(|name| (name, files.clone()))
        .collect();
    for cell in others {
        let parts: Vec<&str> = cell.split('`').collect();
        for place in (3..parts.len()).step_by(2) {
            if is_path(parts[place]) && parts[place - 1] == " (" {
                listed.push((parts[place - 2], vec![parts[place]]));
            }
        }
    }
    listed
}

/// The names of a text that are in none of their files, and how many names it lists.
fn missing(page: &str) -> (Vec<String>, usize) {
    let listed: Vec<_> = page.lines().flat_map(listed).collect();
    let nowhere = listed
        .iter()
        .filter(|(name, files)| !files.iter().any(|file| is_in(file, name)));
    let missing = nowhere.map(|(name, files)| format!("{name} in {files:?}"));
    (missing.collect(), listed.len())
}

#[test]
fn every_name_is_there() {
    let (missing, names) = missing(&text("docs/THEOREMS.md"));
    assert!(missing.is_empty(), "{missing:#?}");
    assert!(names > 150, "{names} names");
}

#[test]
fn a_name_that_is_nowhere_is_seen() {
    let page = "\
| name | file | what it says |
| `soundness`, `sound` | `envelope/proofs/Soundness.antt` | No more. |
| `read`, `Net`, `Nets` | `block/src/lib.rt` | `read_of` (`block/specs/Refusals.antt`), `reads_of` (`block/specs/Refusals.antt`). |
";
    let (missing, names) = missing(page);
    let expected = [
        "sound in [\"envelope/proofs/Soundness.antt\"]",
        "Nets in [\"block/src/lib.rt\"]",
        "reads_of in [\"block/specs/Refusals.antt\"]",
    ];
    assert_eq!(missing, expected);
    assert_eq!(names, 7);
}
