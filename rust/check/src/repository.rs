//! The files of the repository, for tests that read its text.

use std::fs;
use std::path::{Path, PathBuf};

/// The repository's root.
pub fn root() -> &'static Path {
    Path::new(concat!(env!("CARGO_MANIFEST_DIR"), "/../.."))
}

/// The text of a file below the root.
pub fn text(path: impl AsRef<Path>) -> String {
    let path = root().join(path);
    fs::read_to_string(&path).unwrap_or_else(|error| panic!("{}: {error}", path.display()))
}

/// The crates that `crates.txt` lists, lowest first, each with those that it may cite.
pub fn crates() -> Vec<(String, Vec<String>)> {
    let lines = text("crates.txt");
    let lines = lines.lines().filter(|line| !line.starts_with('#'));
    let crates = lines.filter_map(|line| line.split_once(':'));
    let words = |words: &str| words.split_whitespace().map(str::to_string).collect();
    crates
        .map(|(head, cited)| {
            let name = head.strip_suffix(" staticlib").unwrap_or(head);
            (name.to_string(), words(cited))
        })
        .collect()
}

/// The files below a folder with one of these extensions, in order, by their paths from the root. What `rt`
/// makes in a crate's `out` is none of them.
pub fn files(folder: impl AsRef<Path>, extensions: &[&str]) -> Vec<PathBuf> {
    let mut files = Vec::new();
    let Ok(entries) = fs::read_dir(root().join(&folder)) else {
        return files;
    };
    for entry in entries {
        let entry = entry.expect("an entry of a folder");
        let path = folder.as_ref().join(entry.file_name());
        let extension = path.extension().and_then(|extension| extension.to_str());
        if entry.path().is_dir() {
            if !path.ends_with("out") {
                files.extend(self::files(path, extensions));
            }
        } else if extension.is_some_and(|extension| extensions.contains(&extension)) {
            files.push(path);
        }
    }
    files.sort();
    files
}

/// Whether a line of a definitions' or a proofs' file declares the name: as a definition, a law, a record
/// or a field, whatever marks stand before it.
pub fn declares(line: &str, name: &str) -> bool {
    const MARKS: [&str; 5] = ["unfoldable", "abbrev", "pub", "record", "data"];
    let mut words = line.split_whitespace();
    let before = words.by_ref().find(|word| !MARKS.contains(word));
    before == Some(name) && words.any(|word| word == ":")
}
