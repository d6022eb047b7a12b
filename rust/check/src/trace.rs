//! docs/TRACE.md: its rows, and the lines of the repository that the names in them stand for.

use std::fmt;
use std::path::{Path, PathBuf};

use crate::repository::{declares, files, root, text};

/// The headings of the two parts.
pub const PARTS: [&str; 2] = [
    "From document 01 to the code",
    "From the code to document 01",
];

/// The heads of the tables.
const HEADS: [&str; 3] = [
    "| document 01 | held by |",
    "| the request | held by |",
    "| code | document 01 |",
];

/// The kinds of names, and how many parts each has in full: crate, file and name; crate or file, and
/// name; a path.
const KINDS: [(&str, usize); 8] = [
    ("def", 3),
    ("law", 3),
    ("example", 3),
    ("edit", 2),
    ("test", 2),
    ("promise", 1),
    ("code", 1),
    ("file", 1),
];

/// A row of a table: the section that it stands in, and its two cells.
pub struct Row {
    pub section: String,
    pub left: String,
    pub right: String,
}

/// A name that a row cites, in full, with the file and line that it stands for.
pub struct Citation {
    pub name: String,
    pub line: Option<(PathBuf, usize)>,
}

impl fmt::Display for Citation {
    fn fmt(&self, f: &mut fmt::Formatter) -> fmt::Result {
        match &self.line {
            Some((file, line)) => write!(f, "{}:{line}: {}", file.display(), self.name),
            None => write!(f, "nowhere: {}", self.name),
        }
    }
}

/// The rows of a part.
pub fn rows(part: &str) -> Vec<Row> {
    let (trace, heading) = (text("docs/TRACE.md"), format!("\n# {part}\n"));
    let (_, rest) = trace.split_once(&heading).expect("the part's heading");
    let mut section = "";
    let mut rows = Vec::new();
    for line in rest.lines().take_while(|line| !line.starts_with("# ")) {
        section = line.strip_prefix("## ").unwrap_or(section);
        if line.starts_with("| ") && !HEADS.contains(&line) {
            let (left, right) = line.split_once(" | ").expect("two cells");
            rows.push(Row {
                section: section.to_string(),
                left: left.trim_start_matches("| ").to_string(),
                right: right.trim_end_matches(" |").to_string(),
            });
        }
    }
    rows
}

impl Row {
    /// The names that the row cites: the code that it is about, or what holds its sentence. An item is its
    /// kind, then names with commas between them, then perhaps words in parentheses.
    pub fn citations(&self) -> Vec<Citation> {
        let code = format!("code {}", self.left);
        let about_code = self.left.starts_with('`');
        let items = if about_code { &code } else { &self.right };
        let mut cited = Vec::new();
        for item in items.split("; ") {
            let item = item.split(" (").next().unwrap_or(item);
            let (kind, names) = item.split_once(' ').unwrap_or((item, ""));
            let kind = kind.trim_end_matches('s');
            if let Some((_, length)) = KINDS.iter().find(|(each, _)| *each == kind) {
                let names = full_names(names, *length).into_iter();
                cited.extend(names.map(|name| Citation {
                    line: line_of(kind, &name),
                    name: format!("{kind} {}", name.join(" ")),
                }));
            }
        }
        cited
    }
}

/// The names in full, each of so many parts: a later one leaves out the parts, and of its last part the
/// path, that are as before.
fn full_names(names: &str, length: usize) -> Vec<Vec<String>> {
    let mut all: Vec<Vec<String>> = Vec::new();
    for name in names.split(", ") {
        let parts = name.split('`').skip(1).step_by(2).map(str::to_string);
        let mut parts: Vec<String> = parts.collect();
        if let (Some(before), [last]) = (all.last(), &mut parts[..]) {
            let path = before.last().and_then(|part| part.rsplit_once("::"));
            if let (Some((path, _)), false) = (path, last.contains("::")) {
                *last = format!("{path}::{last}");
            }
        }
        let mut full = all.last().cloned().unwrap_or_default();
        full.truncate(length.saturating_sub(parts.len()));
        full.extend(parts);
        all.push(full);
    }
    all
}

/// The line that a name in full stands for.
fn line_of(kind: &str, name: &[String]) -> Option<(PathBuf, usize)> {
    let there = |path: String| root().join(&path).is_file().then(|| PathBuf::from(path));
    let first = |path: PathBuf| (path, 1);
    let parts: Vec<&str> = name.iter().map(String::as_str).collect();
    match (kind, &parts[..]) {
        ("def" | "law" | "example", [of, file, name]) => {
            let folder = if kind == "law" { "proofs" } else { "specs" };
            let path = there(format!("crates/{of}/{folder}/{file}.antt"))?;
            let at = text(&path).lines().position(|line| declares(line, name))?;
            Some((path, at + 1))
        }
        ("edit", [of, name]) => there(format!("crates/{of}/must-fail/{name}.edit")).map(first),
        ("file", [path]) => there(path.to_string()).map(first),
        ("test", [file, name]) => {
            let path = there(format!("rust/check/tests/{file}"))?;
            place_of(name, declarations(&path, ""))
        }
        (_, [path]) => place_of(path, code(path.split("::").next()?)),
        _ => None,
    }
}

fn place_of(path: &str, code: Vec<Code>) -> Option<(PathBuf, usize)> {
    let named = code.into_iter().find(|each| each.path == path);
    named.map(|each| each.line)
}

/// A function, method, struct or enum, by its path; a module, or what implements a type, with `*`.
pub struct Code {
    pub path: String,
    pub public: bool,
    line: (PathBuf, usize),
}

/// The code of a crate.
pub fn code(of: &str) -> Vec<Code> {
    let mut code = Vec::new();
    for file in files(format!("crates/{of}/src"), &["rt"]) {
        let module = match file.file_stem().and_then(|stem| stem.to_str()) {
            Some("lib" | "main") | None => String::new(),
            Some(stem) => format!("{stem}::"),
        };
        code.extend(declarations(&file, &format!("{of}::{module}")));
    }
    code
}

/// What a file of code declares, by paths that begin with that of the file.
fn declarations(file: &Path, begin: &str) -> Vec<Code> {
    let mut scope = String::new();
    let mut code = Vec::new();
    for (at, line) in text(file).lines().enumerate() {
        let words = line.trim_start().trim_start_matches("pub ");
        let words = words.trim_start_matches("extern \"C\" ");
        let (word, rest) = words.split_once(' ').unwrap_or((words, ""));
        let end = rest.find(|each: char| !each.is_alphanumeric() && each != '_');
        let mut name = &rest[..end.unwrap_or(rest.len())];
        match word.split('<').next().unwrap_or(word) {
            "mod" | "impl" if line.ends_with('{') => {
                scope = format!("{name}::");
                name = "*";
            }
            "fn" | "struct" | "enum" => {}
            _ => {
                if line == "}" {
                    scope.clear();
                }
                continue;
            }
        }
        code.push(Code {
            path: format!("{begin}{scope}{name}"),
            public: line.trim_start().starts_with("pub "),
            line: (file.to_path_buf(), at + 1),
        });
    }
    code
}
