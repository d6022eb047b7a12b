//! "The search rests on the envelope's promise and on nothing inside it": what the crates name of each
//! other, and what the proofs of the search, in `bounds`, `split_order` and `search`, open, read from the
//! text of the crates.
//!
//! A definition of another module is shut unless a proof names it on an `unfolding` line or in
//! `unfold .. in`; only an `abbrev` opens by itself. So all that the search can see of the crates below
//! it are the names that it cites, the abbreviations among them opened, and what its proofs unfold. Each
//! of the three is a list here, with the reasons, and the crates have to keep to it.

use std::collections::{BTreeMap, BTreeSet};
use std::path::Path;

use check::repository::{crates, declares, files, text};

/// The crates of the search above `cases`.
const SEARCH: [&str; 3] = ["bounds", "split_order", "search"];

/// The crates inside which the search may not look.
const INSIDE: [&str; 9] = [
    "parts",
    "rows",
    "runs",
    "fill",
    "waveform",
    "current",
    "evaluation",
    "simulator",
    "envelope",
];

/// Names of a module, and why the search may have them.
struct Named {
    module: &'static str,
    names: &'static [&'static str],
    why: &'static str,
}

/// All that the search cites of the crates inside which it may not look.
const CITED: [Named; 12] = [
    Named {
        module: "evaluation.specs.Evaluation",
        names: &["simulated_sheet", "envelope_sheet"],
        why: "The sheets of Simulate's and Envelope's promises, whose drops the search is over.",
    },
    Named {
        module: "evaluation.specs.Evaluation",
        names: &["Evaluable", "HasRows", "InputCodes", "sheet_for", "Evaluated"],
        why: "What the contract of `evaluate` names: what it is lent and what it gives.",
    },
    Named {
        module: "evaluation.specs.Evaluation",
        names: &["currents_of"],
        why: "The drop and the quiet tick of Simulate's answer, which the agreement is about.",
    },
    Named {
        module: "evaluation.specs.declared.Setting",
        names: &["Setting"],
        why: "The struct that every evaluation of a call takes: the block, the table and the hop limit.",
    },
    Named {
        module: "evaluation.proofs.Given",
        names: &["evaluable_kept"],
        why: "The law that one evaluation may follow another while the buffers keep their lengths.",
    },
    Named {
        module: "simulator.specs.Simulate",
        names: &["SinglesEvaluated"],
        why: "What `evaluate_singles` promises.",
    },
    Named {
        module: "simulator.specs.Simulate",
        names: &["SimulateArguments", "Simulated", "pattern_sheet", "given_sheet"],
        why: "Simulate's promise, which the agreement is about, its arguments, and the sheet that it names.",
    },
    Named {
        module: "simulator.specs.Simulate",
        names: &["size_checks", "simulate_verdict"],
        why: "Simulate's checks: the agreement says that it accepts the pattern handed over.",
    },
    Named {
        module: "envelope.proofs.Soundness",
        names: &["soundness"],
        why: "The soundness law, on which the search rests.",
    },
    Named {
        module: "evaluation::",
        names: &["Setting"],
        why: "The struct whose method is an evaluation, called by contract.",
    },
    Named {
        module: "evaluation::Setting::",
        names: &["evaluate"],
        why: "The evaluation, called by contract.",
    },
    Named {
        module: "simulator::",
        names: &["evaluate_singles"],
        why: "The simulation of a pattern, called by contract.",
    },
];

/// The abbreviations among them, which open by themselves, and why that shows nothing inside.
const ABBREVIATIONS: [(&[&str], &str); 3] = [
    (
        &[
            "simulated_sheet",
            "envelope_sheet",
            "sheet_for",
            "pattern_sheet",
            "given_sheet",
        ],
        "They open to `sheet_of`, which stays shut.",
    ),
    (
        &["currents_of"],
        "It opens to `drop_of` and `quiet_tick`, which stay shut.",
    ),
    (
        &["SinglesEvaluated"],
        "It opens to the record `Evaluated` of the sheet of a pattern.",
    ),
];

/// All that the search unfolds, in its proofs and anywhere, of crates other than its own, `cases` and `laws`.
const UNFOLDED: [Named; 8] = [
    Named {
        module: "simulator.specs.Simulate",
        names: &["size_checks", "simulate_verdict"],
        why: "Simulate's checks; none of them says what a simulation is.",
    },
    Named {
        module: "operation.specs.Pattern",
        names: &["byte_allowed"],
        why: "Check 16 of one byte.",
    },
    Named {
        module: "block.specs.Refusals",
        names: &["read_of"],
        why: "The verdict on a file.",
    },
    Named {
        module: "operation.specs.SplitOrder",
        names: &["list_bytes"],
        why: "The bytes that a maker returns its list in.",
    },
    Named {
        module: "block.specs.Block",
        names: &["cone_size", "fed_from", "feeds"],
        why: "The fan-out cone of an input, which the first maker counts; it knows gates and pins, and no current.",
    },
    Named {
        module: "block.specs.View",
        names: &["gate_of"],
        why: "The gate that a record holds, by whose pins a cone goes.",
    },
    Named {
        module: "bits.specs.Bits",
        names: &["bit_at"],
        why: "The bits of the words that cones are counted by.",
    },
    Named {
        module: "excitation.specs.Excitation",
        names: &["byte_of"],
        why: "The byte of a pattern that stands for an excitation.",
    },
];

/// The text without comments.
fn code(text: &str) -> String {
    let lines = text.lines().map(|line| match line.find("--") {
        Some(at) if line[..at].trim().is_empty() || line[..at].ends_with(' ') => &line[..at],
        _ => line.split("//").next().unwrap_or(line),
    });
    lines.collect::<Vec<&str>>().join("\n")
}

/// Whether a character may stand in a name of a module, a definition or a function.
fn in_name(character: char) -> bool {
    !character.is_whitespace() && !"(){};,.:&<>\"".contains(character)
}

/// The module of a `Rattle.crate.specs.Module` path, as `crate.specs.Module`.
fn module_of(path: &str) -> String {
    path.trim_start_matches("Rattle.").to_string()
}

/// Every name that a text cites of our crates, with its module: by `use` lines, by whole paths, and in
/// code by `crate::name`. A module cited whole is cited with the name `*`.
fn citations(text: &str, crates: &[&str]) -> BTreeSet<(String, String)> {
    let mut cited = BTreeSet::new();
    for line in code(text).lines() {
        for (at, _) in line.match_indices("Rattle.") {
            let path: String = line[at..]
                .chars()
                .take_while(|&character| in_name(character) || character == '.')
                .collect();
            let rest = &line[at + path.len()..];
            if let Some(names) = rest.strip_prefix('{') {
                let (names, _) = names.split_once('}').expect("braces closed on their line");
                let module = module_of(path.trim_end_matches('.'));
                cited.extend(
                    names
                        .split(',')
                        .map(|name| (module.clone(), name.trim().to_string())),
                );
            } else if rest.starts_with(" as ") {
                cited.insert((module_of(&path), "*".to_string()));
            } else {
                let (module, name) = path.rsplit_once('.').unwrap_or((&path, "*"));
                cited.insert((module_of(module), name.to_string()));
            }
        }
        cited.extend(calls(line, crates));
    }
    cited
}

/// The names of a line of code that stand behind `crate::`, alone or several in braces.
fn calls(line: &str, crates: &[&str]) -> Vec<(String, String)> {
    let mut named = Vec::new();
    for (at, _) in line.match_indices("::") {
        let before = line[..at].rsplit(|character| !in_name(character)).next();
        let Some(before) = before.filter(|before| crates.contains(before)) else {
            continue;
        };
        let after = &line[at + 2..];
        let names = match after.strip_prefix('{') {
            Some(names) => {
                names
                    .split_once('}')
                    .expect("braces closed on their line")
                    .0
            }
            None => after
                .split(|character| !in_name(character))
                .next()
                .unwrap_or(after),
        };
        named.extend(
            names
                .split(',')
                .map(|name| (format!("{before}::"), name.trim().to_string())),
        );
    }
    named
}

/// The names that an attribute of a function unfolds, by whole paths; those of its own crate may be open.
fn unfolded_by_attribute(line: &str) -> Vec<String> {
    let Some((_, paths)) = line.split_once("unfolding(") else {
        return Vec::new();
    };
    let (paths, _) = paths
        .split_once(')')
        .expect("brackets closed on their line");
    paths
        .split(',')
        .map(str::trim)
        .filter(|path| !path.starts_with("crate::"))
        .map(|path| format!("Rattle.{}", path.replace("::", ".")))
        .collect()
}

/// The names that a text unfolds, on `unfolding` lines, by `unfold .. in`, and by attributes.
fn unfolded(text: &str) -> BTreeSet<String> {
    let mut names = BTreeSet::new();
    for line in code(text).lines() {
        if line.trim_start().starts_with("#[") {
            names.extend(unfolded_by_attribute(line));
            continue;
        }
        let mut words =
            line.split(|character: char| character.is_whitespace() || "()".contains(character));
        while let Some(word) = words.next() {
            if word == "unfold" || word == "unfolding" {
                let opened = words.by_ref().take_while(|&word| word != "in");
                names.extend(opened.filter(|name| !name.is_empty()).map(str::to_string));
            }
        }
    }
    names
}

/// The module that a text has an unfolded name from: by a whole path, by a module's other name, by its
/// `use` lines, or `search` where the text defines it.
fn origin(name: &str, text: &str, cited: &BTreeSet<(String, String)>) -> Option<String> {
    let code = code(text);
    if let Some((module, _)) = name.rsplit_once('.') {
        if module.starts_with("Rattle.") {
            return Some(module_of(module));
        }
        let other_name = format!(" as {module}");
        let line = code.lines().find(|line| line.ends_with(&other_name))?;
        let path = line.trim_end_matches(&other_name).split(' ').next_back()?;
        return Some(module_of(path));
    }
    let from = cited.iter().find(|(_, cited)| cited == name);
    let defined = code.lines().any(|line| declares(line, name));
    let own = defined.then(|| SEARCH[0].to_string());
    from.map(|(module, _)| module.clone()).or(own)
}

/// Which of the names of the crates inside which the search may not look a text unfolds, or any that it
/// does not have from a crate that it may open.
fn opened(text: &str) -> Vec<(String, String)> {
    let cited = citations(text, &[]);
    let mut opened = Vec::new();
    for name in unfolded(text) {
        let module = origin(&name, text, &cited).unwrap_or_else(|| "unknown".to_string());
        let name = name.rsplit('.').next().unwrap_or(&name).to_string();
        let owner = module.split('.').next().unwrap_or(&module);
        if !SEARCH.contains(&owner) && !["cases", "laws"].contains(&owner) {
            opened.push((module, name));
        }
    }
    opened
}

/// The public functions of the `impl` blocks of a type, from the code of the crate that has it.
fn methods_of(owner: &str, kind: &str) -> BTreeSet<String> {
    let mut methods = BTreeSet::new();
    for file in files(Path::new("crates").join(owner).join("src"), &["rt"]) {
        let code = code(&text(&file));
        for block in code.split("\nimpl").skip(1) {
            let (head, body) = block.split_once('{').expect("a block after `impl`");
            if !head
                .split(|character| !in_name(character))
                .any(|word| word == kind)
            {
                continue;
            }
            let body = body.split("\n}").next().unwrap_or(body);
            let public = body
                .lines()
                .filter_map(|line| line.trim_start().strip_prefix("pub fn "));
            let names = public.filter_map(|rest| rest.split(['(', '<']).next());
            methods.extend(names.map(str::to_string));
        }
    }
    methods
}

/// The methods that a text calls of the types that it names of our crates, as `crate::Type::` and the name.
fn methods_called(text: &str, crates: &[&str]) -> Vec<(String, String)> {
    let code = code(text);
    let named: BTreeSet<(String, String)> =
        code.lines().flat_map(|line| calls(line, crates)).collect();
    let mut called = Vec::new();
    for (module, kind) in named {
        if !kind.starts_with(char::is_uppercase) {
            continue;
        }
        for method in methods_of(owner(&module), &kind) {
            let is_called = [format!(".{method}("), format!("{kind}::{method}(")];
            if is_called.iter().any(|call| code.contains(call.as_str())) {
                called.push((format!("{module}{kind}::"), method));
            }
        }
    }
    called
}

/// Every name of our crates that a crate cites, by the file in which it does.
fn cited_by(name: &str, crates: &[&str]) -> BTreeMap<(String, String), String> {
    let mut cited = BTreeMap::new();
    for file in files(Path::new("crates").join(name), &["rt", "antt"]) {
        let text = text(&file);
        let mut citations = citations(&text, crates);
        if file.extension().is_some_and(|kind| kind == "rt") {
            citations.extend(methods_called(&text, crates));
        }
        for citation in citations {
            cited.insert(citation, file.display().to_string());
        }
    }
    cited
}

/// The crate of a cited module.
fn owner(module: &str) -> &str {
    module.split(['.', ':']).next().unwrap_or(module)
}

fn is_listed(list: &[Named], module: &str, name: &str) -> bool {
    let mut entries = list
        .iter()
        .filter(|entry| entry.module.split(", ").any(|each| each == module));
    entries.any(|entry| entry.names.contains(&name))
}

/// The prover refuses a name from a crate that `crates.txt` does not list, and a circle of crates. A crate
/// that is listed and named nowhere it lets pass, and then the list would say less than it could.
#[test]
fn crates_list_only_what_they_name() {
    let crates = crates();
    let names: Vec<&str> = crates.iter().map(|(name, _)| name.as_str()).collect();
    for (name, listed) in &crates {
        let cited = cited_by(name, &names);
        let named: BTreeSet<&str> = cited.keys().map(|(module, _)| owner(module)).collect();
        let known = |other: &&String| names.contains(&other.as_str());
        for other in listed.iter().filter(known) {
            assert!(
                named.contains(other.as_str()),
                "crates.txt lists {other} for {name}, which names nothing of it"
            );
        }
    }
}

#[test]
fn search_cites_what_is_listed() {
    let cited: BTreeMap<_, _> = SEARCH
        .iter()
        .flat_map(|name| cited_by(name, &INSIDE))
        .collect();
    let inside = cited
        .iter()
        .filter(|((module, _), _)| INSIDE.contains(&owner(module)));
    for ((module, name), file) in inside {
        assert!(
            is_listed(&CITED, module, name),
            "{file} cites {module} {name}: say why in CITED"
        );
    }
    for entry in &CITED {
        for name in entry.names {
            let mut modules = entry.module.split(", ");
            let used =
                modules.any(|module| cited.contains_key(&(module.to_string(), name.to_string())));
            assert!(
                used,
                "{} {name} is cited no more: {}",
                entry.module, entry.why
            );
        }
    }
}

#[test]
fn search_unfolds_what_is_listed() {
    let mut seen = BTreeSet::new();
    let folders = SEARCH.iter().map(|name| format!("crates/{name}"));
    for file in folders.flat_map(|folder| files(folder, &["rt", "antt"])) {
        for (module, name) in opened(&text(&file)) {
            let file = file.display();
            assert!(
                is_listed(&UNFOLDED, &module, &name),
                "{file} unfolds {module} {name}: say why in UNFOLDED"
            );
            seen.insert((module, name));
        }
    }
    for entry in &UNFOLDED {
        for name in entry.names {
            let used = seen.contains(&(entry.module.to_string(), name.to_string()));
            assert!(
                used,
                "{} {name} is unfolded no more: {}",
                entry.module, entry.why
            );
        }
    }
}

/// The text of a module of definitions or laws; code and what it declares has none.
fn module_text(module: &str) -> Option<String> {
    let in_code = module.contains("declared") || module.contains(':');
    let path = format!("crates/{}.antt", module.replace('.', "/"));
    (!in_code).then(|| text(path))
}

/// The marks on the definition of a name in a module.
fn marks(module: &str, name: &str) -> Option<String> {
    let text = module_text(module)?;
    let line = text.lines().find(|line| declares(line, name))?;
    let (marks, _) = line.split_once(name)?;
    Some(marks.trim().to_string())
}

#[test]
fn abbreviations_show_nothing_inside() {
    for entry in &CITED {
        for name in entry.names {
            let marks = marks(entry.module, name).unwrap_or_default();
            let listed = ABBREVIATIONS.iter().any(|(names, _)| names.contains(name));
            assert_eq!(marks.contains("abbrev"), listed, "{name}");
        }
        // A definition that unfolds others would open them with itself.
        if let (true, Some(text)) = (entry.module.contains(".specs."), module_text(entry.module)) {
            assert_eq!(unfolded(&text), BTreeSet::new(), "{}", entry.module);
        }
    }
    for (module, shut) in [
        ("current.specs.Current", "sheet_of"),
        ("sheet.specs.Sheet", "sheet_words"),
        ("sheet.specs.Sheet", "drop_of"),
        ("sheet.specs.Sheet", "quiet_tick"),
    ] {
        assert_eq!(
            marks(module, shut).as_deref(),
            Some("unfoldable pub"),
            "{shut}"
        );
    }
}

/// A made-up proof that looks into the envelope is found out.
#[test]
fn a_proof_that_looks_inside_is_seen() {
    let proof = "\
use Rattle.cases.specs.Case.{probe, decided}
use Rattle.waveform.specs.Waveform.{gate_at, net_waveform}
use Rattle.current.specs.Current as cases
-- unfolding sheet_of: a comment opens nothing
pub law : (n : ℕ) → gate_at n ≡ probe n
unfolding probe gate_at
law n = refl

other : (n : ℕ) → unfold cases.sheet_of in (own n ≡ 0)
  unfolding own Rattle.fill.specs.Fill.filled
other n = unfold unknown in refl

own : ℕ → ℕ
";
    let is = |module: &str, name: &str| (module.to_string(), name.to_string());
    assert_eq!(
        opened(proof),
        [
            is("fill.specs.Fill", "filled"),
            is("current.specs.Current", "sheet_of"),
            is("waveform.specs.Waveform", "gate_at"),
            is("unknown", "unknown"),
        ]
    );
    let cited = citations(proof, &[]);
    assert!(cited.contains(&is("current.specs.Current", "*")));
    assert!(cited.contains(&is("fill.specs.Fill", "filled")));
    let code = "\
use block::Net; let all = fill::fill(waveform::row(1));
use evaluation::{Setting, evaluate}; use runs::{self, starts};
";
    assert_eq!(
        citations(code, &INSIDE),
        [
            is("evaluation::", "Setting"),
            is("evaluation::", "evaluate"),
            is("fill::", "fill"),
            is("runs::", "self"),
            is("runs::", "starts"),
            is("waveform::", "row"),
        ]
        .into()
    );
}
