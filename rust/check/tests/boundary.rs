//! What the header, the wrapper, the reference page and the file for pkg-config say of the calls beside what they
//! answer: the version, the sizes, the kinds, the excitations and the refusals, in C as in Rust, and calls from many
//! threads at once.

use std::thread;

use check::implementation::LIBRARY;
use check::repository::text;
use check::sample::{block_f, lend_random_text, Arguments, Random, Shape};
use zimgurav::{refused, Refusal};

/// The header, its comments' lines joined.
fn header() -> String {
    let lines = text("include/zimgurav.h");
    let lines = lines.lines().map(str::trim);
    let lines = lines.map(|line| line.trim_start_matches("* "));
    lines.collect::<Vec<_>>().join(" ")
}

/// The header defines the name as the number.
#[track_caller]
fn defined(name: &str, number: u64) {
    let definition = format!("#define ZIMGURAV_{name} {number} ");
    assert!(header().contains(&definition), "{definition}");
}

#[test]
fn version() {
    assert_eq!(zimgurav::version(), zimgurav::VERSION);
    defined("VERSION", zimgurav::VERSION);
}

/// The file by which pkg-config finds the library has the version of the calls.
#[test]
fn version_for_pkg_config() {
    let version = format!("Version: {}", zimgurav::VERSION);
    let package = text("c/zimgurav.pc");
    assert!(package.lines().any(|line| line == version), "{version}");
}

#[test]
fn sizes() {
    for (name, size) in [
        ("RECORD_BYTES", zimgurav::RECORD_BYTES),
        ("BLOCK_BYTES", zimgurav::BLOCK_BYTES),
        ("LIST_ROW_BYTES", zimgurav::LIST_ROW_BYTES),
        ("LIST_BYTES", zimgurav::LIST_BYTES),
        ("CONTACTS", zimgurav::CONTACTS),
        ("ROW_TICKS", zimgurav::ROW_TICKS),
        ("SHEET_WORDS", zimgurav::SHEET_WORDS),
        ("PATTERN_BYTES", zimgurav::PATTERN_BYTES),
        ("ORDER_BYTES", zimgurav::ORDER_BYTES),
        ("CASE_BYTES", zimgurav::CASE_BYTES),
        ("ANSWER_NUMBERS", zimgurav::ANSWER_NUMBERS),
        ("STACK_BYTES", zimgurav::STACK_BYTES),
        ("MOST_NODES", zimgurav::MOST_NODES),
    ] {
        defined(name, size as u64);
    }
    defined("MOST_NETS", zimgurav::MOST_NETS);
    defined("MOST_INPUTS", zimgurav::MOST_INPUTS);
    defined("MOST_HOPS", zimgurav::MOST_HOPS);
    defined("LEAST_RATIO", zimgurav::LEAST_RATIO);
    defined("MOST_RATIO", zimgurav::MOST_RATIO);
    defined("MOST_BUDGET", zimgurav::MOST_BUDGET);
    let word = zimgurav::Word::BITS;
    assert!(header().contains(&format!("typedef uint{word}_t zimgurav_word;")));
}

#[test]
fn kinds_and_excitations() {
    use zimgurav::{excitation, kind};
    let header = header();
    for (name, number) in [
        ("INPUT", kind::INPUT),
        ("AND", kind::AND),
        ("NAND", kind::NAND),
        ("OR", kind::OR),
        ("NOR", kind::NOR),
        ("XOR", kind::XOR),
        ("XNOR", kind::XNOR),
        ("NOT", kind::NOT),
        ("BUF", kind::BUF),
        ("L", excitation::L),
        ("H", excitation::H),
        ("HL", excitation::HL),
        ("LH", excitation::LH),
    ] {
        let words = header.split([',', ' ']).collect::<Vec<_>>();
        let (name, number) = (format!("ZIMGURAV_{name}"), number.to_string());
        let defined = |three: &[&str]| *three == [&name, "=", &number];
        assert!(words.windows(3).any(defined), "{name} = {number}");
    }
    let sets = [excitation::L, excitation::H, excitation::HL, excitation::LH].map(excitation::set);
    assert_eq!(sets, [1, 2, 4, 8]);
    assert!(header.contains("#define ZIMGURAV_SET(excitation) (1 << (excitation))"));
}

mod refusals {
    use super::*;

    /// The header gives each refusal's meaning, in the wrapper's words, before its number.
    #[test]
    fn mean_the_same_in_c() {
        let header = header();
        let (_, mut rest) = header.split_once("enum zimgurav_refusal {").expect("enum");
        for number in 1..=19 {
            let meaning = refused::meaning(number).expect("a meaning");
            let (first, others) = meaning.split_at(1);
            let sentence = format!("/* {}{others}.", first.to_uppercase());
            let (comment, after) = rest.split_once("ZIMGURAV_REFUSED_").expect("a name");
            let (name, after) = after.split_once(' ').expect("a number");
            assert!(comment.contains(&sentence), "{name}: {comment}");
            let equals = format!("= {number}");
            assert!(after.starts_with(&equals), "{name} is {number}: {after}");
            rest = &after[equals.len()..];
        }
        let (last, _) = rest.split_once("};").expect("the end of the enum");
        assert_eq!(last.trim(), "");
        assert_eq!(refused::meaning(0), None);
        assert_eq!(refused::meaning(20), None);
    }

    #[track_caller]
    fn says(number: u64, place: u64, sentence: &str) {
        assert_eq!(Refusal { number, place }.to_string(), sentence);
    }

    #[test]
    fn are_said_with_their_places() {
        says(
            refused::PIN,
            3,
            "refused 8 at net 3: a gate's pin is not a net below its own",
        );
        says(
            refused::RANGE,
            3,
            "refused 9 at net or row 3: a contact, delay, rise or fall of a gate or of a list's \
             row, or an input's set of allowed excitations, is out of range",
        );
        says(
            refused::HOP_LIMIT,
            0,
            "refused 11: the hop limit is not 1 to 16",
        );
        says(
            refused::BUFFER,
            4,
            "refused 15 at buffer 4: a lent buffer has the wrong size",
        );
        says(
            refused::PATTERN,
            0,
            "refused 16 at net 0: an input's byte of the pattern is no excitation that the input \
             is allowed",
        );
    }

    #[test]
    fn of_texts_and_lists_are_said() {
        says(
            refused::LINE,
            3,
            "refused 17 at line 3: a line of the text fits no form, has no known kind or a wrong \
             pin count, or is an INPUT after a gate",
        );
        says(
            refused::NAME,
            12,
            "refused 18 at line 12: a line of the text uses a name that no earlier line gives, or \
             gives one that an earlier line gave",
        );
        says(
            refused::ORDER,
            0,
            "refused 19: the list of inputs to split does not name each input exactly once",
        );
        says(20, 0, "refused 20: no such refusal is known");
    }

    /// Each name stands for what the library refuses with its number.
    #[test]
    fn have_their_numbers() {
        type Fault = fn(&mut Arguments);
        let faults: [(u64, Fault); 19] = [
            (refused::LENGTH, |lent| lent.file.push(0)),
            (refused::RECORDS, |lent| lent.file.resize(20 * 1025, 0)),
            (refused::FIRST, |lent| lent.file.clear()),
            (refused::KIND, |lent| lent.file[20 * 2] = 10),
            (refused::INPUT, |lent| lent.file[20 * 3] = 1),
            (refused::PIN_COUNT, |lent| lent.file[20 * 2 + 3] = 2),
            (refused::STRAY_BYTE, |lent| lent.file[20 * 2 + 19] = 1),
            (refused::PIN, |lent| lent.file[20 * 2 + 4] = 2),
            (refused::RANGE, |lent| lent.file[20 * 2 + 2] = 64),
            (refused::ARRIVAL, |lent| slow_down(&mut lent.file)),
            (refused::HOP_LIMIT, |lent| lent.hop_limit = 0),
            (refused::TABLE, |lent| lent.table.clear()),
            (refused::RATIO, |lent| lent.ratio = 0),
            (refused::BUDGET, |lent| lent.budget = 10_001),
            (refused::BUFFER, |lent| lent.sheet.clear()),
            (refused::PATTERN, |lent| lent.pattern[0] = 4),
            (refused::LINE, |lent| lent.text.push(b'b')),
            (refused::NAME, |lent| lent.text.extend(b"\nINPUT(a)")),
            (refused::ORDER, |lent| lent.order[0] = 2),
        ];
        for (number, make) in faults {
            let mut lent = Arguments::new(&block_f());
            make(&mut lent);
            let answer = match number {
                refused::PATTERN => lent.simulate(&LIBRARY).map(drop),
                refused::LINE | refused::NAME => lent.bench(&LIBRARY).map(drop),
                _ => lent.search(&LIBRARY).map(drop),
            };
            assert_eq!(answer.map_err(|refusal| refusal.number), Err(number));
        }
    }

    /// Adds buffers, each of the net before it, until one arrives after tick 255.
    fn slow_down(file: &mut Vec<u8>) {
        for pin in 3..8 {
            file.extend([
                9, 0, 63, 1, pin, 0, 0, 0, 0, 0, 0, 0, 1, 1, 0, 0, 0, 0, 0, 0,
            ]);
        }
    }
}

/// The reference page has what the header declares.
mod reference {
    use super::*;

    fn page() -> String {
        text("docs/REFERENCE.md")
    }

    /// The words of the header, marks apart.
    fn words() -> Vec<String> {
        let header = header();
        let words = header.split(|each: char| !each.is_alphanumeric() && each != '_');
        let words = words.filter(|word| !word.is_empty());
        words.map(str::to_string).collect()
    }

    /// The words that stand after this one in the header.
    fn after(word: &str) -> Vec<String> {
        let words = words();
        let pairs = words.windows(2).filter(|pair| pair[0] == word);
        pairs.map(|pair| pair[1].clone()).collect()
    }

    #[test]
    fn has_the_version() {
        let sentence = format!("It is {} today.", zimgurav::VERSION);
        assert!(page().contains(&sentence), "{sentence}");
    }

    #[test]
    fn has_every_size() {
        let names = after("define");
        assert!(names.len() > 20, "{names:?}");
        for name in names.iter().filter(|name| *name != "ZIMGURAV_HEADER") {
            assert!(page().contains(&format!("`{name}")), "{name}");
        }
    }

    #[test]
    fn has_every_call() {
        let returned = after("void").into_iter().chain(after("uint64_t"));
        let calls =
            returned.filter(|word| word.starts_with("zimgurav_") && *word != "zimgurav_word");
        let calls: Vec<String> = calls.collect();
        assert_eq!(calls.len(), 8, "{calls:?}");
        for call in calls {
            assert!(page().contains(&format!("\n| `{call}` |")), "{call}");
        }
    }

    #[test]
    fn has_every_refusal() {
        let words = words();
        let mut refusals = 0;
        for pair in words.windows(2) {
            let name = pair[0].strip_prefix("ZIMGURAV_REFUSED_");
            if let (Some(name), Ok(number)) = (name, pair[1].parse::<u64>()) {
                let row = format!("\n| **{number}** `{name}` |");
                assert!(page().contains(&row), "{row}");
                refusals += 1;
            }
        }
        assert_eq!(refusals, 19);
    }
}

/// Threads that call at once, each with buffers of its own, get and write what they do one by one.
#[test]
fn calls_at_once() {
    let mut random = Random::new(11);
    let calls: Vec<Arguments> = (0..64)
        .map(|_| {
            let block = Shape::to_search(&mut random).block(&mut random);
            let mut arguments = Arguments::random(&mut random, &block);
            lend_random_text(&mut random, 40, &mut arguments);
            arguments
        })
        .collect();
    let all = |lent: &Arguments| {
        let mut lent = lent.clone();
        let answers = (
            lent.envelope(&LIBRARY),
            lent.simulate(&LIBRARY),
            lent.search(&LIBRARY),
            lent.bench(&LIBRARY),
            lent.bound_order(&LIBRARY),
        );
        let made = lent.made;
        let cone_order = (lent.cone_order(&LIBRARY), lent.made);
        let written = (lent.sheet, lent.pattern, lent.store, lent.records, made);
        (answers, cone_order, written)
    };
    let alone: Vec<_> = calls.iter().map(all).collect();
    thread::scope(|scope| {
        for _ in 0..8 {
            scope.spawn(|| assert!(calls.iter().map(all).eq(alone.iter().cloned())));
        }
    });
}
