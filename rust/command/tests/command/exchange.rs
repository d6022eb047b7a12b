//! The files that the command writes for other programs, read back.

use std::collections::BTreeMap;
use std::{fs, iter};

use zimgurav::{
    store_bytes, work_bytes, Word, BLOCK_BYTES, CONTACTS, ORDER_BYTES, PATTERN_BYTES, RECORD_BYTES,
    ROW_TICKS, SHEET_WORDS,
};

use crate::run::{file, lone_input, printed, scratch};

const BLOCK: &str = "examples/adder24.blk";

/// The command's default.
const BUDGET: u64 = 1_000;

/// The sheet, the pattern and its currents, of a search of the adder by the library itself, with the defaults of the
/// command.
fn searched() -> (Vec<Word>, [u8; PATTERN_BYTES], Vec<Word>) {
    let mut order = [0; ORDER_BYTES];
    let inputs = zimgurav::cone_order(&file(BLOCK), &mut order).expect("a list");
    searched_by(&order[..inputs as usize], BUDGET)
}

/// The same with another list and budget.
fn searched_by(order: &[u8], budget: u64) -> (Vec<Word>, [u8; PATTERN_BYTES], Vec<Word>) {
    let block = file(BLOCK);
    let nets = zimgurav::read(&block).expect("a block").nets;
    let (mut ceiling, mut simulated) = (vec![0; SHEET_WORDS], vec![0; SHEET_WORDS]);
    let (mut pattern, mut work) = ([0; PATTERN_BYTES], vec![0; work_bytes(nets)]);
    zimgurav::search(
        &block,
        10,
        &[1; CONTACTS],
        1_000,
        budget,
        order,
        &mut ceiling,
        &mut pattern,
        &mut work,
        &mut vec![0; store_bytes(budget)],
    )
    .expect("a search");
    zimgurav::simulate(&block, &[1; CONTACTS], &mut simulated, &pattern, &mut work)
        .expect("a simulation");
    (ceiling, pattern, simulated)
}

/// The list that is shown is the one that the library makes, and a search is lent the list that is given: here the one
/// by bounds, from its end on.
#[test]
fn order_is_the_one_lent() {
    let block = file(BLOCK);
    let nets = zimgurav::read(&block).expect("a block").nets;
    let (mut work, mut order) = (vec![0; work_bytes(nets)], [0; ORDER_BYTES]);
    let inputs = zimgurav::bound_order(&block, 10, &[1; CONTACTS], &mut work, &mut order);
    let list = &mut order[..inputs.expect("a list") as usize];
    let words = |list: &[u8]| {
        let words: Vec<String> = list.iter().map(u8::to_string).collect();
        words.join(" ")
    };
    let shown = printed(&["search", BLOCK, "--budget", "0", "--order", "bounds"]);
    let expected = format!("\nsplit order: bounds ({})\n", words(list));
    assert!(shown.replace("\n  ", " ").contains(&expected), "{shown}");
    list.reverse();
    let [path, values] = ["reverse.txt", "reverse.csv"].map(scratch);
    fs::write(&path, words(list)).expect("written");
    let arguments = ["search", BLOCK, "--budget", "20", "--order", &path];
    printed(&[&arguments[..], &["--csv", &values]].concat());
    let (ceiling, _, simulated) = searched_by(list, 20);
    let values = fs::read_to_string(values).expect("the values");
    assert!(sheets(&values, &["ceiling", "pattern"]) == [ceiling, simulated]);
}

/// The sheets of comma-separated values, each line a tick, each column a contact of one of the named sheets.
fn sheets(values: &str, names: &[&str]) -> Vec<Vec<Word>> {
    let mut lines = values.lines();
    let headings: Vec<&str> = lines.next().expect("headings").split(',').collect();
    let expected = names.iter().flat_map(|name| {
        let contacts = 0..CONTACTS;
        contacts.map(move |contact| format!("contact {contact} {name} (uA)"))
    });
    let expected: Vec<String> = iter::once("tick".to_string()).chain(expected).collect();
    assert_eq!(headings, expected);
    let ticks: Vec<Vec<Word>> = lines.map(numbers).collect();
    assert_eq!(ticks.len(), ROW_TICKS);
    let places = (0..names.len()).map(|sheet| {
        let words = (0..SHEET_WORDS).map(|at| {
            let (contact, tick) = (at / ROW_TICKS, at % ROW_TICKS);
            assert_eq!(ticks[tick].len(), expected.len());
            assert_eq!(ticks[tick][0], tick as Word);
            ticks[tick][1 + CONTACTS * sheet + contact]
        });
        words.collect()
    });
    places.collect()
}

/// The numbers of a line.
fn numbers(line: &str) -> Vec<Word> {
    let numbers = line.split(',').map(|word| word.parse().expect("a number"));
    numbers.collect()
}

/// Of a search, the ceiling and beside it the pattern's currents; of an envelope and of a simulation the one or the
/// other.
#[test]
fn comma_separated_values_are_the_sheets() {
    let (ceiling, _, simulated) = searched();
    let [of_search, of_simulation, pattern] = ["s.csv", "p.csv", "p.txt"].map(scratch);
    printed(&["search", BLOCK, "--csv", &of_search, "--pattern", &pattern]);
    printed(&["simulate", BLOCK, &pattern, "--csv", &of_simulation]);
    let read = |path: &str, names| sheets(&fs::read_to_string(path).expect("the values"), names);
    assert!(read(&of_simulation, &["pattern"]) == [simulated.clone()]);
    assert!(read(&of_search, &["ceiling", "pattern"]) == [ceiling, simulated]);
}

/// Currents above 16 bits come back too.
#[test]
fn great_currents() {
    let block = file("examples/block_s.blk");
    let mut block = block[..60].to_vec();
    for gate in [20, 40] {
        block[gate + 12..gate + 16].copy_from_slice(&[127, 127, 255, 255]);
    }
    let [path, values] = ["great.blk", "great.csv"].map(scratch);
    fs::write(&path, &block).expect("written");
    printed(&["envelope", &path, "--csv", &values]);
    let mut sheet = vec![0; SHEET_WORDS];
    let mut work = vec![0; work_bytes(3)];
    zimgurav::envelope(&block, 10, &[1; CONTACTS], &mut sheet, &mut work).expect("an envelope");
    assert_eq!(sheet.iter().max(), Some(&131_070));
    let values = fs::read_to_string(values).expect("the values");
    assert!(sheets(&values, &["ceiling"]) == [sheet]);
}

/// The pattern that a search writes is the one that it found, a word for each input.
#[test]
fn pattern_is_the_one_found() {
    let (_, pattern, _) = searched();
    let path = scratch("found.txt");
    printed(&["search", BLOCK, "--pattern", &path]);
    let written = fs::read_to_string(path).expect("the pattern");
    let lines = pattern[..49].iter().enumerate().map(|(net, byte)| {
        let word = ["l", "h", "hl", "lh"][usize::from(*byte)];
        format!("{word:2} # net {net}\n")
    });
    assert_eq!(written, lines.collect::<String>());
}

/// The sheets of a value change dump, by scope: the currents at every tick, held until they change.
fn dumped(dump: &str) -> BTreeMap<String, Vec<Word>> {
    let mut sheets = BTreeMap::new();
    let mut places: BTreeMap<&str, (String, usize)> = BTreeMap::new();
    let (mut scope, mut tick) = ("", 0);
    for line in dump.lines() {
        let words: Vec<&str> = line.split(' ').collect();
        match words[..] {
            ["$scope", "module", name, "$end"] => {
                scope = name;
                sheets.insert(name.to_string(), vec![0; SHEET_WORDS]);
            }
            ["$var", "real", "64", code, name, "$end"] => {
                let contact = name
                    .strip_prefix("contact_")
                    .and_then(|name| name.strip_suffix("_uA"));
                let contact = contact.expect("a contact").parse().expect("a number");
                let other = places.insert(code, (scope.to_string(), contact));
                assert_eq!(other, None, "{code} stands for two rows");
            }
            [value, code] if value.starts_with('r') => {
                let (scope, contact) = &places[code];
                let current: Word = value[1..].parse().expect("a current");
                let row = &mut sheets.get_mut(scope).expect("a scope")[ROW_TICKS * contact..];
                row[tick..ROW_TICKS].fill(current);
            }
            [time] if time.starts_with('#') => {
                let next = time[1..].parse().expect("a time");
                assert!(next == 0 || next > tick, "{time} after {tick}");
                tick = next;
            }
            _ => assert!(line.starts_with('$') && line.ends_with("$end"), "{line}"),
        }
    }
    sheets
}

#[test]
fn value_change_dumps_are_the_sheets() {
    let (ceiling, _, simulated) = searched();
    let [of_search, of_simulation, pattern] = ["s.vcd", "p.vcd", "v.txt"].map(scratch);
    printed(&["search", BLOCK, "--vcd", &of_search, "--pattern", &pattern]);
    printed(&["simulate", BLOCK, &pattern, "--vcd", &of_simulation]);
    let dump = |path: &str| dumped(&fs::read_to_string(path).expect("the dump"));
    let both = dump(&of_search);
    assert_eq!(both.len(), 2);
    assert!(both["ceiling"] == ceiling, "the ceiling");
    assert!(both["pattern"] == simulated, "the pattern");
    let one = dump(&of_simulation);
    assert_eq!(one.len(), 1);
    assert!(one["pattern"] == simulated, "the simulation");
}

/// The block that the command makes of c17: five inputs and six NAND gates, with the fields of the cell list.
#[test]
fn c17_is_its_block() {
    const NAND: [u8; 20] = [3, 1, 1, 2, 0, 0, 0, 0, 0, 0, 0, 0, 1, 2, 60, 0, 50, 0, 0, 0];
    let gates = [[0, 2], [2, 3], [1, 6], [6, 4], [5, 7], [7, 8]].map(|[first, second]| {
        let mut gate = NAND;
        (gate[4], gate[6]) = (first, second);
        gate
    });
    let path = scratch("c17.blk");
    let cells = "examples/cells.txt";
    printed(&["bench", "examples/c17.bench", "--cells", cells, "-o", &path]);
    let block = fs::read(path).expect("the block");
    assert_eq!(
        block,
        [lone_input(); 5]
            .into_iter()
            .chain(gates)
            .collect::<Vec<_>>()
            .concat()
    );
}

/// The fields of a cell list stand where the library looks for them: a list whose numbers are all different.
#[test]
fn fields_of_a_cell_list() {
    let [list, path] = ["fields.txt", "fields.blk"].map(scratch);
    let kinds = ["AND", "NAND", "OR", "NOR", "XOR", "XNOR", "NOT", "BUF"];
    let lines = kinds.iter().enumerate().map(|(row, kind)| {
        let (delay, rise, fall) = (row + 1, row + 11, row + 21);
        let (peak_lh, peak_hl) = (1_000 * row + 301, 1_000 * row + 602);
        format!("{kind} {row} {delay} {rise} {fall} {peak_lh} {peak_hl}\n")
    });
    fs::write(&list, lines.rev().collect::<String>()).expect("written");
    let gates = kinds.map(|kind| {
        let pins = if matches!(kind, "NOT" | "BUF") {
            "a"
        } else {
            "a, b"
        };
        format!("g{kind} = {kind}({pins})\n")
    });
    let bench = format!("INPUT(a)\nINPUT(b)\n{}", gates.concat());
    let text_path = scratch("fields.bench");
    fs::write(&text_path, bench).expect("written");
    printed(&["bench", &text_path, "--cells", &list, "-o", &path]);
    let block = fs::read(path).expect("the block");
    assert!(block.len() <= BLOCK_BYTES);
    for (row, record) in block.chunks(RECORD_BYTES).skip(2).enumerate() {
        let two_bytes = |at: usize| usize::from(u16::from_le_bytes([record[at], record[at + 1]]));
        let fields = [0, 1, 2, 12, 13].map(|at| usize::from(record[at]));
        assert_eq!(fields, [row + 2, row, row + 1, row + 11, row + 21]);
        assert_eq!(
            [two_bytes(14), two_bytes(16)],
            [1_000 * row + 301, 1_000 * row + 602]
        );
    }
}
