//! The subcommands: what each takes, and what it does.

use std::ffi::{OsStr, OsString};

use crate::arguments::{Arguments, CommandOption};
use crate::block::Block;
use crate::evaluation::{self, Setting};
use crate::failure::Failure;
use crate::number::nanovolts;
use crate::options::*;
use crate::output_file::OutputFile;
use crate::pattern::Pattern;
use crate::picture::Picture;
use crate::sheet::Sheet;
use crate::summary::Numbers;
use crate::{csv, output, report, selftest, summary, svg, vcd};

/// One of the things that the command does.
pub struct Subcommand {
    pub name: &'static str,
    /// What stands after the name.
    pub usage: &'static str,
    /// What it does, in a line.
    pub summary: &'static str,
    /// What else a user has to know, in paragraphs.
    pub about: &'static [&'static str],
    pub options: &'static [&'static CommandOption],
    pub run: fn(&Arguments) -> Result<(), Failure>,
}

// What the help says of operands and files.

const OF_BLOCKS: &str = "\
BLOCK is a block file, or a bench text with --cells LIST: a file whose name ends
in .bench. - is standard input, a bench text where --cells is given.";

const OF_PATTERNS: &str = "\
PATTERN is a word for each input, l, h, hl or lh, or a file of such words, as search
--pattern writes it. In a file # begins a comment.";

const OF_ORDERS: &str = "\
ORDER says which input is split first, and which next. cone: the one that feeds most
gates, directly or through others. bounds: the one whose split leaves the lowest
ceiling; each input is tried once, before the search. Else ORDER is a file that names
each input once, by its net number or, of a bench text, by its name, with white space
between them. In a file # begins a comment. A file that is called cone or bounds is
given as ./cone or ./bounds. The ceilings hold with every order.";

const OF_CELLS: &str = "\
The cell list has a line for each kind of gate (AND, NAND, OR, NOR, XOR, XNOR, NOT,
BUF): the kind, its contact (0 to 15), delay (1 to 63 ticks), rise and fall (1 to
127 ticks), and the peaks in microamperes where the output rises and where it falls.
# begins a comment. TEXT may be - for standard input.";

const OF_BUILDS: &str = "\
Two builds that print the same line give the same answers, sheets, patterns, stores
and records on all of these calls.";

pub const SUBCOMMANDS: [Subcommand; 7] = [
    Subcommand {
        name: "read",
        usage: "BLOCK [OPTIONS]",
        summary: "Says what a block holds.",
        about: &[OF_BLOCKS],
        options: &[&CELLS, &NETS],
        run: read,
    },
    Subcommand {
        name: "bench",
        usage: "TEXT --cells LIST -o BLOCK",
        summary: "Turns a bench text into a block file.",
        about: &[OF_CELLS],
        options: &[&CELLS, &BLOCK_FILE],
        run: bench,
    },
    Subcommand {
        name: "envelope",
        usage: "BLOCK [OPTIONS]",
        summary: "Gives a ceiling on the currents and the drop of every pattern.",
        about: &[OF_BLOCKS],
        options: &[&CELLS, &HOP_LIMIT, &TABLE, &OHMS, &SVG, &CSV, &VCD],
        run: envelope,
    },
    Subcommand {
        name: "simulate",
        usage: "BLOCK PATTERN [OPTIONS]",
        summary: "Gives the currents and the drop of one pattern.",
        about: &[OF_PATTERNS, OF_BLOCKS],
        options: &[&CELLS, &TABLE, &OHMS, &SVG, &CSV, &VCD],
        run: simulate,
    },
    Subcommand {
        name: "search",
        usage: "BLOCK [OPTIONS]",
        summary: "Tightens the ceiling, and gives the worst pattern that it found.",
        about: &[OF_BLOCKS, OF_ORDERS],
        options: &[
            &CELLS, &HOP_LIMIT, &TABLE, &OHMS, &RATIO, &BUDGET, &ORDER, &PATTERN, &SVG, &CSV, &VCD,
        ],
        run: search,
    },
    Subcommand {
        name: "report",
        usage: "BLOCK -o FILE [OPTIONS]",
        summary: "Writes a page with the numbers, the pictures and the tables.",
        about: &[OF_BLOCKS, OF_ORDERS],
        options: &[
            &CELLS, &HOP_LIMIT, &TABLE, &OHMS, &RATIO, &BUDGET, &ORDER, &PAGE,
        ],
        run: report,
    },
    Subcommand {
        name: "selftest",
        usage: "[OPTIONS]",
        summary: "Makes the stored calls, and gives one digest of all that they answer.",
        about: &[OF_BUILDS],
        options: &[&ANSWERS],
        run: selftest,
    },
];

/// The first operand, which the help calls by this name, and those after it.
fn operands<'a>(
    arguments: &'a Arguments,
    name: &str,
) -> Result<(&'a OsStr, &'a [OsString]), Failure> {
    let operands = arguments.operands.split_first();
    let missing = || Failure::usage(format_args!("{name} is missing"));
    let (first, rest) = operands.ok_or_else(missing)?;
    Ok((first, rest))
}

/// The one operand that a subcommand takes.
fn operand<'a>(arguments: &'a Arguments, name: &str) -> Result<&'a OsStr, Failure> {
    let (operand, rest) = operands(arguments, name)?;
    no_more(rest)?;
    Ok(operand)
}

/// There are no operands but those that a subcommand takes.
fn no_more(rest: &[OsString]) -> Result<(), Failure> {
    match rest {
        [] => Ok(()),
        [extra, ..] => Err(Failure::extra(extra)),
    }
}

/// An option that may not be left out was.
fn missing(option: &CommandOption) -> Failure {
    Failure::usage(format_args!("{} is missing", option.written()))
}

/// The file that an option which may not be left out names for the command to write.
fn written_file(arguments: &Arguments, option: &CommandOption) -> Result<OutputFile, Failure> {
    let file = arguments.written_file(option)?;
    file.ok_or_else(|| missing(option))
}

fn block(arguments: &Arguments, path: &OsStr) -> Result<Block, Failure> {
    Block::load(path, arguments.value(CELLS.name))
}

fn read(arguments: &Arguments) -> Result<(), Failure> {
    let block = block(arguments, operand(arguments, "BLOCK")?)?;
    let mut text = format!("{}\n", block.name);
    text += &summary::lines(&summary::of_block(&block));
    if arguments.has(NETS.name) {
        text += &format!("\n{}\n", summary::nets(&block).join("\n"));
    }
    output::print(&text)
}

fn bench(arguments: &Arguments) -> Result<(), Failure> {
    let file = written_file(arguments, &BLOCK_FILE)?;
    let text = operand(arguments, "TEXT")?;
    let block = Block::of_text(text, arguments.value(CELLS.name))?;
    file.write(&block.file)?;
    let (name, size, file) = (&block.name, block.size(), &file.name);
    output::print(&format!("{name}: {size}, written to {file}\n"))
}

fn envelope(arguments: &Arguments) -> Result<(), Failure> {
    let written = Written::given(arguments)?;
    let setting = Setting::given(arguments)?;
    let block = block(arguments, operand(arguments, "BLOCK")?)?;
    let ceiling = evaluation::envelope(&block, &setting)?;
    print_answer(
        &block,
        &summary::envelope_setting(&setting),
        &summary::of_envelope(&ceiling),
        &[("at most", &ceiling.sheet)],
    )?;
    written.write(&Picture::of_envelope(&block, &setting, &ceiling))
}

fn simulate(arguments: &Arguments) -> Result<(), Failure> {
    let written = Written::given(arguments)?;
    let setting = Setting::given(arguments)?;
    let (path, pattern) = operands(arguments, "BLOCK")?;
    if pattern.is_empty() {
        return Err(Failure::usage("PATTERN is missing"));
    }
    let block = block(arguments, path)?;
    let pattern = Pattern::given(&block, pattern)?;
    let simulated = evaluation::simulate(&block, &setting, &pattern)?;
    print_answer(
        &block,
        &setting.table.words,
        &summary::of_simulation(&block, &pattern, &simulated),
        &[("greatest", &simulated.sheet)],
    )?;
    written.write(&Picture::of_simulation(&block, &setting, &simulated))
}

fn search(arguments: &Arguments) -> Result<(), Failure> {
    let written = Written::given(arguments)?;
    let pattern = arguments.written_file(&PATTERN)?;
    let setting = Setting::given(arguments)?;
    let block = block(arguments, operand(arguments, "BLOCK")?)?;
    let searched = evaluation::search(&block, &setting)?;
    let [values, order] = summary::search_setting(&block, &setting, &searched);
    print_answer(
        &block,
        &format!("{values}\n{}", output::wrapped(&order)),
        &summary::of_search(&block, &setting, &searched),
        &[
            ("at most", &searched.ceiling),
            ("pattern", &searched.simulated.sheet),
        ],
    )?;
    let written = written.write(&Picture::of_search(&block, &setting, &searched));
    if let Some(file) = pattern {
        file.write(searched.pattern.file(&block))?;
    }
    written
}

fn report(arguments: &Arguments) -> Result<(), Failure> {
    let file = written_file(arguments, &PAGE)?;
    let setting = Setting::given(arguments)?;
    let block = block(arguments, operand(arguments, "BLOCK")?)?;
    let ceiling = evaluation::envelope(&block, &setting)?;
    let searched = evaluation::search(&block, &setting)?;
    let page = report::page(&block, &setting, &searched, &ceiling);
    file.write(page)?;
    let (name, file) = (&block.name, &file.name);
    let bounds = summary::bounds(&searched.found, nanovolts);
    output::print(&format!("{name}: {bounds}\nThe page is {file}.\n"))
}

fn selftest(arguments: &Arguments) -> Result<(), Failure> {
    no_more(&arguments.operands)?;
    selftest::run(arguments.written_file(&ANSWERS)?)
}

/// Prints what was called on which block, what it answered, and the greatest currents of its sheets.
fn print_answer(
    block: &Block,
    setting: &str,
    numbers: &Numbers,
    sheets: &[(&str, &Sheet)],
) -> Result<(), Failure> {
    let (name, size, numbers) = (&block.name, block.size(), summary::lines(numbers));
    let currents = summary::greatest_currents(block, sheets).aligned();
    output::print(&format!(
        "{name}: {size}\n{setting}\n\n{numbers}\n{currents}"
    ))
}

/// The files that the options ask for.
struct Written {
    svg: Option<OutputFile>,
    csv: Option<OutputFile>,
    vcd: Option<OutputFile>,
}

impl Written {
    fn given(arguments: &Arguments) -> Result<Self, Failure> {
        Ok(Written {
            svg: arguments.written_file(&SVG)?,
            csv: arguments.written_file(&CSV)?,
            vcd: arguments.written_file(&VCD)?,
        })
    }

    /// Writes them, all that can be written.
    fn write(&self, picture: &Picture) -> Result<(), Failure> {
        let sheets = picture.sheets();
        let files = [
            (&self.svg, svg::draw(picture)),
            (&self.csv, csv::written(&sheets)),
            (&self.vcd, vcd::written(&picture.contacts, &sheets)),
        ];
        let written =
            files.map(|(file, text)| file.as_ref().map_or(Ok(()), |file| file.write(text)));
        written.into_iter().collect()
    }
}
