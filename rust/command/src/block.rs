//! The block that a subcommand is about.

use std::ffi::OsStr;
use std::os::unix::ffi::OsStrExt;

use zimgurav::{refused, Counts, Refusal, CONTACTS, RECORD_BYTES};

use crate::bench_text::BenchText;
use crate::cells::Cells;
use crate::failure::Failure;
use crate::files;
use crate::number::counted;
use crate::output;
use crate::record::{records, Record, KINDS};

/// A block that Read accepted.
pub struct Block {
    /// The file that it comes from.
    pub name: String,
    pub file: Vec<u8>,
    pub counts: Counts,
    /// The nets' names, of a bench text; else none.
    names: Vec<String>,
}

impl Block {
    /// Reads a block file, or a bench text with a cell list: of a name that ends in `.bench`, or of
    /// standard input where a list is given.
    pub fn load(path: &OsStr, cells: Option<&OsStr>) -> Result<Self, Failure> {
        let is_text = ends_in_bench(path) || path == "-" && cells.is_some();
        match cells {
            _ if is_text => Block::of_text(path, cells),
            None => Block::of_file(path),
            Some(_) => Err(Failure::usage(
                "--cells is for a bench text, and the name of one ends in .bench",
            )),
        }
    }

    /// Turns a bench text into a block, by a cell list.
    pub fn of_text(path: &OsStr, cells: Option<&OsStr>) -> Result<Self, Failure> {
        let Some(cells) = cells else {
            // A wrong name is told first; standard input is not waited for.
            if path != "-" {
                files::read(path)?;
            }
            return Err(Cells::missing());
        };
        let (name, bytes) = (files::shown(path), files::read(path)?);
        let cells = Cells::load(cells)?;
        let text = BenchText {
            name: &name,
            bytes: &bytes,
        };
        let (file, names) = (text.records(&cells)?, text.names());
        Block::read(name, file, names)
    }

    fn of_file(path: &OsStr) -> Result<Self, Failure> {
        Block::read(files::shown(path), files::read(path)?, Vec::new())
    }

    /// Asks Read whether the file is a block.
    fn read(name: String, file: Vec<u8>, names: Vec<String>) -> Result<Self, Failure> {
        match zimgurav::read(&file) {
            Ok(counts) => Ok(Block {
                name,
                file,
                counts,
                names,
            }),
            Err(refusal) => Err(unread(&name, &file, refusal)),
        }
    }

    pub fn records(&self) -> impl Iterator<Item = Record<'_>> {
        records(&self.file)
    }

    pub fn gates(&self) -> impl Iterator<Item = Record<'_>> {
        self.records().skip(self.counts.inputs as usize)
    }

    /// How many gates there are of each kind.
    pub fn gates_of_kinds(&self) -> [usize; KINDS.len()] {
        let mut counts = [0; KINDS.len()];
        for kind in self.gates().filter_map(|gate| gate.kind()) {
            counts[kind] += 1;
        }
        counts
    }

    /// The contacts that gates are at.
    pub fn contacts(&self) -> Vec<usize> {
        let at = |contact: &usize| {
            let mut contacts = self.gates().map(|gate| usize::from(gate.contact()));
            contacts.any(|one| one == *contact)
        };
        (0..CONTACTS).filter(at).collect()
    }

    pub fn arrivals(&self) -> Vec<u64> {
        arrivals(self.records())
    }

    /// A net by its number and, of a bench text, its name.
    pub fn net(&self, net: usize) -> String {
        format!("net {}", self.numbered(net))
    }

    /// The names of the inputs, of a bench text; else none.
    pub fn input_names(&self) -> &[String] {
        let inputs = self.counts.inputs as usize;
        self.names.get(..inputs).unwrap_or_default()
    }

    /// What a net is called in a list of nets: of a bench text its name, else its number.
    pub fn called(&self, net: usize) -> String {
        let name = self.names.get(net).cloned();
        name.unwrap_or_else(|| net.to_string())
    }

    /// The net that a word of a list calls. It has a number, but the block need not have so many nets.
    pub fn net_called(&self, word: &str) -> Result<usize, String> {
        if self.names.is_empty() {
            let word = output::shortened(word);
            let rule = "the nets of a block file go by their numbers";
            return word
                .parse()
                .map_err(|_| format!("{word} is no net number: {rule}"));
        }
        let net = self.names.iter().position(|name| name == word);
        net.ok_or_else(|| {
            let word = output::shortened(word);
            let rule = "the nets of a bench text go by their names, not by their numbers";
            format!("no net has the name {word}: {rule}")
        })
    }

    fn numbered(&self, net: usize) -> String {
        match self.names.get(net) {
            Some(name) => format!("{net} \"{name}\""),
            None => net.to_string(),
        }
    }

    /// The record of a net in words.
    pub fn net_in_words(&self, net: usize) -> String {
        let record = self.records().nth(net);
        let words = record.map_or(String::new(), |record| {
            record.words(|pin| self.numbered(pin))
        });
        format!("{}: {words}", self.net(net))
    }

    /// How large the block is, in a line.
    pub fn size(&self) -> String {
        let Counts { nets, inputs } = self.counts;
        let counts = [(nets, "net"), (inputs, "input"), (nets - inputs, "gate")];
        counts
            .map(|(count, thing)| counted(count, thing))
            .join(", ")
    }
}

/// Whether a file is a bench text, by its name.
fn ends_in_bench(path: &OsStr) -> bool {
    let name = path.as_bytes().to_ascii_lowercase();
    name.ends_with(b".bench")
}

/// The arrival of each net: 0 for an input, and for a gate the greatest of its pins plus its delay.
fn arrivals<'a>(records: impl Iterator<Item = Record<'a>>) -> Vec<u64> {
    let mut arrivals = Vec::new();
    for record in records {
        let latest = record.pins().iter().map(|pin| arrivals[*pin]).max();
        arrivals.push(latest.unwrap_or(0) + u64::from(record.delay()));
    }
    arrivals
}

/// The refusal of a file, with what stands at its place.
fn unread(name: &str, file: &[u8], refusal: Refusal) -> Failure {
    let place = match refusal.number {
        refused::KIND..=refused::ARRIVAL => Some("net"),
        _ => None,
    };
    let mut standing = match refusal.number {
        refused::LENGTH => {
            let records = counted((file.len() / RECORD_BYTES) as u64, "record");
            let rest = counted((file.len() % RECORD_BYTES) as u64, "byte");
            format!("the file has {records} and {rest} more")
        }
        refused::RECORDS => {
            let records = counted((file.len() / RECORD_BYTES) as u64, "record");
            format!("the file has {records}")
        }
        _ => standing_at(file, refusal),
    };
    let in_text = |byte: &u8| byte.is_ascii_graphic() || byte.is_ascii_whitespace();
    if !file.is_empty() && file.iter().all(in_text) {
        standing += "\nit is a text: a bench text needs --cells LIST, and a name that ends in .bench, or standard input";
    }
    Failure::refused(name, refusal, place, &standing)
}

/// The record of the net that a refusal is about, else the first one.
fn standing_at(file: &[u8], refusal: Refusal) -> String {
    let net = refusal.place as usize;
    let Some(record) = records(file).nth(net) else {
        return "the file is empty".to_string();
    };
    let (words, bytes) = (record.words(|pin| pin.to_string()), record.bytes());
    let arrival = match refusal.number {
        refused::ARRIVAL => {
            // The records before it are right, so that each pin has an arrival.
            let arrivals = arrivals(records(file).take(net + 1));
            format!("; arrives at tick {}", arrivals[net])
        }
        _ => String::new(),
    };
    format!("net {net}: {words}{arrival}\nits bytes: {bytes}")
}
