//! The list of inputs in the order to be split: made by the library, or read from a file.

use std::ffi::{OsStr, OsString};

use zimgurav::Refusal;

use crate::arguments::Arguments;
use crate::block::Block;
use crate::failure::Failure;
use crate::files;
use crate::number::counted;
use crate::options::ORDER;
use crate::output;

// The words of the library's makers.
pub const CONE: &str = "cone";
pub const BOUNDS: &str = "bounds";

/// Where a list comes from.
pub enum Source {
    /// The library makes it by the inputs' fan-out cones.
    Cone,
    /// The library makes it by the bounds of the cases that a split makes.
    Bounds,
    /// It stands in a file.
    File(OsString),
}

impl Source {
    pub fn given(arguments: &Arguments) -> Self {
        match arguments.value_or_default(&ORDER) {
            word if word == CONE => Source::Cone,
            word if word == BOUNDS => Source::Bounds,
            path => Source::File(path.to_os_string()),
        }
    }
}

/// A list of inputs.
pub struct Order {
    /// The word of the maker, or the file's name.
    source: String,
    /// The nets, as the library is lent them.
    pub lent: Vec<u8>,
    /// The nets that a file names, each with its line; none of a list that the library made.
    named: Vec<(usize, usize)>,
}

impl Order {
    /// A list that the library made, by the word of the maker.
    pub fn made(word: &str, list: &[u8]) -> Self {
        Order {
            source: word.to_string(),
            lent: list.to_vec(),
            named: Vec::new(),
        }
    }

    /// A list from a file. Whether it names each input once, the library judges.
    pub fn load(block: &Block, path: &OsStr) -> Result<Self, Failure> {
        let named = files::words(path, |word| block.net_called(word))?;
        Ok(Order::of_file(files::shown(path), named))
    }

    fn of_file(name: String, named: Vec<(usize, usize)>) -> Self {
        Order {
            source: name,
            lent: named.iter().map(|(_, net)| byte(*net)).collect(),
            named,
        }
    }

    /// The list in words, its nets as a file would have them.
    pub fn words(&self, block: &Block) -> String {
        let nets = self.lent.iter().map(|net| block.called(usize::from(*net)));
        let nets = nets.collect::<Vec<_>>().join(" ");
        format!("split order: {} ({nets})", self.source)
    }

    /// The refusal of the list, with what is wrong with it.
    pub fn refused(&self, block: &Block, refusal: Refusal) -> Failure {
        let faults = self.faults(block).join("\n");
        Failure::refused(&self.source, refusal, None, &faults)
    }

    fn faults(&self, block: &Block) -> Vec<String> {
        let faults = [self.wrong(block), self.missing(block)];
        faults.into_iter().flatten().collect()
    }

    /// The first net that should not stand where it does: it is no input, or the list has it already.
    fn wrong(&self, block: &Block) -> Option<String> {
        let mut named = self.named.iter().enumerate();
        named.find_map(|(at, &(line, net))| {
            let names = format!("line {line} names {}", block.called(net));
            if net >= block.counts.inputs as usize {
                return Some(format!("{names}, {}", other_net(block, net)));
            }
            let earlier = self.named[..at].iter().find(|(_, named)| *named == net);
            earlier.map(|(first, _)| match *first {
                first if first == line => format!("{names} twice"),
                first => format!("{names} a second time, after line {first}"),
            })
        })
    }

    /// The inputs that are not named.
    fn missing(&self, block: &Block) -> Option<String> {
        let inputs = 0..block.counts.inputs as usize;
        let missing = inputs.filter(|input| self.named.iter().all(|(_, net)| net != input));
        let missing: Vec<String> = missing.map(|input| block.called(input)).collect();
        let names = output::shortened(&missing.join(", "));
        match missing.len() {
            0 => None,
            1 => Some(format!("no line names the input {names}")),
            _ => Some(format!("no line names the inputs {names}")),
        }
    }
}

/// What a net is that is no input.
fn other_net(block: &Block, net: usize) -> String {
    let nets = block.counts.nets;
    match net as u64 {
        net if net < nets => "which is a gate and no input".to_string(),
        _ => format!("and {} has {}", block.name, counted(nets, "net")),
    }
}

/// A net as a byte of the list. One that a byte has no room for is no input; in its place stands 255, which is none
/// either.
fn byte(net: usize) -> u8 {
    u8::try_from(net).unwrap_or(u8::MAX)
}

#[cfg(test)]
mod tests {
    use super::*;
    use zimgurav::{refused, store_bytes, work_bytes, CONTACTS, PATTERN_BYTES, SHEET_WORDS};

    /// Nets to be named: the inputs of block F, its gates, one that it does not have, and the first that no byte has room for.
    const NETS: [usize; 6] = [0, 1, 2, 3, 4, 256];

    /// Whether the library takes the list.
    fn accepted(block: &Block, order: &Order) -> bool {
        let searched = zimgurav::search(
            &block.file,
            10,
            &[1; CONTACTS],
            1_000,
            0,
            &order.lent,
            &mut [0; SHEET_WORDS],
            &mut [0; PATTERN_BYTES],
            &mut vec![0; work_bytes(block.counts.nets)],
            &mut vec![0; store_bytes(0)],
        );
        let refusal = searched.err().map(|refusal| refusal.number);
        assert!(
            matches!(refusal, None | Some(refused::ORDER)),
            "{refusal:?}"
        );
        refusal.is_none()
    }

    /// The list of this length that has such a number: a line for each net.
    fn list(length: u32, number: usize) -> Order {
        let nets = (0..length).map(|at| NETS[number / NETS.len().pow(at) % NETS.len()]);
        Order::of_file("a list".to_string(), (1..).zip(nets).collect())
    }

    /// Of every list of up to three of the nets, a fault is found just where the library refuses it.
    #[test]
    fn faults_are_found_where_the_library_refuses() {
        let path = concat!(env!("CARGO_MANIFEST_DIR"), "/../../examples/block_f.blk");
        let block = Block::load(path.as_ref(), None).expect("block F");
        let lists = (0..=3).flat_map(|length| {
            let numbers = 0..NETS.len().pow(length);
            numbers.map(move |number| list(length, number))
        });
        let right = lists.filter(|order| {
            let (accepted, faults) = (accepted(&block, order), order.faults(&block));
            assert_eq!(accepted, faults.is_empty(), "{:?}", order.named);
            accepted
        });
        assert_eq!(right.count(), 2);
    }
}
