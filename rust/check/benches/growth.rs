//! How the times of Envelope, Simulate and Search grow with nets, inputs, hop limit, nodes of the table
//! and budget: along each axis the library's time as a ratio of its time with the smallest size, and of
//! the second implementation's time.

use check::measure::{compare_sizes, full_blocks, Axis, Turns};
use check::sample::{cone_list, Arguments, Record};
use zimgurav::kind::INPUT;

/// The budget of the searches along every axis but its own.
const BUDGET: u64 = 2;

/// How often Envelope and Simulate are called with each size.
const CALLS: Turns = Turns {
    rounds: 31,
    calls: 2,
};

/// How often Search is called with each size.
const SEARCHES: Turns = Turns {
    rounds: 7,
    calls: 1,
};

/// The records of the arguments' file.
fn records(arguments: &Arguments) -> &[Record] {
    arguments.file.as_chunks().0
}

/// The same arguments with another block, of at most as many records, and the list of its inputs.
fn with_block(arguments: &Arguments, block: &[Record]) -> Arguments {
    let mut arguments = arguments.clone();
    arguments.file = block.concat();
    arguments.order = cone_list(&arguments.file);
    arguments
}

/// The first nets of the block. Pins are below their gates, so that they are a block too.
fn with_nets(arguments: &Arguments, nets: usize) -> Arguments {
    with_block(arguments, &records(arguments)[..nets])
}

/// The same gates over the first inputs alone: a pin at another input goes to one of these.
fn with_inputs(arguments: &Arguments, inputs: usize) -> Arguments {
    let is_input = |record: &&Record| record[0] == INPUT;
    let records = records(arguments);
    let all = records.iter().take_while(is_input).count();
    let mut block = [&records[..inputs], &records[all..]].concat();
    for gate in &mut block[inputs..] {
        let pins = usize::from(gate[3]);
        for pin in gate[4..4 + 2 * pins].as_chunks_mut::<2>().0 {
            let net = usize::from(u16::from_le_bytes(*pin));
            let net = if net < all {
                net % inputs
            } else {
                net - all + inputs
            };
            *pin = (net as u16).to_le_bytes();
        }
    }
    with_block(arguments, &block)
}

fn with_hop_limit(arguments: &Arguments, hop_limit: usize) -> Arguments {
    let mut arguments = arguments.clone();
    arguments.hop_limit = hop_limit as u64;
    arguments
}

/// The first nodes of the table.
fn with_nodes(arguments: &Arguments, nodes: usize) -> Arguments {
    let mut arguments = arguments.clone();
    arguments.table.truncate(16 * nodes);
    arguments
}

fn with_budget(arguments: &Arguments, budget: usize) -> Arguments {
    arguments.clone().with_budget(budget as u64)
}

/// The arguments, changed to each of the sizes.
fn axis(
    name: &'static str,
    arguments: &Arguments,
    change: fn(&Arguments, usize) -> Arguments,
    sizes: &[usize],
) -> Axis {
    let sizes = sizes.iter().map(|&size| (size, change(arguments, size)));
    Axis {
        name,
        sizes: sizes.collect(),
    }
}

/// Envelope, Simulate and Search along an axis that all of them have.
fn compare_all(axis: &Axis) {
    compare_sizes("envelope", Arguments::envelope, axis, CALLS);
    compare_sizes("simulate", Arguments::simulate, axis, CALLS);
    compare_sizes("search", Arguments::search, axis, SEARCHES);
}

fn main() {
    let [wide, deep] = full_blocks().map(|(_, arguments)| arguments.with_budget(BUDGET));
    let few = with_inputs(&wide, 16);
    compare_all(&axis("nets", &few, with_nets, &[64, 128, 256, 512, 976]));
    compare_all(&axis("inputs", &wide, with_inputs, &[4, 8, 16, 32, 64]));
    compare_all(&axis("nodes", &wide, with_nodes, &[1, 2, 4, 8, 16]));

    let hops = axis("hop limit", &deep, with_hop_limit, &[1, 2, 4, 8, 16]);
    compare_sizes("envelope", Arguments::envelope, &hops, CALLS);
    compare_sizes("search", Arguments::search, &hops, SEARCHES);

    let part = with_nets(&wide, 256);
    let budgets = axis("budget", &part, with_budget, &[0, 1, 4, 16, 64, 256]);
    compare_sizes("search", Arguments::search, &budgets, SEARCHES);
}
