//! The arrivals that the command shows, held to the library's check 10.

use crate::run::{file, printed};
use zimgurav::refused::ARRIVAL;
use zimgurav::{Refusal, RECORD_BYTES};

const BLOCK: &str = "examples/adder24.blk";

/// The records up to a net, and buffers after it, one after the other, of so many ticks together.
fn delayed(block: &[u8], net: usize, mut ticks: u64) -> Vec<u8> {
    let mut block = block[..RECORD_BYTES * (net + 1)].to_vec();
    let mut pin = net as u8;
    while ticks > 0 {
        let delay = ticks.min(63);
        let record = [
            9,
            0,
            delay as u8,
            1,
            pin,
            0,
            0,
            0,
            0,
            0,
            0,
            0,
            1,
            1,
            0,
            0,
            0,
            0,
            0,
            0,
        ];
        block.extend(record);
        ticks -= delay;
        pin = (block.len() / RECORD_BYTES - 1) as u8;
    }
    block
}

/// A net that arrives at tick a can be delayed by 255 − a ticks, and not by one more.
#[test]
fn are_those_of_the_library() {
    let nets = printed(&["read", BLOCK, "--nets"]);
    let gates: Vec<(usize, u64)> = nets
        .lines()
        .filter_map(|line| {
            let (words, arrival) = line.split_once("; arrives at tick ")?;
            let net = words.strip_prefix("net ")?.split(':').next()?;
            Some((net.parse().ok()?, arrival.parse().ok()?))
        })
        .collect();
    assert_eq!(gates.len(), 120);
    let block = file(BLOCK);
    for (net, arrival) in gates {
        let in_time = delayed(&block, net, 255 - arrival);
        assert!(zimgurav::read(&in_time).is_ok(), "net {net}");
        let late = delayed(&block, net, 256 - arrival);
        let place = (late.len() / RECORD_BYTES - 1) as u64;
        let refusal = Refusal {
            number: ARRIVAL,
            place,
        };
        assert_eq!(zimgurav::read(&late), Err(refusal), "net {net}");
    }
}
