//! Lists of inputs in the order to be split, right and wrong ones.

use super::{Arguments, Random};
use crate::second;
use zimgurav::{ORDER_BYTES, RECORD_BYTES};

/// The most records that the second implementation evaluates for a random list: a moment.
const MOST_TRIED: usize = 4_000;

/// The most children that it makes of an input.
const CHILDREN: usize = 4;

/// The inputs in the order of their cones. It is empty where the file is refused.
pub fn cone_list(file: &[u8]) -> Vec<u8> {
    let mut order = [0; ORDER_BYTES];
    let inputs = second::cone_order(file, &mut order);
    order[..inputs.unwrap_or(0) as usize].to_vec()
}

/// The inputs in the order of the bounds. It is empty where the arguments are refused.
pub fn bound_list(arguments: &Arguments) -> Vec<u8> {
    let (file, table) = (&arguments.file, &arguments.table);
    let mut order = [0; ORDER_BYTES];
    let mut work = arguments.work.clone();
    let inputs = second::bound_order(file, arguments.hop_limit, table, &mut work, &mut order);
    order[..inputs.unwrap_or(0) as usize].to_vec()
}

/// An accepted list for the inputs of accepted arguments: in the order of the cones, of the bounds
/// where these are soon found, or in any order.
pub fn random_list(random: &mut Random, arguments: &Arguments) -> Vec<u8> {
    let by_cone = cone_list(&arguments.file);
    let records = arguments.file.len() / RECORD_BYTES;
    let tried = CHILDREN * by_cone.len() * records;
    match random.below(4) {
        0 => by_cone,
        1 if tried <= MOST_TRIED => bound_list(arguments),
        _ => shuffled(random, by_cone),
    }
}

/// The list in any order.
pub fn shuffled(random: &mut Random, mut list: Vec<u8>) -> Vec<u8> {
    for place in 1..list.len() {
        list.swap(place, random.below(place + 1));
    }
    list
}

/// Spoils a list in one random way. It stays right where two inputs are swapped, or one is written
/// over by itself.
pub fn spoil_list(random: &mut Random, list: &mut Vec<u8>) {
    let length = list.len();
    let past = random.pick(&[length as u8, length as u8 + 1, 64, 255]);
    if length == 0 {
        list.push(past);
        return;
    }
    let (place, other) = (random.below(length), random.below(length));
    match random.below(6) {
        0 => list.truncate(random.pick(&[0, length - 1])),
        1 => list.push(random.pick(&[0, past])),
        2 => list.resize(random.pick(&[ORDER_BYTES, ORDER_BYTES + 1]), 0),
        3 => list[place] = list[other],
        4 => list[place] = past,
        _ => list.swap(place, other),
    }
}

#[cfg(test)]
mod tests {
    use super::*;
    use crate::sample::{block_f, gate, input};
    use zimgurav::kind::NOT;

    #[test]
    fn the_cone_list_of_a_block() {
        assert_eq!(cone_list(&block_f().concat()), [0, 1]);
        let second_feeds = [input(15), input(15), gate(NOT, &[1])];
        assert_eq!(cone_list(&second_feeds.concat()), [1, 0]);
        assert_eq!(cone_list(&[]), []);
    }

    /// Every order of three inputs comes up, and each names each of them once.
    #[test]
    fn shuffled_lists() {
        let mut random = Random::new(1);
        let lists = (0..100).map(|_| shuffled(&mut random, vec![0, 1, 2]));
        let mut lists: Vec<Vec<u8>> = lists.collect();
        lists.sort();
        lists.dedup();
        let all = [
            [0, 1, 2],
            [0, 2, 1],
            [1, 0, 2],
            [1, 2, 0],
            [2, 0, 1],
            [2, 1, 0],
        ];
        assert_eq!(lists, all);
    }
}
