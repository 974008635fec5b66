//! The lists that a reply's reader is told were offered, made for what the reply names.

use super::kind;
use super::payloads::offered;
use crate::random::Random;

/// A list can have so many numbers.
pub const LONGEST_LIST: usize = 255;
/// What a reply is taken to name where it has no such list.
const USUAL: [u16; 2] = [0, 15];

/// Two lists in no more bytes than the room. Most hold what the message names; some lack the protocol, the algorithm or both,
/// and some have them exchanged.
pub fn any(random: &mut Random, message: &[u8], room: usize) -> Vec<u8> {
    let [protocol, algorithm] = named(message);
    let most = longest(room);
    let lists = match random.below(12) {
        0 => [lacking(random, protocol, most), holding(random, algorithm, most)],
        1 => [holding(random, protocol, most), lacking(random, algorithm, most)],
        2 => {
            if random.once_in(2) {
                [lacking(random, protocol, most), lacking(random, algorithm, most)]
            } else {
                exchanged(random, [protocol, algorithm], most)
            }
        }
        _ => [holding(random, protocol, most), holding(random, algorithm, most)],
    };
    offered([&lists[0], &lists[1]])
}

/// Two lists that hold what the message names, in no more bytes than the room.
pub fn good(random: &mut Random, message: &[u8], room: usize) -> Vec<u8> {
    let lists = named(message).map(|number| holding(random, number, longest(room)));
    offered([&lists[0], &lists[1]])
}

/// How many numbers each of two lists can have in so many bytes.
fn longest(room: usize) -> usize {
    (room.saturating_sub(2) / 4).min(LONGEST_LIST)
}

/// The first number of a message's first protocol and first algorithm list, found by the records' sizes.
fn named(message: &[u8]) -> [u16; 2] {
    let mut found = [None; 2];
    let mut rest = message;
    while let &[_, _, high, low, ref behind @ ..] = rest {
        let Some((body, behind)) = behind.split_at_checked(u16::from_be_bytes([high, low]).into()) else { break };
        let list = match kind(rest) {
            0 => break,
            1 => 0,
            4 => 1,
            _ => 2,
        };
        if let (Some(number @ None), &[high, low, ..]) = (found.get_mut(list), body) {
            *number = Some(u16::from_be_bytes([high, low]));
        }
        rest = behind;
    }
    [0, 1].map(|list| found[list].unwrap_or(USUAL[list]))
}

/// A list that holds a number: alone, at any place among others, or twice.
pub fn holding(random: &mut Random, number: u16, most: usize) -> Vec<u16> {
    if most < 2 || random.once_in(4) {
        return vec![number; most.min(1)];
    }
    let mut list = others(random, number, most - 1);
    let times = if random.once_in(5) && list.len() + 2 <= most { 2 } else { 1 };
    for _ in 0..times {
        let last = list.len();
        let any = random.below(last + 1);
        list.insert(random.pick(&[0, last, any, any]), number);
    }
    list
}

/// A list that does not hold a number; now and then an empty one.
pub fn lacking(random: &mut Random, number: u16, most: usize) -> Vec<u16> {
    if random.once_in(4) { Vec::new() } else { others(random, number, most) }
}

/// Two lists, each of which holds what the other ought to, if the two are not the same.
fn exchanged(random: &mut Random, [protocol, algorithm]: [u16; 2], most: usize) -> [Vec<u16>; 2] {
    let mut lists = [holding(random, algorithm, most), holding(random, protocol, most)];
    lists[0].retain(|&number| number != protocol || number == algorithm);
    lists[1].retain(|&number| number != algorithm || number == protocol);
    lists
}

/// At least one number other than that one, if there may be one; now and then very many.
fn others(random: &mut Random, number: u16, most: usize) -> Vec<u16> {
    let count = match random.below(150) {
        0 => random.pick(&[LONGEST_LIST - 1, LONGEST_LIST, 127, 128, 129]),
        1 => random.between(5, LONGEST_LIST),
        _ => random.between(1, 4),
    };
    (0..count.min(most)).map(|_| other(random, number)).collect()
}

/// Another number: one of those that messages name, one with the same upper or lower byte, one that differs in one bit, or any.
pub fn other(random: &mut Random, number: u16) -> u16 {
    let other = match random.below(8) {
        0..3 => random.pick(&[0, 0x8001, 15, 17, 16, 7, 0xffff]),
        3 => number.swap_bytes(),
        4 => number & 0xff00 | random.below(256) as u16,
        5 => number & 0x00ff | (random.below(256) as u16) << 8,
        6 => number ^ 1 << random.below(16),
        _ => random.word() as u16,
    };
    if other == number { number ^ 1 << random.below(16) } else { other }
}
