//! Choices of a protocol and an algorithm: op g.

use std::io::{self, Write};

use super::payloads::{choice, numbers};
use crate::corpus::{LARGEST_LIMIT, LONGEST, put};
use crate::random::Random;

/// Numbers of lists; some have the bytes of others in another order.
const PROTOCOLS: [u16; 8] = [0, 0x8001, 0x0180, 1, 0x0100, 7, 0xffff, 15];
const ALGORITHMS: [u16; 8] = [15, 17, 0x0f00, 0x1100, 0x0f11, 16, 0, 0xffff];
/// Numbers of which there are all lists.
const FEW_PROTOCOLS: [u16; 3] = [0, 0x8001, 7];
const FEW_ALGORITHMS: [u16; 3] = [15, 17, 16];
/// The algorithms that the crate knows.
const CRATES: [u16; 2] = [15, 17];

/// A random choice. Half of the servers have the crate's algorithms; a list of the client's has now and then a byte more.
pub fn one(random: &mut Random) -> Vec<u8> {
    let [mut protocols, mut algorithms] = [&PROTOCOLS, &ALGORITHMS].map(|all| numbers(&some(random, all, 7)));
    for bytes in [&mut protocols, &mut algorithms] {
        if random.once_in(16) {
            bytes.push(random.below(256) as u8);
        }
    }
    let servers_protocols = some(random, &PROTOCOLS, 6);
    let servers_algorithms = if random.once_in(2) { CRATES.to_vec() } else { some(random, &ALGORITHMS, 6) };
    choice([&protocols, &algorithms], [&servers_protocols, &servers_algorithms])
}

/// Fewer than so many of the numbers, in any order, also repeated.
fn some(random: &mut Random, all: &[u16], end: usize) -> Vec<u16> {
    (0..random.below(end)).map(|_| random.pick(all)).collect()
}

/// All lists of up to two of three numbers of the client's, with all sets of them of the server's.
pub fn every(out: &mut impl Write) -> io::Result<()> {
    for protocols in lists(FEW_PROTOCOLS) {
        for algorithms in lists(FEW_ALGORITHMS) {
            let client = [&numbers(&protocols)[..], &numbers(&algorithms)];
            for servers_protocols in sets(FEW_PROTOCOLS) {
                for servers_algorithms in sets(FEW_ALGORITHMS) {
                    put(out, b'g', &choice(client, [&servers_protocols, &servers_algorithms]))?;
                }
            }
        }
    }
    Ok(())
}

fn lists(few: [u16; 3]) -> Vec<Vec<u16>> {
    let mut lists = vec![vec![]];
    for first in few {
        lists.push(vec![first]);
        lists.extend(few.map(|second| vec![first, second]));
    }
    lists
}

fn sets(few: [u16; 3]) -> Vec<Vec<u16>> {
    (0..8).map(|set| (0..3).filter(|at| set >> at & 1 == 1).map(|at| few[at]).collect()).collect()
}

/// Lists as long as a case allows: of the client's and of the server's, with a common number at the end, elsewhere or nowhere.
pub fn long(random: &mut Random, out: &mut impl Write) -> io::Result<()> {
    let largest = LARGEST_LIMIT / 2;
    for count in [largest - 1, largest, 20_000, 4096] {
        for turn in 0..6 {
            let mut list: Vec<u16> = (0..count).map(|_| random.between(256, 0xffff) as u16).collect();
            match turn {
                0 | 1 => list[count - 1] = 15,
                2 => list[random.below(count)] = 15,
                3 => list[0] = 15,
                4 => list.push(15),
                _ => {}
            }
            let bytes = numbers(&list[..list.len().min(largest)]);
            put(out, b'g', &choice([&bytes, &[0, 15]], [&[3, 15, 5], &[15]]))?;
            put(out, b'g', &choice([&[0, 15], &bytes], [&[15], &[7, 15]]))?;
            put(out, b'g', &choice([&[0, 9, 0, 15], &[0, 15]], [&list, &[15]]))?;
            put(out, b'g', &choice([&[0, 15], &[0, 9, 0, 15]], [&[15], &list]))?;
        }
    }
    // Both long, and of an odd length.
    for _ in 0..4 {
        let list: Vec<u16> = (0..2000).map(|_| random.between(0x8000, 0xffff) as u16).collect();
        let bytes: Vec<u8> = (0..2000).flat_map(|_| (random.between(1, 0x7fff) as u16).to_be_bytes()).collect();
        put(out, b'g', &choice([&bytes, &[0, 15]], [&list, &[15]]))?;
        put(out, b'g', &choice([&[0, 15], &[&bytes[..], &numbers(&list[1999..])].concat()], [&[15], &list]))?;
    }
    for length in [LARGEST_LIMIT, LARGEST_LIMIT - 2] {
        put(out, b'g', &choice([&vec![0; length], &[0, 15]], [&[0], &[15]]))?;
        put(out, b'g', &choice([&[0, 15], &vec![0; length]], [&[15], &[0]]))?;
    }
    // As long as a payload can be, and longer by a number.
    let left = (LONGEST - 12) / 2;
    for count in [left, left + 1] {
        put(out, b'g', &choice([&[0, 15], &[0, 15]], [&vec![15; count], &[15]]))?;
    }
    Ok(())
}
