//! Requests of each sort.

use super::messages::{ENTRIES, Family, altered, end, list, short, shuffle, unknown, word};
use super::{record, tokens};
use crate::random::Random;

pub const REQUESTS: Family = Family {
    name: "requests",
    crates: Some(b'q'),
    largest: Some(b'Q'),
    limited: b'L',
    long_limit: false,
    fed: b'f',
    offered: false,
    entry: 13,
    repeated: &[13, 6, 8, 15, 0x7fff],
    lists,
    message: request,
    altered,
    accepted,
    tokens: tokens::of_requests,
};

/// Any two lists.
fn lists(random: &mut Random) -> Vec<Vec<u8>> {
    vec![list(random, 1), list(random, 4)]
}

/// The records of a request, in any order, and its number of denied names. Most are accepted.
fn request(random: &mut Random) -> (Vec<Vec<u8>>, usize) {
    let mut records = match random.below(4) {
        0 => fixed_key(random),
        1 => support(random),
        _ => lists(random),
    };
    let names = if random.once_in(2) { random.below(6) } else { 0 };
    for _ in 0..names {
        records.push(short(random, 13));
    }
    for _ in 0..random.below(4) {
        records.push(passed_over(random));
    }
    shuffle(random, &mut records);
    records.push(end(random));
    (records, names)
}

/// The records of a fixed-key request; now and then with another algorithm, keys of another length or
/// a list of another length.
fn fixed_key(random: &mut Random) -> Vec<Vec<u8>> {
    let (algorithm, half) = random.pick(&[(15u16, 32), (17, 64)]);
    let algorithm = if random.once_in(6) { random.word() as u16 } else { algorithm };
    let size = match random.below(12) {
        0 => random.pick(&[62, 63, 65, 66, 126, 127, 129, 130]),
        1 => random.pick(&[0, 16, 32, 48, 64, 96, 128, 256]),
        _ => 2 * half,
    };
    let keys = random.bytes(size);
    let protocol: u16 = random.pick(&[0, 0x8001, 7]);
    let mut records = vec![
        record(word(random, 1), 2, &protocol.to_be_bytes()),
        record(word(random, 4), 2, &algorithm.to_be_bytes()),
        record(word(random, 12), size, &keys),
        short(random, 14),
    ];
    if random.once_in(8) {
        let (index, kind) = random.pick(&[(0, 1), (1, 4)]);
        records[index] = list(random, kind);
    }
    records
}

/// The records before the end of a request that is accepted.
fn accepted(random: &mut Random, full: bool) -> Vec<Vec<u8>> {
    let names = if full { ENTRIES } else { random.below(5) };
    let mut records = match random.below(3) {
        0 => good_fixed_key(random),
        1 => support(random),
        _ => {
            let mut records = lists(random);
            if random.once_in(2) {
                records.push(short(random, 14));
            }
            records
        }
    };
    for _ in 0..names {
        records.push(short(random, 13));
    }
    for _ in 0..random.below(6) {
        records.push(passed_over(random));
    }
    records
}

/// The records of a fixed-key request that is accepted.
fn good_fixed_key(random: &mut Random) -> Vec<Vec<u8>> {
    let (algorithm, size) = random.pick(&[(15u16, 64), (17, 128)]);
    vec![
        record(word(random, 1), 2, &random.bytes(2)),
        record(word(random, 4), 2, &algorithm.to_be_bytes()),
        record(word(random, 12), size, &random.bytes(size)),
        short(random, 14),
    ]
}

/// The records of a support request.
fn support(random: &mut Random) -> Vec<Vec<u8>> {
    let mut records = vec![short(random, 14)];
    let wanted = random.between(1, 3);
    if wanted & 1 != 0 {
        records.push(list(random, 9));
    }
    if wanted & 2 != 0 {
        let size = 4 * random.below(3);
        let body = random.bytes(size);
        records.push(record(word(random, 10), size, &body));
    }
    records
}

/// A record that changes no request but for keep-alive.
fn passed_over(random: &mut Random) -> Vec<u8> {
    match random.below(4) {
        0 => {
            let size = random.below(4);
            record(word(random, 8), size, &random.bytes(size))
        }
        1 => short(random, 6),
        2 => record(word(random, 7), 2, &random.bytes(2)),
        _ => unknown(random, 0),
    }
}
