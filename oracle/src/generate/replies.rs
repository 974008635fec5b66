//! Replies.

use std::io::{self, Write};

use super::messages::{ENTRIES, Family, altered, end, list_of, short, shuffle, unknown};
use super::record;
use super::records::name;
use super::tokens::{self, END};
use crate::corpus::{CELLS, CRATES_LIMIT, LARGEST_LIMIT};
use crate::random::Random;

/// The op under the crate's limit.
pub const CRATES: u8 = b'y';

pub const REPLIES: Family = Family {
    name: "replies",
    crates: Some(CRATES),
    largest: None,
    limited: b'l',
    long_limit: false,
    fed: b'F',
    offered: true,
    entry: 5,
    repeated: &[5, 8, 15, 0x7fff],
    lists,
    message: reply,
    altered,
    accepted,
    tokens: tokens::of_replies,
};

/// Two lists of one number.
fn lists(random: &mut Random) -> Vec<Vec<u8>> {
    vec![list_of(random, 1, 1), list_of(random, 4, 1)]
}

/// The records of a reply, in any order, and its number of cookies. Most are accepted.
fn reply(random: &mut Random) -> (Vec<Vec<u8>>, usize) {
    let cookies = random.pick(&[0, 1, 1, 1, 2, 2, 3, 4, 8, 9]);
    let mut records = with_cookies(random, cookies);
    match random.below(12) {
        0 | 1 => {
            let (index, kind) = random.pick(&[(0, 1), (1, 4)]);
            let count = random.below(3);
            records[index] = list_of(random, kind, count);
        }
        2 => {
            let kind = random.pick(&[9, 10, 12, 13, 14, 14]);
            records.push(short(random, kind));
        }
        _ => {}
    }
    shuffle(random, &mut records);
    records.push(end(random));
    (records, cookies)
}

/// The records before the end of a reply that is accepted.
fn accepted(random: &mut Random, full: bool) -> Vec<Vec<u8>> {
    let cookies = if full { ENTRIES } else { random.between(1, 11) };
    with_cookies(random, cookies)
}

/// The records before the end of a reply with so many cookies.
fn with_cookies(random: &mut Random, cookies: usize) -> Vec<Vec<u8>> {
    let mut records = lists(random);
    for _ in 0..cookies {
        records.push(short(random, 5));
    }
    for kind in [6, 7] {
        if random.once_in(2) {
            records.push(short(random, kind));
        }
    }
    for _ in 0..random.below(4) {
        let record = if random.once_in(2) { short(random, 8) } else { unknown(random, 0) };
        records.push(record);
    }
    records
}

/// Replies with a server name as long as each limit allows, a byte shorter and a byte longer.
pub fn long_names(seed: u64, out: &mut impl Write) -> io::Result<()> {
    let mut random = Random::new(seed, "long names");
    for limit in [CRATES_LIMIT, LARGEST_LIMIT] {
        let longest = limit - 30;
        for size in longest - 1..=longest + 1 {
            let body = name(&mut random, size);
            let mut records = lists(&mut random);
            records.push(record(6, size, &body));
            records.push(record(5, 6, &random.bytes(6)));
            shuffle(&mut random, &mut records);
            records.push(END.to_vec());
            let message = records.concat();
            REPLIES.put_crates(&mut random, out, &message)?;
            REPLIES.put_limited(&mut random, out, (limit, CELLS), &message)?;
        }
    }
    Ok(())
}
