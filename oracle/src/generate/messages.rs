//! Messages of a family: random ones, mutated ones, and those around the limits of message and table.

use std::io::{self, Write};

use super::payloads::{Feed, under};
use super::records::{body, good};
use super::tokens::END;
use super::{limited, offers, record};
use crate::corpus::{CELLS, CRATES_LIMIT, LARGEST_LIMIT, LONGEST, put};
use crate::payload::Payload;
use crate::random::Random;

/// The entries of the largest table.
pub const ENTRIES: usize = CELLS / 2;
/// A limit and a table's cells can stand before the lists of ops y and l.
pub const BEFORE_LISTS: usize = 4;

/// What requests and replies differ in, for what makes messages of either.
pub struct Family {
    /// The name of the corpus of random messages.
    pub name: &'static str,
    /// The op under the crate's limit with the largest table, if there is one.
    pub crates: Option<u8>,
    /// The op under the largest limit with the largest table, if there is one.
    pub largest: Option<u8>,
    /// The op under a limit with a table, and whether its limit has four bytes.
    pub limited: u8,
    pub long_limit: bool,
    /// The op that is fed in pieces.
    pub fed: u8,
    /// Whether the reader is told which lists were offered.
    pub offered: bool,
    /// The kind of the records that fill the table.
    pub entry: u16,
    /// Kinds that a message may have any number of.
    pub repeated: &'static [u16],
    /// A protocol and an algorithm list that are accepted.
    pub lists: fn(&mut Random) -> Vec<Vec<u8>>,
    /// A message's records, in any order, and how many of them fill the table. Most are accepted.
    pub message: fn(&mut Random) -> (Vec<Vec<u8>>, usize),
    /// Those records joined, whole or with something altered.
    pub altered: fn(&mut Random, Vec<Vec<u8>>) -> Vec<u8>,
    /// The records before the end of an accepted message, either with a full table or without.
    pub accepted: fn(&mut Random, bool) -> Vec<Vec<u8>>,
    /// Records of which sequences are made.
    pub tokens: fn() -> Vec<Vec<u8>>,
}

impl Family {
    /// A case under the crate's limit with the largest table.
    pub fn put_crates(&self, random: &mut Random, out: &mut impl Write, message: &[u8]) -> io::Result<()> {
        match self.crates {
            Some(op) => put(out, op, &self.with_lists(random, 0, message)),
            None => self.put_limited(random, out, (CRATES_LIMIT, CELLS), message),
        }
    }

    /// A case under a limit with a table.
    pub fn put_limited(
        &self,
        random: &mut Random,
        out: &mut impl Write,
        (limit, cells): (usize, usize),
        message: &[u8],
    ) -> io::Result<()> {
        let message = self.with_lists(random, self.before_lists(), message);
        put(out, self.limited, &self.limited(limit, cells, &message))
    }

    /// A case under the largest limit with the largest table.
    pub fn put_largest(&self, random: &mut Random, out: &mut impl Write, message: &[u8]) -> io::Result<()> {
        let message = self.with_lists(random, self.before_lists(), message);
        self.put_largest_with(out, &[], &message)
    }

    /// The same with those lists in front.
    pub fn put_largest_with(&self, out: &mut impl Write, lists: &[u8], message: &[u8]) -> io::Result<()> {
        let message = [lists, message].concat();
        match self.largest {
            Some(op) => put(out, op, &message),
            None => put(out, self.limited, &self.limited(LARGEST_LIMIT, CELLS, &message)),
        }
    }

    /// The payload of the op under a limit.
    fn limited(&self, limit: usize, cells: usize, message: &[u8]) -> Vec<u8> {
        if self.long_limit { under(limit, cells, message) } else { limited(limit, cells, message) }
    }

    /// How many bytes of that payload stand before the lists.
    fn before_lists(&self) -> usize {
        self.limited(0, 0, &[]).len()
    }

    /// A case that is fed in pieces.
    pub fn put_fed(&self, random: &mut Random, out: &mut impl Write, feed: Feed, pieces: &[&[u8]]) -> io::Result<()> {
        let payload = feed.payload(pieces.iter().copied());
        let lists = self.lists_before(random, &pieces.concat(), LONGEST.saturating_sub(payload.len()));
        put(out, self.fed, &[lists, payload].concat())
    }

    /// A message with lists in front, if its reader is told of them; so many other bytes stand before them.
    fn with_lists(&self, random: &mut Random, before: usize, message: &[u8]) -> Vec<u8> {
        let lists = self.lists_before(random, message, LONGEST.saturating_sub(before + message.len()));
        [&lists[..], message].concat()
    }

    /// Lists for the reader of a message, if it is told of them, in no more bytes than the room.
    fn lists_before(&self, random: &mut Random, message: &[u8], room: usize) -> Vec<u8> {
        if self.offered { offers::any(random, message, room) } else { Vec::new() }
    }

    /// Lists that hold what the message names, if its reader is told of them, in no more bytes than the room.
    pub fn good_lists(&self, random: &mut Random, message: &[u8], room: usize) -> Vec<u8> {
        if self.offered { offers::good(random, message, room) } else { Vec::new() }
    }

    /// The lists and the message of a case under the largest limit with the largest table; none for another.
    pub fn largest_message<'a>(&self, op: u8, payload: &'a [u8]) -> Option<(&'a [u8], &'a [u8])> {
        let payload = match self.largest {
            Some(largest) => Some(payload).filter(|_| op == largest)?,
            None => {
                payload.strip_prefix(&self.limited(LARGEST_LIMIT, CELLS, &[])[..]).filter(|_| op == self.limited)?
            }
        };
        let mut rest = Payload(payload);
        if self.offered {
            let _: [Vec<u16>; 2] = [rest.listed()?, rest.listed()?];
        }
        Some(payload.split_at(payload.len() - rest.0.len()))
    }
}

/// The corpus of random messages.
pub fn messages(family: &Family, seed: u64, count: u64, out: &mut impl Write) -> io::Result<()> {
    let mut random = Random::new(seed, family.name);
    every_limit(family, &mut random, out)?;
    every_room(family, &mut random, out)?;
    around(family, &mut random, out, CRATES_LIMIT, 60)?;
    around(family, &mut random, out, LARGEST_LIMIT, 1)?;
    full_tables(family, &mut random, out)?;
    bad(family, &mut random, out)?;
    for _ in 0..count {
        let (message, _) = one(family, &mut random);
        one_op(family, &mut random, out, &message)?;
    }
    Ok(())
}

/// A message, whole or with something altered, and how many records of it were made to fill the table.
pub fn one(family: &Family, random: &mut Random) -> (Vec<u8>, usize) {
    let (records, entries) = (family.message)(random);
    ((family.altered)(random, records), entries)
}

/// Records joined: whole, mutated or spoiled, and now and then with another behind them.
pub fn altered(random: &mut Random, mut records: Vec<Vec<u8>>) -> Vec<u8> {
    if random.once_in(2) {
        mutate(random, &mut records);
    }
    let mut message = records.concat();
    if random.once_in(6) {
        spoil(random, &mut message);
    }
    if random.once_in(4) {
        message.extend_from_slice(&good(random));
    }
    message
}

/// One of the ops; a limit is mostly around the message's length and a table around its entries.
fn one_op(family: &Family, random: &mut Random, out: &mut impl Write, message: &[u8]) -> io::Result<()> {
    match random.below(4) {
        0 => family.put_largest(random, out, message),
        1 => {
            let limit = match random.below(4) {
                0 => message.len() + random.below(9) - message.len().min(4),
                1 => random.below(message.len() + 1),
                2 => LARGEST_LIMIT,
                _ => random.below(LARGEST_LIMIT + 1),
            };
            let cells = if random.once_in(4) { random.below(CELLS + 1) } else { random.below(14) };
            family.put_limited(random, out, (limit.min(LARGEST_LIMIT), cells), message)
        }
        _ => family.put_crates(random, out, message),
    }
}

/// A kind's type word, with either bit.
pub fn word(random: &mut Random, kind: u16) -> u16 {
    kind | (random.below(2) as u16) << 15
}

/// A list of numbers, mostly of one.
pub fn list(random: &mut Random, kind: u16) -> Vec<u8> {
    let count = if random.once_in(2) { 1 } else { random.below(5) };
    list_of(random, kind, count)
}

/// A list of so many numbers.
pub fn list_of(random: &mut Random, kind: u16, count: usize) -> Vec<u8> {
    let mut body = Vec::new();
    for _ in 0..count {
        let number: u16 = random.pick(&[0, 0x8001, 15, 17, 16, 7, 0xffff]);
        body.extend_from_slice(&number.to_be_bytes());
    }
    record(word(random, kind), body.len(), &body)
}

/// A record of that kind with a short body.
pub fn short(random: &mut Random, kind: u16) -> Vec<u8> {
    let size = random.below(12);
    let body = body(random, kind, size);
    record(word(random, kind), body.len(), &body)
}

/// An unknown record with that bit.
pub fn unknown(random: &mut Random, bit: u16) -> Vec<u8> {
    let kind: u16 = random.pick(&[11, 15, 16, 255, 0x7fff]);
    let size = random.below(9);
    record(kind | bit << 15, size, &random.bytes(size))
}

pub fn end(random: &mut Random) -> Vec<u8> {
    let size = if random.once_in(8) { random.below(5) } else { 0 };
    let body = random.bytes(size);
    record(word(random, 0), size, &body)
}

pub fn shuffle(random: &mut Random, records: &mut [Vec<u8>]) {
    for last in (1..records.len()).rev() {
        records.swap(last, random.below(last + 1));
    }
}

/// Drops, doubles, moves or adds a record.
pub fn mutate(random: &mut Random, records: &mut Vec<Vec<u8>>) {
    for _ in 0..random.between(1, 2) {
        let count = records.len();
        if count == 0 {
            return;
        }
        let at = random.below(count);
        match random.below(8) {
            0 => drop(records.remove(at)),
            1 => {
                let doubled = records[random.below(count)].clone();
                records.insert(at, doubled);
            }
            2 => records.swap(at, random.below(count)),
            3 => records.insert(at, unknown(random, 1)),
            4 => records.insert(at, record(random.pick(&[0x8002, 0x8003]), 2, &random.bytes(2))),
            5 => records.insert(at, record(5, 3, &random.bytes(3))),
            6 => {
                let kind = random.pick(&[1, 4, 9, 10]);
                let added = if kind == 10 { record(0x800a, 0, &[]) } else { list(random, kind) };
                records.insert(at, added);
            }
            _ => records.insert(at, good(random)),
        }
    }
}

/// Cuts a message or turns over bits of it.
pub fn spoil(random: &mut Random, message: &mut Vec<u8>) {
    if message.is_empty() {
        return;
    }
    if random.once_in(2) {
        message.truncate(random.below(message.len()));
    } else {
        for _ in 0..random.between(1, 3) {
            let at = random.below(message.len());
            message[at] ^= 1 << random.below(8);
        }
    }
}

/// Short messages under every limit up to beyond their length.
fn every_limit(family: &Family, random: &mut Random, out: &mut impl Write) -> io::Result<()> {
    for _ in 0..150 {
        let (records, entries) = (family.message)(random);
        let message = [records.concat(), random.bytes(3)].concat();
        for limit in 0..=message.len() + 2 {
            let cells = (2 * entries + random.below(4)).saturating_sub(1);
            family.put_limited(random, out, (limit, cells), &message)?;
        }
    }
    Ok(())
}

/// Messages with some entries, and tables around them.
fn every_room(family: &Family, random: &mut Random, out: &mut impl Write) -> io::Result<()> {
    for entries in 0..=12 {
        for cells in 0..=2 * entries + 3 {
            let mut records = (family.lists)(random);
            for _ in 0..entries {
                records.push(short(random, family.entry));
            }
            shuffle(random, &mut records);
            records.push(END.to_vec());
            family.put_limited(random, out, (LARGEST_LIMIT, cells), &records.concat())?;
        }
    }
    Ok(())
}

/// A message of exactly that length through its end record.
pub fn of_length(family: &Family, random: &mut Random, length: usize) -> Vec<u8> {
    let (mut records, _) = (family.message)(random);
    let end = records.pop().expect("an end record");
    let mut rest = length - end.len() - records.concat().len();
    while rest > 0 {
        let size = match random.below(4) {
            _ if rest < 12 => rest - 4,
            0 => rest - 4,
            1 => random.below(rest - 7),
            _ => random.below(200).min(rest - 8),
        };
        records.push(filler(family, random, size));
        rest -= 4 + size;
    }
    shuffle(random, &mut records);
    records.push(end);
    records.concat()
}

/// A record with a body of that size, of which an accepted message may have any number.
pub fn filler(family: &Family, random: &mut Random, size: usize) -> Vec<u8> {
    let kind = random.pick(family.repeated);
    record(kind, size, &body(random, kind, size))
}

/// Messages around a limit, under it and around it, with bytes after their end.
fn around(family: &Family, random: &mut Random, out: &mut impl Write, limit: usize, times: usize) -> io::Result<()> {
    for _ in 0..times {
        for length in limit - 6..=limit + 6 {
            let mut message = of_length(family, random, length);
            for more in [0, 1, 5] {
                message.resize(length + more, 0x80);
                family.put_crates(random, out, &message)?;
                family.put_largest(random, out, &message)?;
                let near = (limit + random.below(9) - 4).min(LARGEST_LIMIT);
                family.put_limited(random, out, (near, CELLS), &message)?;
            }
        }
    }
    Ok(())
}

/// Entries around the room of the largest table, and as many as a message can have.
fn full_tables(family: &Family, random: &mut Random, out: &mut impl Write) -> io::Result<()> {
    for entries in [ENTRIES - 1, ENTRIES, ENTRIES + 1, 2 * ENTRIES, 16_000] {
        for _ in 0..12 {
            let longest = if entries > 2 * ENTRIES { 0 } else { 20 };
            let mut records = (family.lists)(random);
            for _ in 0..entries {
                let size = random.below(longest + 1);
                let body = body(random, family.entry, size);
                records.push(record(family.entry, size, &body));
            }
            shuffle(random, &mut records);
            records.push(END.to_vec());
            let message = records.concat();
            family.put_crates(random, out, &message)?;
            family.put_largest(random, out, &message)?;
            let cells = (2 * entries).min(CELLS) - random.below(4);
            family.put_limited(random, out, (LARGEST_LIMIT, cells), &message)?;
        }
    }
    Ok(())
}

/// Payloads that do not fit the op under a limit with a table.
fn bad(family: &Family, random: &mut Random, out: &mut impl Write) -> io::Result<()> {
    for length in 0..family.before_lists() {
        put(out, family.limited, &random.bytes(length))?;
    }
    let message = [(family.lists)(random).concat(), END.to_vec()].concat();
    for cells in [CELLS, CELLS + 1, 4096, LARGEST_LIMIT] {
        family.put_limited(random, out, (LARGEST_LIMIT, cells), &message)?;
    }
    Ok(())
}
