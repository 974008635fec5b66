//! Requests and replies for the strict profile: most as it asks for them, and each of its rules on both sides of its line.

use std::io::{self, Write};

use super::messages::{ENTRIES, Family, list_of, messages, shuffle, spoil};
use super::payloads::{Feed, under};
use super::pieces::{pieces, pieces_of_tokens};
use super::records::{self, good};
use super::tokens::{self, END, up_to_three};
use super::{CRITICAL, kind, record, word};
use crate::corpus::{CELLS, CRATES_LIMIT, LARGEST_LIMIT, LONGEST, put};
use crate::random::Random;
use crate::samples::hex;

const REQUESTS: Family = Family {
    name: "strict requests",
    crates: None,
    largest: None,
    limited: b's',
    long_limit: true,
    fed: b't',
    offered: false,
    // A denied name, which fills no table here.
    entry: 13,
    repeated: &[8, 11, 13, 14, 15, 0x7fff],
    lists: any_lists,
    message: request,
    altered,
    accepted: accepted_request,
    tokens: tokens::of_strict_requests,
};

const REPLIES: Family = Family {
    name: "strict replies",
    crates: None,
    largest: None,
    limited: b'S',
    long_limit: true,
    fed: b'T',
    offered: true,
    entry: 5,
    repeated: &[5, 8, 13, 14, 15, 0x7fff],
    lists: single_lists,
    message: reply,
    altered,
    accepted: accepted_reply,
    tokens: tokens::of_strict_replies,
};

/// Records before an end. Most are refused for nothing before it: of a reply those without a longer list, of a request those
/// without a cookie.
const DECIDED_AT_THE_END: [&str; 12] = [
    "",
    "8001 0002 0000",
    "0004 0002 000F",
    "8001 0000 8004 0000",
    "8001 0000 0004 0002 000F 0005 0001 61",
    "8001 0002 0000 8004 0000 0005 0001 61",
    "8001 0002 0000 8004 0002 000F",
    "8001 0002 0000 8004 0002 000F 0005 0001 61",
    "0004 0002 0011 8001 0002 8001 8005 0000 0005 0000",
    "8001 0004 0000 8001 0004 0004 000F 0011",
    "000D 0001 FF 8001 0002 0000 8004 0002 000F 0005 0000",
    "8001 0002 0000 8004 0002 000F 8006 0001 78 0005 0001 61 0007 0002 007B",
];

/// The corpus: each rule by itself, and `count` random messages of each family, whole, and as many in pieces.
pub fn strict(seed: u64, count: u64, out: &mut impl Write) -> io::Result<()> {
    for family in [&REQUESTS, &REPLIES] {
        let mut random = Random::new(seed, &format!("rules of {}", family.name));
        every_word(family, &mut random, out)?;
        every_name(family, &mut random, out)?;
        cut_names(family, &mut random, out)?;
        short_records(family, &mut random, out)?;
        after_the_end(family, &mut random, out)?;
        bad(family, &mut random, out)?;
        messages(family, seed, count, out)?;
    }
    pieces(&[REQUESTS, REPLIES], seed, count, out)
}

/// All sequences of up to three records of each family, whole and in pieces.
pub fn strict_tokens(seed: u64, out: &mut impl Write) -> io::Result<()> {
    up_to_three(&REQUESTS, seed, out)?;
    up_to_three(&REPLIES, seed, out)?;
    pieces_of_tokens(&[REQUESTS, REPLIES], seed, out)
}

/// A type word with the bit that the profile asks for, and either where it asks for none.
fn bit(random: &mut Random, kind: u16) -> u16 {
    match kind {
        0..=3 => kind | CRITICAL,
        _ => either(random, kind),
    }
}

fn either(random: &mut Random, kind: u16) -> u16 {
    if random.once_in(2) { kind | CRITICAL } else { kind }
}

/// A list of so many numbers.
fn list(random: &mut Random, kind: u16, count: usize) -> Vec<u8> {
    let mut list = list_of(random, kind, count);
    let word = bit(random, kind);
    list[..2].copy_from_slice(&word.to_be_bytes());
    list
}

/// The two lists of a request, of any length.
fn any_lists(random: &mut Random) -> Vec<Vec<u8>> {
    [1, 4]
        .map(|kind| {
            let count = if random.once_in(2) { 1 } else { random.below(4) };
            list(random, kind, count)
        })
        .to_vec()
}

/// The two lists of a reply, of one number.
fn single_lists(random: &mut Random) -> Vec<Vec<u8>> {
    vec![list(random, 1, 1), list(random, 4, 1)]
}

/// A server name in ASCII.
fn server(random: &mut Random) -> Vec<u8> {
    let size = random.below(10);
    let name: Vec<u8> = (0..size).map(|_| random.pick(&[0, b'.', b'a', b'Z', b'7', 0x7e, 0x7f])).collect();
    record(either(random, 6), size, &name)
}

fn port(random: &mut Random) -> Vec<u8> {
    record(either(random, 7), 2, &random.bytes(2))
}

/// A kind that is unknown here: one of those that the profile leaves out, most often, or one that is unknown to all.
fn unknown_kind(random: &mut Random) -> u16 {
    let any = random.between(15, 0x7fff) as u16;
    match random.below(10) {
        kind @ 0..7 => 8 + kind as u16,
        7 => any,
        _ => random.pick(&[8, 9, 10, 12, 13, 14, 11, 15, 0x7fff]),
    }
}

/// An unknown record with that bit. What is in its body is not looked at.
fn unknown(random: &mut Random, bit: u16) -> Vec<u8> {
    let (kind, size) = (unknown_kind(random), random.below(7));
    let body = if random.once_in(3) { records::body(random, kind, size) } else { random.bytes(size) };
    record(kind | bit, body.len(), &body)
}

fn cookie(random: &mut Random) -> Vec<u8> {
    let size = random.below(8);
    record(either(random, 5), size, &random.bytes(size))
}

/// The records of an accepted request before its end; either with denied names for a full table, which they do not fill, or
/// with few unknown ones.
fn accepted_request(random: &mut Random, full: bool) -> Vec<Vec<u8>> {
    let mut records = any_lists(random);
    if full {
        records.extend((0..=ENTRIES).map(|_| record(13, 1, b"n")));
    }
    for _ in 0..random.below(4) {
        records.push(unknown(random, 0));
    }
    for _ in 0..random.below(3) {
        let record = if random.once_in(2) { server(random) } else { port(random) };
        records.push(record);
    }
    records
}

/// The records of an accepted reply before its end.
fn accepted_reply(random: &mut Random, full: bool) -> Vec<Vec<u8>> {
    let mut records = single_lists(random);
    let cookies = if full { ENTRIES } else { random.between(1, 4) };
    records.extend((0..cookies).map(|_| cookie(random)));
    for make in [server, port] {
        if random.once_in(2) {
            records.push(make(random));
        }
    }
    for _ in 0..random.below(3) {
        records.push(unknown(random, 0));
    }
    records
}

/// A request's records, in any order. It fills no table.
fn request(random: &mut Random) -> (Vec<Vec<u8>>, usize) {
    let mut records = accepted_request(random, false);
    shuffle(random, &mut records);
    records.push(END.to_vec());
    (records, 0)
}

/// A reply's records, in any order, and its number of cookies. Now and then a list is empty, too long or missing, or there is
/// no cookie.
fn reply(random: &mut Random) -> (Vec<Vec<u8>>, usize) {
    let mut records = accepted_reply(random, false);
    match random.below(10) {
        0 => {
            let (index, kind) = random.pick(&[(0, 1), (1, 4)]);
            let count = random.pick(&[0, 0, 2]);
            records[index] = list(random, kind, count);
        }
        1 => records.retain(|record| kind(record) != 5),
        2 => {
            let gone = random.pick(&[1, 4]);
            records.retain(|record| kind(record) != gone);
        }
        _ => {}
    }
    let cookies = records.iter().filter(|record| kind(record) == 5).count();
    shuffle(random, &mut records);
    records.push(END.to_vec());
    (records, cookies)
}

/// Records joined: half of them as they are, the others with something changed. Now and then the message is spoiled, and one
/// in five has something after its end.
fn altered(random: &mut Random, mut records: Vec<Vec<u8>>) -> Vec<u8> {
    if random.once_in(2) {
        for _ in 0..random.between(1, 2) {
            alter(random, &mut records);
        }
    }
    let mut message = records.concat();
    if random.once_in(10) {
        spoil(random, &mut message);
    }
    if random.once_in(5) {
        let behind = match random.below(4) {
            0 => END.to_vec(),
            1 => good(random),
            _ => {
                let length = random.between(1, 3);
                random.bytes(length)
            }
        };
        message.extend_from_slice(&behind);
    }
    message
}

/// Breaks a rule, or changes a record so that it may.
fn alter(random: &mut Random, records: &mut Vec<Vec<u8>>) {
    let count = records.len();
    if count == 0 {
        return;
    }
    let at = random.below(count);
    match random.below(14) {
        0 => drop(records.remove(at)),
        1 => {
            let doubled = records[random.below(count)].clone();
            records.insert(at, doubled);
        }
        2 => records.swap(at, random.below(count)),
        // A bit turned over, of any record and of one that needs it.
        3 => records[at][0] ^= 0x80,
        4 => {
            if let Some(record) = records.iter_mut().rfind(|record| kind(record) <= 3) {
                record[0] &= 0x7f;
            }
        }
        5 => {
            let end = records.last_mut().expect("a record");
            let size = random.between(1, 3);
            *end = record(word(end), size, &random.bytes(size));
        }
        6 => {
            let size = random.between(1, 6);
            records.insert(at, record(either(random, 6), size, &records::name(random, size)));
        }
        7 => {
            let size = random.between(1, 4);
            records.insert(at, record(either(random, 6), size, &random.bytes(size)));
        }
        8 => records.insert(at, unknown(random, CRITICAL)),
        9 => {
            let kind = random.pick(&[2, 3]);
            records.insert(at, record(either(random, kind), 2, &random.bytes(2)));
        }
        10 => records.insert(at, faulty(random)),
        11 => {
            let (kind, count) = (random.pick(&[1, 4]), random.below(3));
            let mut list = list(random, kind, count);
            list[0] ^= (random.below(4) as u8 / 3) << 7;
            records.insert(at, list);
        }
        12 => records.insert(at, cookie(random)),
        _ => records.insert(at, good(random)),
    }
}

/// A record of which the size is wrong, with either bit: its own fault comes before 18.
fn faulty(random: &mut Random) -> Vec<u8> {
    let kind = random.pick(&[0, 1, 2, 3, 4, 6, 7, 8, 13]);
    let (size, there) = (random.below(5), random.below(5));
    let body = if random.once_in(2) { records::name(random, there) } else { random.bytes(there) };
    record(either(random, kind), size, &body)
}

/// An accepted message of few records, and where its end record begins.
fn accepted(family: &Family, random: &mut Random) -> (Vec<Vec<u8>>, usize) {
    let mut records = (family.accepted)(random, false);
    shuffle(random, &mut records);
    let end = records.concat().len();
    records.push(END.to_vec());
    (records, end)
}

/// Every type word, with a short body, among the records of an accepted message.
fn every_word(family: &Family, random: &mut Random, out: &mut impl Write) -> io::Result<()> {
    for word in 0..=u16::MAX {
        let (mut records, _) = accepted(family, random);
        let size = random.below(4);
        let at = random.below(records.len());
        records.insert(at, record(word, size, &random.bytes(size)));
        family.put_largest(random, out, &records.concat())?;
    }
    Ok(())
}

/// Server names: every one of a byte and, for a reply, of two; and every byte at each place of some longer ones.
fn every_name(family: &Family, random: &mut Random, out: &mut impl Write) -> io::Result<()> {
    let mut names: Vec<Vec<u8>> = (0..=u8::MAX).map(|byte| vec![byte]).collect();
    if family.offered {
        names.extend((0..=u16::MAX).map(|pair| pair.to_be_bytes().to_vec()));
    }
    for size in 3..=8 {
        for (place, byte) in (0..size).flat_map(|place| (0..=u8::MAX).map(move |byte| (place, byte))) {
            let mut name = vec![b'n'; size];
            name[place] = byte;
            names.push(name);
        }
    }
    let mut behind = (family.lists)(random);
    if family.offered {
        behind.push(cookie(random));
    }
    behind.push(END.to_vec());
    let behind = behind.concat();
    for name in names {
        let name = record(either(random, 6), name.len(), &name);
        family.put_largest(random, out, &[&name[..], &behind].concat())?;
    }
    Ok(())
}

/// Server names with characters of one to four bytes, cut at every place: by the end of the message, by the limit and, in
/// pieces, by the close.
fn cut_names(family: &Family, random: &mut Random, out: &mut impl Write) -> io::Result<()> {
    for size in (1..=12).cycle().take(48) {
        let name = record(either(random, 6), size, &records::name(random, size));
        for place in 4..=name.len() {
            family.put_largest(random, out, &name[..place])?;
            family.put_limited(random, out, (place, CELLS), &name)?;
            let plain = Feed { limit: CRATES_LIMIT, cells: CELLS, buffer: name.len(), close: false };
            let feed = random.pick(&[Feed { limit: place, ..plain }, Feed { close: true, ..plain }]);
            let there = if feed.close { &name[..place] } else { &name };
            let pieces: Vec<&[u8]> = there.chunks(random.between(1, 4)).collect();
            family.put_fed(random, out, feed, &pieces)?;
        }
    }
    Ok(())
}

/// Every kind up to 16 with either bit, and with sizes and bodies of up to five bytes: alone, as the second of its kind, and
/// behind an accepted message's records; whole and in pieces.
fn short_records(family: &Family, random: &mut Random, out: &mut impl Write) -> io::Result<()> {
    for word in (0..=16).flat_map(|kind| [kind, kind | CRITICAL]) {
        for (size, there) in (0..=5).flat_map(|size| (0..=5).map(move |there| (size, there))) {
            for body in [random.bytes(there), records::name(random, there)] {
                let record = record(word, size, &body);
                let (mut records, _) = accepted(family, random);
                records.insert(records.len() - 1, record.clone());
                let behind = records.concat();
                let second = [&record[..], &record, &END].concat();
                for message in [&record, &second, &behind] {
                    family.put_crates(random, out, message)?;
                    let limit = random.pick(&[LARGEST_LIMIT, message.len(), message.len().saturating_sub(1)]);
                    let feed = Feed { limit, cells: CELLS, buffer: message.len(), close: random.once_in(2) };
                    let pieces: Vec<&[u8]> = message.chunks(random.between(1, 5)).collect();
                    family.put_fed(random, out, feed, &pieces)?;
                }
            }
        }
    }
    Ok(())
}

/// Those records with a good end record and with such as are refused: limits, buffers and cuts around the end, with up to three
/// bytes after it, closed and not. Then every byte after the end of accepted messages.
fn after_the_end(family: &Family, random: &mut Random, out: &mut impl Write) -> io::Result<()> {
    let ends = [&END[..], &[0, 0, 0, 0], &[0x80, 0, 0, 1, 0], &[0, 0, 0, 1, 0]];
    for (records, end) in DECIDED_AT_THE_END.iter().flat_map(|records| ends.map(|end| (hex(records), end))) {
        let length = records.len() + end.len();
        for more in 0..=3 {
            let message = [&records[..], end, &random.bytes(more)].concat();
            for limit in (length - 1..=length + 3).chain([LARGEST_LIMIT]) {
                let cells = random.pick(&[0, 1, 2, 3, 4, 5, CELLS]);
                family.put_limited(random, out, (limit, cells), &message)?;
                for buffer in length - 1..=length + 2 {
                    let cells = random.pick(&[1, 2, 3, 4, 5]);
                    let feed = Feed { limit, cells, buffer, close: random.once_in(2) };
                    let at = random.pick(&[length - 1, length, length + 1]).min(message.len());
                    let (first, second) = message.split_at(at);
                    let pieces: Vec<&[u8]> = match random.below(4) {
                        0 => vec![&message],
                        1 => message.chunks(1).collect(),
                        2 => vec![first, &[], second],
                        _ => vec![first, second],
                    };
                    family.put_fed(random, out, feed, &pieces)?;
                }
            }
        }
    }
    for byte in 0..=u8::MAX {
        let (records, end) = accepted(family, random);
        let message = [&records.concat()[..], &[byte]].concat();
        family.put_largest(random, out, &message)?;
        let feed = Feed { limit: CRATES_LIMIT, cells: CELLS, buffer: end + END.len(), close: random.once_in(2) };
        let (first, second) = message.split_at(end + random.below(END.len() + 1));
        family.put_fed(random, out, feed, &[first, second])?;
    }
    Ok(())
}

/// Payloads that do not fit the op on a whole message, and the longest that do.
fn bad(family: &Family, random: &mut Random, out: &mut impl Write) -> io::Result<()> {
    let message = accepted(family, random).0.concat();
    let lists = family.good_lists(random, &message, 30);
    let asked = [&lists[..], &message].concat();
    for limit in [LARGEST_LIMIT, LARGEST_LIMIT + 1, LARGEST_LIMIT + 1 + asked.len(), u32::MAX as usize] {
        put(out, family.limited, &under(limit, CELLS, &asked))?;
    }
    let good = under(LARGEST_LIMIT, CELLS, &asked);
    for length in 0..=good.len() {
        put(out, family.limited, &good[..length])?;
    }
    for length in [LONGEST - 1, LONGEST, LONGEST + 1] {
        for limit in [message.len(), LARGEST_LIMIT] {
            let mut payload = under(limit, CELLS, &asked);
            payload.resize(length, 0x80);
            put(out, family.limited, &payload)?;
        }
    }
    Ok(())
}
