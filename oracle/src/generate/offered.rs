//! Replies and the lists that were offered, one by one: every number, every place of a list, all short lists beside replies of
//! every sort, the longest lists, and payloads that end inside them.

use std::io::{self, Write};

use super::messages::{list_of, shuffle, unknown};
use super::offers::{LONGEST_LIST, lacking, other};
use super::payloads::{Feed, numbers, offered as lists};
use super::replies::{CRATES, REPLIES};
use super::tokens::END;
use super::{limited, record};
use crate::corpus::{CELLS, CRATES_LIMIT, LARGEST_LIMIT, LONGEST, put};
use crate::payload::ROOM;
use crate::random::Random;

/// The kinds of the two lists, in the order in which they are offered, and a number of each.
const KINDS: [u16; 2] = [1, 4];
const USUAL: [u16; 2] = [0, 15];
/// The numbers of all short lists.
const NUMBERS: [u16; 4] = [0, 15, 17, 0x8001];
/// What a reply has of each list: no such record, or one of these.
const PROTOCOLS: [Option<&[u16]>; 6] = [None, Some(&[]), Some(&[0]), Some(&[15]), Some(&[0x8001]), Some(&[0, 15])];
const ALGORITHMS: [Option<&[u16]>; 6] = [None, Some(&[]), Some(&[15]), Some(&[0]), Some(&[17]), Some(&[15, 17])];

pub fn offered(seed: u64, out: &mut impl Write) -> io::Result<()> {
    let mut random = Random::new(seed, "offered");
    every_number(&mut random, out)?;
    short_lists(&mut random, out)?;
    every_place(&mut random, out)?;
    longest(&mut random, out)?;
    cut(out)
}

/// A reply's records before its end.
fn records(random: &mut Random, protocols: Option<&[u16]>, algorithms: Option<&[u16]>, cookies: usize) -> Vec<Vec<u8>> {
    let mut records = Vec::new();
    for (kind, list) in KINDS.into_iter().zip([protocols, algorithms]) {
        if let Some(list) = list {
            records.push(record(kind | 0x8000, 2 * list.len(), &numbers(list)));
        }
    }
    for _ in 0..cookies {
        records.push(record(5, 2, &random.bytes(2)));
    }
    shuffle(random, &mut records);
    records
}

/// A reply with those numbers that is accepted where they were offered.
fn reply(random: &mut Random, [protocol, algorithm]: [u16; 2]) -> Vec<u8> {
    [records(random, Some(&[protocol]), Some(&[algorithm]), 1).concat(), END.to_vec()].concat()
}

/// A case of each op in turn: whole under the crate's limit, whole under another, and in pieces.
fn in_turn(
    random: &mut Random,
    turn: usize,
    offer: [&[u16]; 2],
    message: &[u8],
    out: &mut impl Write,
) -> io::Result<()> {
    let lists = lists(offer);
    match turn % 3 {
        0 => put(out, CRATES, &[&lists[..], message].concat()),
        1 => put(out, REPLIES.limited, &limited(LARGEST_LIMIT, 4, &[&lists[..], message].concat())),
        _ => {
            let feed = Feed { limit: CRATES_LIMIT, cells: 4, buffer: message.len(), close: random.once_in(2) };
            let size = random.between(1, 9);
            put(out, REPLIES.fed, &[lists, feed.payload(message.chunks(size))].concat())
        }
    }
}

/// Every number as a reply's protocol and as its algorithm, offered alone and not offered.
fn every_number(random: &mut Random, out: &mut impl Write) -> io::Result<()> {
    for number in 0..=u16::MAX {
        for which in [0, 1] {
            let mut named = USUAL;
            named[which] = number;
            let message = reply(random, named);
            let mut offer = named.map(|number| vec![number]);
            put(out, CRATES, &[lists([&offer[0], &offer[1]]), message.clone()].concat())?;
            offer[which] = lacking(random, number, 3);
            put(out, CRATES, &[lists([&offer[0], &offer[1]]), message].concat())?;
        }
    }
    Ok(())
}

/// Every pair of lists of up to two numbers, beside replies with and without each list and with no, one or too many cookies;
/// some have a record that passes or that is refused before their end.
fn short_lists(random: &mut Random, out: &mut impl Write) -> io::Result<()> {
    let mut short = vec![vec![]];
    for first in NUMBERS {
        short.push(vec![first]);
        short.extend(NUMBERS.map(|second| vec![first, second]));
    }
    let mut turn = 0;
    for (protocols, algorithms) in PROTOCOLS.iter().flat_map(|&list| ALGORITHMS.map(|other| (list, other))) {
        for cookies in [0, 1, 3] {
            for (first, second) in short.iter().flat_map(|first| short.iter().map(move |second| (first, second))) {
                let mut records = records(random, protocols, algorithms, cookies);
                match random.below(16) {
                    0 => records.push(unknown(random, 0)),
                    1 => {
                        let (kind, bit) = random.pick(&[(2, 0), (3, 0), (14, 0), (13, 0), (11, 0x8000)]);
                        records.push(record(kind | bit, 2, b"ab"));
                    }
                    2 => {
                        let (kind, count) = (random.pick(&KINDS), random.below(3));
                        records.push(list_of(random, kind, count));
                    }
                    _ => {}
                }
                shuffle(random, &mut records);
                records.push(END.to_vec());
                let message = records.concat();
                in_turn(random, 0, [first, second], &message, out)?;
                turn += 1;
                in_turn(random, 1 + turn % 2, [first, second], &message, out)?;
            }
        }
    }
    Ok(())
}

/// Lists of some lengths that hold a number at each of their places, and that hold another there.
fn every_place(random: &mut Random, out: &mut impl Write) -> io::Result<()> {
    for length in [1, 2, 3, 4, 5, 16, 127, 128, LONGEST_LIST - 1, LONGEST_LIST] {
        for (place, which) in (0..length).flat_map(|place| [(place, 0), (place, 1)]) {
            let any = random.word() as u16;
            let number = random.pick(&[0, 0x8001, 15, 17, any]);
            let mut named = USUAL;
            named[which] = number;
            let message = reply(random, named);
            let mut offer = named.map(|number| vec![number]);
            offer[which] = (0..length).map(|_| other(random, number)).collect();
            in_turn(random, place, [&offer[0], &offer[1]], &message, out)?;
            offer[which][place] = number;
            in_turn(random, place, [&offer[0], &offer[1]], &message, out)?;
        }
    }
    Ok(())
}

/// Two lists as long as they can be, and with them payloads as long as they can be, a byte shorter and a byte longer.
fn longest(random: &mut Random, out: &mut impl Write) -> io::Result<()> {
    for holds in [[true, true], [false, true], [true, false], [false, false]] {
        let message = reply(random, USUAL);
        let offer = [0, 1].map(|which| {
            let mut list: Vec<u16> = (0..LONGEST_LIST).map(|_| other(random, USUAL[which])).collect();
            if holds[which] {
                list[random.below(LONGEST_LIST)] = USUAL[which];
            }
            list
        });
        let lists = lists([&offer[0], &offer[1]]);
        for turn in 0..3 {
            in_turn(random, turn, [&offer[0], &offer[1]], &message, out)?;
        }
        for length in [LONGEST - 1, LONGEST, LONGEST + 1] {
            let mut payload = [&lists[..], &message].concat();
            payload.resize(length, 0x80);
            put(out, CRATES, &payload)?;
            let mut payload = limited(LARGEST_LIMIT, CELLS, &[&lists[..], &message].concat());
            payload.resize(length, 0x80);
            put(out, REPLIES.limited, &payload)?;
            let feed = Feed { limit: LARGEST_LIMIT, cells: CELLS, buffer: ROOM, close: true };
            let tail = vec![0x80; length - lists.len() - feed.payload([&message[..], &[]]).len()];
            put(out, REPLIES.fed, &[&lists[..], &feed.payload([&message[..], &tail])].concat())?;
        }
    }
    Ok(())
}

/// Payloads that end inside the lists, or behind them.
fn cut(out: &mut impl Write) -> io::Result<()> {
    for counts in [[0, 0], [1, 0], [0, 1], [1, 1], [2, 3], [LONGEST_LIST, 0], [0, LONGEST_LIST], [LONGEST_LIST; 2]] {
        let offer = [0, 1].map(|which| vec![USUAL[which]; counts[which]]);
        let lists = lists([&offer[0], &offer[1]]);
        let ends: Vec<usize> = match lists.len() {
            all @ ..20 => (0..=all).collect(),
            all => vec![1, 2, 3, 509, 510, 511, 512, all - 2, all - 1, all],
        };
        for end in ends {
            let lists = &lists[..end];
            put(out, CRATES, lists)?;
            put(out, REPLIES.limited, &limited(LARGEST_LIMIT, CELLS, lists))?;
            put(out, REPLIES.limited, &limited(LARGEST_LIMIT, CELLS + 1, lists))?;
            put(out, REPLIES.fed, lists)?;
            let feed = Feed { limit: LARGEST_LIMIT, cells: CELLS, buffer: 64, close: true };
            put(out, REPLIES.fed, &[lists, &feed.payload([])].concat())?;
        }
    }
    Ok(())
}
