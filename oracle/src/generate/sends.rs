//! Whole messages that need no plan: ops n and k.

use std::io::{self, Write};

use super::payloads::{
    ALGORITHMS, KEEP_ALIVE, NAME, PROTOCOLS, error, field, fields, no_algorithm, no_protocol, request, support,
};
use super::records::name;
use super::trays::{bodies, short, with};
use crate::corpus::{LARGEST_LIMIT, LONGEST, put};
use crate::payload::ROOM;
use crate::random::Random;

/// The largest number of numbers in a list.
const LARGEST: usize = LARGEST_LIMIT / 2;

/// A room: mostly around the length.
pub fn room(random: &mut Random, length: usize) -> usize {
    let room = match random.below(10) {
        0 => length - 1,
        1 => random.below(length),
        2 => length + 1,
        3 => ROOM,
        4 => length + random.below(100),
        _ => length,
    };
    room.min(ROOM)
}

/// So many numbers.
fn list(random: &mut Random, count: usize) -> Vec<u16> {
    (0..count).map(|_| random.word() as u16).collect()
}

/// The length of a support reply.
fn supports_length(flags: u8, pairs: usize, protocols: usize) -> usize {
    let lists = [(ALGORITHMS, 4 + 2 * pairs), (PROTOCOLS, 4 + 2 * protocols), (KEEP_ALIVE, 4)];
    4 + lists.into_iter().filter(|(flag, _)| flags & flag != 0).map(|(_, length)| length).sum::<usize>()
}

/// Op n: one of the four replies.
pub fn reply(random: &mut Random) -> Vec<u8> {
    let number = random.word() as u16;
    match random.below(8) {
        0 => no_protocol(room(random, 8)),
        1 => no_algorithm(room(random, 14), number),
        2 => error(room(random, 10), number),
        _ => {
            let flags = random.below(8) as u8;
            let pairs = if random.once_in(8) { short(random) } else { 2 * random.below(5) };
            let protocols = if random.once_in(8) { short(random) } else { random.below(5) };
            let room = room(random, supports_length(flags, pairs, protocols));
            support(room, flags, &list(random, pairs), &list(random, protocols))
        }
    }
}

/// Op k, with a tray that is now and then broken.
pub fn one_request(random: &mut Random) -> Vec<u8> {
    let (protocols, algorithms) = (random.below(5), random.below(5));
    let count = random.pick(&[0, 0, 1, 1, 2, 3, 5, 8, 9, 12]);
    let names = bodies(random, NAME, count);
    let free = if random.once_in(2) { 0 } else { random.below(9) };
    let tray = with(random, NAME, &names, free);
    let room = room(random, 12 + 2 * (protocols + algorithms) + fields(NAME, &names).len() + count);
    request(&list(random, protocols), &list(random, algorithms), room, tray.used, &tray.bytes)
}

/// Every room up to beyond the length.
pub fn rooms(random: &mut Random, out: &mut impl Write) -> io::Result<()> {
    for room in 0..=16 {
        for number in [0, 1, 2, 0x8001, 0xffff] {
            put(out, b'n', &no_protocol(room))?;
            put(out, b'n', &no_algorithm(room, number))?;
            put(out, b'n', &error(room, number))?;
        }
    }
    for flags in 0..8 {
        for (pairs, protocols) in [(0, 0), (4, 2), (3, 1)] {
            for room in 0..=supports_length(flags, pairs, protocols) + 1 {
                put(out, b'n', &support(room, flags, &list(random, pairs), &list(random, protocols)))?;
            }
        }
    }
    for room in 0..=32 {
        let tray = fields(NAME, &[name(random, 2), name(random, 0)]);
        put(out, b'k', &request(&list(random, 2), &list(random, 1), room, tray.len(), &tray))?;
        put(out, b'k', &request(&[], &[], room, 0, &tray))?;
    }
    Ok(())
}

/// A name in a request, before or after another, or its two parts as names of their own.
pub fn named(turn: usize, body: &[u8]) -> (u8, Vec<u8>) {
    let (first, second) = match turn % 4 {
        0 => (body, &b"z"[..]),
        1 => (&b"z"[..], body),
        _ => body.split_at(1 + turn % (body.len() - 1)),
    };
    let tray = [field(NAME, first), field(NAME, second)].concat();
    (b'k', request(&[0], &[15], 40, tray.len(), &tray))
}

/// Lists as long as a record allows and longer, and names as long and as many as there can be.
pub fn long(random: &mut Random, out: &mut impl Write) -> io::Result<()> {
    for count in [LARGEST - 1, LARGEST, LARGEST + 1, LARGEST + 2] {
        let numbers = list(random, count);
        for flags in 0..8 {
            for (pairs, protocols) in [(count, 0), (count, 2), (0, count), (1, count)] {
                let room = supports_length(flags, pairs, protocols);
                let short = usize::from(flags % 3 == 2);
                put(out, b'n', &support(room - short, flags, &numbers[..pairs], &numbers[..protocols]))?;
            }
        }
        for short in [0, 1] {
            let room = 12 + 2 * count - short;
            put(out, b'k', &request(&numbers, &[], room, 0, &[]))?;
            put(out, b'k', &request(&[], &numbers, room, 0, &[]))?;
        }
    }
    too_long(random, out)?;
    let half = list(random, LARGEST / 2);
    for flags in [3, 7] {
        let length = supports_length(flags, half.len() & !1, half.len());
        for room in [length, length - 1] {
            put(out, b'n', &support(room, flags, &half[..half.len() & !1], &half))?;
        }
    }
    put(out, b'k', &request(&half, &half, 12 + 4 * half.len(), 0, &[]))?;
    for length in [LARGEST_LIMIT, LARGEST_LIMIT - 1] {
        let mut tray = field(NAME, &name(random, length));
        for room in [16 + length, 15 + length] {
            put(out, b'k', &request(&[], &[], room, tray.len(), &tray))?;
        }
        *tray.last_mut().expect("a name") = 0xff;
        put(out, b'k', &request(&[], &[], ROOM, tray.len(), &tray))?;
    }
    // The most names that an output holds, and the most that a payload does.
    for count in [(ROOM - 12) / 4, (ROOM - 12) / 4 + 1, (LONGEST - 12) / 3] {
        let mut tray = fields(NAME, &vec![vec![]; count]);
        put(out, b'k', &request(&[], &[], ROOM, tray.len(), &tray))?;
        put(out, b'k', &request(&[], &[], ROOM, tray.len() - 1, &tray))?;
        tray[3 * (count - 1)] = 1;
        put(out, b'k', &request(&[], &[], ROOM, tray.len(), &tray))?;
    }
    Ok(())
}

/// Lists that no record can have; now and then something else is wrong, or there is no room either.
fn too_long(random: &mut Random, out: &mut impl Write) -> io::Result<()> {
    for turn in 0..130 {
        let count = random.between(LARGEST + 1, LARGEST + 200) & !1;
        let numbers = list(random, count);
        let room = if turn % 5 == 0 { random.below(30) } else { ROOM };
        let few = list(random, 2 + usize::from(turn % 10 == 1));
        let flags = random.below(8) as u8;
        if turn % 2 == 0 {
            put(out, b'n', &support(room, flags | ALGORITHMS, &numbers, &few))?;
        } else {
            put(out, b'n', &support(room, flags | PROTOCOLS, &few, &numbers))?;
        }
        let mut tray = fields(NAME, &bodies(random, NAME, turn % 3));
        if turn % 11 == 10 {
            tray.push(NAME);
        }
        let (protocols, algorithms) = if turn % 4 < 2 { (&numbers, &few) } else { (&few, &numbers) };
        put(out, b'k', &request(protocols, algorithms, room, tray.len(), &tray))?;
    }
    Ok(())
}
