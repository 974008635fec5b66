//! Reply plans: ops p and P.

use std::io::{self, Write};

use super::payloads::{COOKIE, HAS_NAME, Plan, field, fields};
use super::records::name;
use super::sends::room;
use super::trays::{bodies, short, with};
use crate::corpus::{LARGEST_LIMIT, LONGEST, put};
use crate::payload::ROOM;
use crate::random::Random;

/// A plan; now and then the name that is lent with it is none for it.
fn plan(random: &mut Random) -> Plan {
    let flags = random.below(8) as u8;
    let length = short(random);
    let mut name = name(random, length);
    let mut name_length = length;
    if flags & HAS_NAME == 0 {
        name_length = random.pick(&[0, length, 0xffff]);
        if !random.once_in(12) {
            name.clear();
        }
    } else {
        match random.below(24) {
            0 => name_length = random.pick(&[length + 1, length.saturating_sub(1), 0, length + 256, 0xffff]),
            1 => name.clear(),
            2 | 3 if length > 0 => name[random.below(length)] ^= 1 << random.between(5, 7),
            _ => {}
        }
    }
    let [protocol, algorithm, port] = [(); 3].map(|()| random.word() as u16);
    Plan { protocol, algorithm, flags, port, name_length, name }
}

/// How many cookies a plan has.
fn count(random: &mut Random) -> usize {
    random.pick(&[0, 1, 1, 2, 2, 3, 4, 7, 8, 8, 9])
}

/// Op p, with a tray around what its cookies need.
pub fn by_calls(random: &mut Random) -> Vec<u8> {
    let plan = plan(random);
    let count = count(random);
    let cookies = bodies(random, COOKIE, count);
    let needed = fields(COOKIE, &cookies).len();
    let tray_room = match random.below(8) {
        0 => needed.saturating_sub(1),
        1 => random.below(needed + 1),
        2..5 => needed,
        5 => ROOM,
        _ => needed + random.below(9),
    };
    let room = room(random, plan.length(&cookies));
    plan.by_calls(tray_room.min(ROOM), room, &cookies)
}

/// Op P, with a tray that is now and then broken.
pub fn by_hand(random: &mut Random) -> Vec<u8> {
    let plan = plan(random);
    let count = count(random);
    let cookies = bodies(random, COOKIE, count);
    let free = if random.once_in(2) { 0 } else { random.below(9) };
    let tray = with(random, COOKIE, &cookies, free);
    let room = room(random, plan.length(&cookies));
    plan.by_hand(room, tray.used, &tray.bytes)
}

/// Each set of flags with every room up to beyond the length; a name of two bytes or of none.
pub fn rooms(random: &mut Random, out: &mut impl Write) -> io::Result<()> {
    for flags in 0..8 {
        for length in [0, 2] {
            let name = if flags & HAS_NAME == 0 { Vec::new() } else { name(random, length) };
            let plan = Plan { protocol: 0, algorithm: 15, flags, port: 123, name_length: length, name };
            let cookies = [random.bytes(3), Vec::new()];
            let tray = fields(COOKIE, &cookies);
            for room in 0..=plan.length(&cookies) + 1 {
                put(out, b'p', &plan.by_calls(tray.len(), room, &cookies))?;
                put(out, b'P', &plan.by_hand(room, tray.len(), &tray))?;
            }
        }
    }
    Ok(())
}

/// A name, planned, with both ops in turn.
pub fn named(turn: usize, body: &[u8]) -> (u8, Vec<u8>) {
    let plan = Plan { algorithm: 15, flags: HAS_NAME, name_length: body.len(), name: body.to_vec(), ..Plan::default() };
    let cookie = vec![vec![0xc0]];
    match turn % 2 {
        0 => (b'p', plan.by_calls(4, 40, &cookie)),
        _ => (b'P', plan.by_hand(40, 4, &fields(COOKIE, &cookie))),
    }
}

/// Cookies and names as long as they can be, replies longer than any record, and lengths longer than any reply.
pub fn long(random: &mut Random, out: &mut impl Write) -> io::Result<()> {
    let plain = Plan { algorithm: 15, ..Plan::default() };
    for length in [LARGEST_LIMIT, LARGEST_LIMIT - 1, 32_768] {
        let cookies = vec![random.bytes(length)];
        both(out, &plain, &cookies)?;
        let name = name(random, length);
        let named = Plan { flags: HAS_NAME, name_length: length, name, ..plain.clone() };
        both(out, &named, &[vec![1, 2, 3]])?;
        put(
            out,
            b'P',
            &Plan { name_length: length - 1, ..named.clone() }.by_hand(ROOM, 3, &fields(COOKIE, &[vec![]])),
        )?;
    }
    for total in [LARGEST_LIMIT, LARGEST_LIMIT + 1, ROOM - 50] {
        let first = random.bytes(total - 16 - 4 - 7 * 1004);
        let cookies: Vec<_> = [first].into_iter().chain((0..7).map(|_| random.bytes(1000))).collect();
        both(out, &plain, &cookies)?;
    }
    let planned = Plan { flags: 7, name_length: LARGEST_LIMIT, ..plain.clone() };
    let cookie = field(COOKIE, &random.bytes(LARGEST_LIMIT));
    put(out, b'P', &planned.by_hand(ROOM, cookie.len(), &cookie))?;
    put(out, b'P', &planned.by_hand(ROOM, 0, &cookie))?;
    let many = fields(COOKIE, &vec![vec![]; (LONGEST - 19) / 3]);
    for used in [many.len(), 27, 24, 3] {
        put(out, b'P', &plain.by_hand(ROOM, used, &many))?;
    }
    for count in [8, 9, 255] {
        put(out, b'p', &plain.by_calls(ROOM, ROOM, &vec![vec![]; count]))?;
        put(out, b'p', &plain.by_calls(24, ROOM, &vec![vec![]; count]))?;
    }
    Ok(())
}

/// A good plan with just enough room and with a byte less.
fn both(out: &mut impl Write, plan: &Plan, cookies: &[Vec<u8>]) -> io::Result<()> {
    let tray = fields(COOKIE, cookies);
    let length = plan.length(cookies);
    for room in [length, length - 1] {
        put(out, b'P', &plan.by_hand(room, tray.len(), &tray))?;
        put(out, b'p', &plan.by_calls(tray.len(), room, cookies))?;
    }
    put(out, b'P', &plan.by_hand(length, tray.len() - 1, &tray))?;
    put(out, b'p', &plan.by_calls(tray.len() - 1, length, cookies))
}
