//! Trays, good ones and broken ones, and cookies appended to them: op a.

use std::io::{self, Write};

use super::payloads::{COOKIE, NAME, Plan, append, field, fields, request};
use super::records::{name, size};
use crate::corpus::{LARGEST_LIMIT, LONGEST, put};
use crate::random::Random;

/// Bytes of small trays: a tag of neither and those of both.
const BYTES: usize = 3;

/// A tray and its used length.
pub struct Tray {
    pub bytes: Vec<u8>,
    pub used: usize,
}

/// A length: mostly small.
pub fn short(random: &mut Random) -> usize {
    if random.once_in(40) { size(random) } else { random.below(10) }
}

/// The bodies of so many fields of a tag; a name is now and then spoilt.
pub fn bodies(random: &mut Random, tag: u8, count: usize) -> Vec<Vec<u8>> {
    let body = |_| {
        let size = short(random);
        if tag == COOKIE {
            return random.bytes(size);
        }
        let mut name = name(random, size);
        if size > 0 && random.once_in(20) {
            name[random.below(size)] ^= 1 << random.below(8);
        }
        name
    };
    (0..count).map(body).collect()
}

/// A tray with these bodies and so many bytes after them; now and then its fields or its used length are spoilt.
pub fn with(random: &mut Random, tag: u8, bodies: &[Vec<u8>], free: usize) -> Tray {
    let mut parts: Vec<Vec<u8>> = bodies.iter().map(|body| field(tag, body)).collect();
    if !parts.is_empty() && random.once_in(5) {
        let at = random.below(parts.len());
        spoil(random, &mut parts[at]);
    }
    let mut bytes = parts.concat();
    let used = bytes.len();
    bytes.extend(random.bytes(free));
    let used = if random.once_in(8) { other(random, used, bytes.len()) } else { used };
    Tray { bytes, used }
}

/// Changes a field's tag or length, cuts it or makes it longer.
fn spoil(random: &mut Random, field: &mut Vec<u8>) {
    match random.below(8) {
        0 | 1 => field[0] = random.pick(&[0, 1, 2, 3, 0x81, 0xff]),
        2 => field[2] = field[2].wrapping_add(1),
        3 => field[2] = field[2].wrapping_sub(1),
        4 => field[1] = random.pick(&[1, 0x80, 0xff]),
        5 => field.truncate(field.len() - random.between(1, 3)),
        6 => field.push(random.below(4) as u8),
        _ => {
            let at = random.below(field.len());
            field[at] ^= 1 << random.below(8);
        }
    }
}

/// Another used length: near by, anywhere in the tray, at its end and past it.
fn other(random: &mut Random, used: usize, length: usize) -> usize {
    match random.below(8) {
        0 => used + 1,
        1 => used.saturating_sub(1),
        2 => used + random.below(6),
        3 => random.below(length + 1),
        4 => length,
        5 => length + 1,
        6 => length + random.between(1, 9),
        _ => random.pick(&[1 << 16, used + (1 << 16), 1 << 24, 1 << 31, u32::MAX as usize - 2, u32::MAX as usize]),
    }
}

/// A cookie and a tray with room for it, or less.
pub fn one(random: &mut Random) -> Vec<u8> {
    let count = random.pick(&[0, 1, 2, 3, 5, 6, 7, 7, 8, 8, 9]);
    let bodies = bodies(random, COOKIE, count);
    let length = short(random);
    let needed = 3 + length;
    let free = match random.below(6) {
        0 => needed - 1,
        1 => random.below(needed),
        2 => needed,
        _ => needed + random.below(9),
    };
    let tray = with(random, COOKIE, &bodies, free);
    append(tray.used, &random.bytes(length), &tray.bytes)
}

/// All trays of up to six bytes of three, with each used length up to one past the tray: of a cookie's append, a plan and a
/// request.
pub fn every(out: &mut impl Write) -> io::Result<()> {
    let plan = Plan { algorithm: 15, ..Plan::default() };
    for length in 0..=6 {
        for index in 0..BYTES.pow(length) {
            let tray: Vec<u8> = (0..length).map(|at| (index / BYTES.pow(at) % BYTES) as u8).collect();
            for used in 0..=tray.len() + 1 {
                put(out, b'a', &append(used, &[0xc0, 0xc1][..index % 3], &tray))?;
                put(out, b'P', &plan.by_hand(40, used, &tray))?;
                put(out, b'k', &request(&[0], &[15], 40, used, &tray))?;
            }
        }
    }
    Ok(())
}

/// Up to twelve fields of equal length, where eight cookies are the most and names may be any number: each append with room,
/// with just enough and with too little.
pub fn counts(random: &mut Random, out: &mut impl Write) -> io::Result<()> {
    let plan = Plan { algorithm: 15, ..Plan::default() };
    for count in 0..=12 {
        for length in 0..=3 {
            let bodies = |random: &mut Random| -> Vec<_> { (0..count).map(|_| name(random, length)).collect() };
            let cookies = bodies(random);
            let tray = fields(COOKIE, &cookies);
            for size in 0..=3 {
                for free in 0..=7 {
                    let more = [&tray[..], &random.bytes(free)].concat();
                    put(out, b'a', &append(tray.len(), &random.bytes(size), &more))?;
                }
            }
            let names = fields(NAME, &bodies(random));
            for free in [0, 1, 3] {
                for room in [plan.length(&cookies) - 1, plan.length(&cookies)] {
                    let more = [&tray[..], &random.bytes(free)].concat();
                    put(out, b'P', &plan.by_hand(room, tray.len(), &more))?;
                    put(out, b'p', &plan.by_calls(tray.len() + free, room, &cookies))?;
                    put(out, b'p', &plan.by_calls((tray.len() + free).saturating_sub(1), room, &cookies))?;
                    let more = [&names[..], &random.bytes(free)].concat();
                    put(out, b'k', &request(&[0], &[15], room, names.len(), &more))?;
                }
            }
        }
    }
    Ok(())
}

/// Cookies that are too long and as long as they can be, and trays as long as a case allows.
pub fn long(random: &mut Random, out: &mut impl Write) -> io::Result<()> {
    for turn in 0..180 {
        let length =
            if turn < 8 { LARGEST_LIMIT - 3 + turn } else { random.between(LARGEST_LIMIT + 1, LARGEST_LIMIT + 100) };
        let count = if turn < 8 { 0 } else { random.below(10) };
        let bodies: Vec<_> = (0..count).map(|_| random.bytes(turn % 4)).collect();
        let mut tray = fields(COOKIE, &bodies);
        let used = tray.len();
        if turn % 8 == 7 && used > 0 {
            tray[0] = NAME;
        }
        tray.extend(random.bytes(turn % 40));
        put(out, b'a', &append(used, &random.bytes(length), &tray))?;
    }
    // A cookie's field and as much room for it, together as long as a payload.
    let longest = (LONGEST - 8 - 3) / 2;
    for length in [longest, longest - 1] {
        for free in [length + 2, length + 3] {
            put(out, b'a', &append(0, &random.bytes(length), &random.bytes(free)))?;
        }
    }
    // A cookie behind long ones.
    for length in [LARGEST_LIMIT, LARGEST_LIMIT - 1, 40_000, 255, 256] {
        let tray = field(COOKIE, &random.bytes(length));
        for used in [tray.len(), tray.len() - 1, tray.len() + 1] {
            for free in [4, 5, 6] {
                put(out, b'a', &append(used, &[0xc0, 0xc1], &[&tray[..], &random.bytes(free)].concat()))?;
            }
        }
    }
    // As many fields as a payload can have.
    let many = fields(COOKIE, &vec![vec![]; (LONGEST - 8) / 3]);
    put(out, b'a', &append(many.len(), &[], &many))?;
    put(out, b'a', &append(27, &[], &many))?;
    put(out, b'a', &append(24, &[], &many))?;
    put(out, b'a', &append(21, &[], &many))
}
