//! Records to write: ops w, W, X and z.

use std::io::{self, Write};

use super::names::{around, pairs_of_bytes};
use super::records::{name, size};
use super::{UNKNOWN, is_known};
use crate::corpus::put;
use crate::payload::ROOM;
use crate::random::Random;

/// Kinds whose body has a length of its own.
const WITH_BODY: [u8; 10] = [1, 4, 5, 6, 9, 10, 11, 12, 13, 14];
const WITH_NUMBER: [u8; 3] = [2, 3, 7];
const EMPTY: [u8; 2] = [0, 8];
const NAMES: [u8; 3] = [6, 13, 14];
/// The largest body that every op can carry.
const LONGEST_BODY: usize = 65_980;

pub fn writes(seed: u64, count: u64, out: &mut impl Write) -> io::Result<()> {
    let mut random = Random::new(seed, "writes");
    every_number(&mut random, out)?;
    every_unknown(&mut random, out)?;
    every_short_name(out)?;
    for kind in EMPTY {
        for _ in 0..40 {
            every_op(&mut random, out, &[kind], 4)?;
        }
    }
    for kind in WITH_BODY {
        for size in (0..=18).chain(253..=260).chain(509..=516) {
            for _ in 0..4 {
                let record = of_size(&mut random, kind, size);
                every_op(&mut random, out, &record, 4 + size)?;
            }
        }
        for size in (65_530..=65_541).chain([65_600, 65_792, LONGEST_BODY]) {
            let record = of_size(&mut random, kind, size);
            put(out, b'w', &record)?;
            put(out, b'z', &record)?;
            put(out, b'W', &with_room(4 + size, &record))?;
            put(out, b'W', &with_room(3 + size, &record))?;
        }
    }
    too_long(&mut random, out)?;
    parts(&mut random, out)?;
    bad(&mut random, out)?;
    for _ in 0..count {
        one(&mut random, out)?;
    }
    Ok(())
}

/// Each number as an error, a warning and a port.
fn every_number(random: &mut Random, out: &mut impl Write) -> io::Result<()> {
    for number in 0..=u16::MAX {
        let [high, low] = number.to_be_bytes();
        for kind in WITH_NUMBER {
            put(out, b'w', &[kind, high, low])?;
        }
        let kind = random.pick(&WITH_NUMBER);
        one_op(random, out, &[kind, high, low], 6)?;
    }
    Ok(())
}

/// Each number of an unknown record with both bits; those like a known one and those too large often.
fn every_unknown(random: &mut Random, out: &mut impl Write) -> io::Result<()> {
    for number in 0..=u16::MAX {
        let times = if is_known(number) || number == UNKNOWN { 20 } else { 1 };
        for _ in 0..times {
            for bit in 0..=1 {
                let length = random.below(4);
                let record = unknown(number, bit, &random.bytes(length));
                put(out, b'w', &record)?;
                one_op(random, out, &record, 4 + length)?;
            }
        }
    }
    Ok(())
}

fn unknown(number: u16, bit: u8, body: &[u8]) -> Vec<u8> {
    [&[UNKNOWN as u8][..], &number.to_be_bytes(), &[bit], body].concat()
}

/// The names of the corpus `names`, whole.
fn every_short_name(out: &mut impl Write) -> io::Result<()> {
    let mut turn = 0;
    let mut each = |body: &[u8]| {
        turn += 1;
        let op = if turn % 7 == 0 { b'z' } else { b'w' };
        put(out, op, &[&[NAMES[turn % 3]][..], body].concat())
    };
    pairs_of_bytes(&mut each)?;
    around(&mut each)
}

/// A record of a kind with a body of that size, good where the size allows it. Of key halves the first is now and then
/// longer or shorter than the other.
fn of_size(random: &mut Random, kind: u8, size: usize) -> Vec<u8> {
    match kind {
        6 | 13 | 14 => [vec![kind], name(random, size)].concat(),
        11 => {
            let number = random.pick(&[11, 15, 16, 255, 256, 0x4000, 0x7fff]);
            unknown(number, random.below(2) as u8, &random.bytes(size))
        }
        12 => {
            let first = if random.once_in(8) { random.below(size + 1) } else { size / 2 } as u32;
            [&[kind][..], &first.to_be_bytes(), &random.bytes(size)].concat()
        }
        _ => [vec![kind], random.bytes(size)].concat(),
    }
}

fn with_room(room: usize, record: &[u8]) -> Vec<u8> {
    let room = u32::try_from(room).expect("a room");
    [&room.to_be_bytes()[..], record].concat()
}

/// The record written, measured, and written into outputs on both sides of its length.
fn every_op(random: &mut Random, out: &mut impl Write, record: &[u8], length: usize) -> io::Result<()> {
    put(out, b'w', record)?;
    put(out, b'z', record)?;
    for room in [length, length - 1, length + 1, random.below(length), 0, ROOM] {
        put(out, b'W', &with_room(room, record))?;
    }
    Ok(())
}

/// The record with one of the ops.
fn one_op(random: &mut Random, out: &mut impl Write, record: &[u8], length: usize) -> io::Result<()> {
    match random.below(6) {
        0 => put(out, b'w', record),
        1 => put(out, b'z', record),
        2 => put(out, b'W', &with_room(length, record)),
        3 => put(out, b'W', &with_room(length - 1, record)),
        4 => put(out, b'W', &with_room(random.below(length), record)),
        _ => put(out, b'W', &with_room(random.between(length, ROOM), record)),
    }
}

/// Bodies that no record can have, and values that would be no record with a shorter body either.
fn too_long(random: &mut Random, out: &mut impl Write) -> io::Result<()> {
    for turn in 0..160 {
        let size = random.between(65_536, LONGEST_BODY) & !3;
        let record = of_size(random, WITH_BODY[turn % WITH_BODY.len()], size);
        put(out, if turn % 4 == 0 { b'w' } else { b'z' }, &record)?;
    }
    for kind in WITH_BODY {
        let mut record = of_size(random, kind, 65_537);
        match kind {
            6 | 13 | 14 => record[65_537] = 0xff,
            11 => record[1..3].copy_from_slice(&[0, 5]),
            12 => record[4] ^= 1,
            _ => {}
        }
        put(out, b'w', &record)?;
        put(out, b'z', &record)?;
        put(out, b'W', &with_room(4, &record))?;
    }
    Ok(())
}

/// Cookies that are parts of the bytes, and parts that are not inside them.
fn parts(random: &mut Random, out: &mut impl Write) -> io::Result<()> {
    let part =
        |start: u64, length: u64, bytes: &[u8]| [&start.to_be_bytes()[..], &length.to_be_bytes(), bytes].concat();
    let far = [1 << 16, 1 << 32, 1 << 63, u64::MAX - 1, u64::MAX];
    for count in 0..=8 {
        let bytes = random.bytes(count);
        for start in (0..=count as u64 + 2).chain(far) {
            for length in (0..=count as u64 + 2).chain(far) {
                put(out, b'X', &part(start, length, &bytes))?;
            }
        }
        for start in 0..=count as u64 + 2 {
            put(out, b'X', &part(start, start.wrapping_neg(), &bytes))?;
            put(out, b'X', &part(start.wrapping_neg(), start, &bytes))?;
        }
    }
    let bytes = random.bytes(LONGEST_BODY);
    for (start, length) in
        [(0, 65_534), (0, 65_535), (0, 65_536), (445, 65_535), (444, 65_536), (445, 65_536), (446, 65_535)]
    {
        put(out, b'X', &part(start, length, &bytes))?;
    }
    Ok(())
}

/// Payloads that describe no record.
fn bad(random: &mut Random, out: &mut impl Write) -> io::Result<()> {
    let no_good = [
        &[][..],
        &[0, 0],
        &[8, 0],
        &[2],
        &[2, 0],
        &[3, 0, 0, 0],
        &[7, 1],
        &[11],
        &[11, 0, 15],
        &[11, 0, 15, 2],
        &[11, 0, 15, 255, 1],
        &[12],
        &[12, 0, 0, 0],
        &[12, 0, 0, 0, 1],
        &[12, 0, 0, 0, 3, 1, 2],
        &[12, 255, 255, 255, 255, 1, 2],
        &[15],
        &[15, 0, 0],
        &[16, 0, 0],
        &[128],
        &[255, 1, 2],
    ];
    for record in no_good {
        put(out, b'w', record)?;
        put(out, b'z', record)?;
        put(out, b'W', &with_room(random.below(ROOM + 1), record))?;
    }
    for room in [ROOM + 1, 70_000, 1 << 31, u32::MAX as usize] {
        put(out, b'W', &with_room(room, &[0]))?;
    }
    for length in 0..=15 {
        put(out, b'X', &vec![0; length])?;
    }
    for length in 0..=4 {
        put(out, b'W', &vec![0; length])?;
    }
    Ok(())
}

/// A random record with one of the ops; a name is now and then spoilt.
fn one(random: &mut Random, out: &mut impl Write) -> io::Result<()> {
    let kind = random.below(15) as u8;
    let (record, length) = if EMPTY.contains(&kind) {
        (vec![kind], 4)
    } else if WITH_NUMBER.contains(&kind) {
        ([vec![kind], random.bytes(2)].concat(), 6)
    } else {
        let mut size = size(random);
        if !random.once_in(4) {
            size &= !3;
        }
        let mut record = of_size(random, kind, size);
        if NAMES.contains(&kind) && size > 0 && random.once_in(3) {
            let at = random.between(1, size);
            record[at] ^= 1 << random.below(8);
        }
        (record, 4 + size)
    };
    one_op(random, out, &record, length)
}
