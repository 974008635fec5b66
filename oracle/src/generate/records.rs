//! Random records: good ones, cut ones, altered ones, alone and at places of a larger message.

use std::io::{self, Write};

use super::{CRITICAL, UNKNOWN, placed, record};
use crate::corpus::{LONGEST, put};
use crate::random::Random;

/// The largest size of a body.
const LARGEST: usize = 65_535;

pub fn random(seed: u64, count: u64, out: &mut impl Write) -> io::Result<()> {
    let mut random = Random::new(seed, "random");
    large(&mut random, out)?;
    bad(&mut random, out)?;
    for _ in 0..count {
        let bytes = one(&mut random);
        match random.below(4) {
            0 => put(out, b'R', &at_a_place(&mut random, &bytes))?,
            1 if random.once_in(2) => put(out, b'R', &in_a_message(&mut random, &bytes))?,
            _ => put(out, b'r', &bytes)?,
        }
    }
    cut_case(out)
}

/// A case that ends inside its payload, though a record stands there. It can only be the last of a corpus.
pub fn cut_case(out: &mut impl Write) -> io::Result<()> {
    out.write_all(b"r\x00\x00\x00\x08\x80\x00\x00\x00")
}

/// A kind: each known one, and unknown ones of every sort.
pub fn kind(random: &mut Random) -> u16 {
    match random.below(18) {
        15 => random.pick(&[15, 16, 255, 256, 0x4000, 0x7ffe, 0x7fff]),
        16 => UNKNOWN,
        17 => random.between(15, 0x7fff) as u16,
        kind => kind as u16,
    }
}

/// A kind with either bit.
pub fn type_word(random: &mut Random) -> u16 {
    kind(random) | if random.once_in(2) { CRITICAL } else { 0 }
}

/// A size: mostly small, at times around the sizes of a reader's buffers.
pub fn size(random: &mut Random) -> usize {
    match random.below(100) {
        0..70 => random.below(9),
        70..92 => random.below(65),
        92..94 => random.pick(&[255, 256, 257, 511, 512, 513, 1023, 1024, 1025]),
        94..98 => random.between(64, 700),
        _ => random.below(3000),
    }
}

/// A body that a record of this kind may have, of about that size.
pub fn body(random: &mut Random, kind: u16, size: usize) -> Vec<u8> {
    match kind & !CRITICAL {
        1 | 4 | 9 | 12 => random.bytes(size & !1),
        10 => random.bytes(size & !3),
        2 | 3 | 7 => random.bytes(2),
        6 | 13 | 14 => name(random, size),
        _ => random.bytes(size),
    }
}

/// A well-formed name of exactly that size.
pub fn name(random: &mut Random, size: usize) -> Vec<u8> {
    let ascii = random.once_in(2);
    let mut name = String::with_capacity(size);
    while name.len() < size {
        let code = match random.below(if ascii { 1 } else { 5 }) {
            0 => random.below(0x80),
            1 => random.between(0x80, 0x7ff),
            2 => random.between(0x800, 0xffff),
            3 => random.between(0x1_0000, 0x10_ffff),
            _ => random.pick(&[0x7f, 0x80, 0x7ff, 0x800, 0xd7ff, 0xe000, 0xffff, 0x1_0000, 0x10_ffff]),
        };
        if let Some(letter) = char::from_u32(code as u32).filter(|letter| name.len() + letter.len_utf8() <= size) {
            name.push(letter);
        }
    }
    name.into_bytes()
}

/// A whole record that is read.
pub fn good(random: &mut Random) -> Vec<u8> {
    let (word, size) = (type_word(random), size(random));
    let body = body(random, word, size);
    record(word, body.len(), &body)
}

/// Changes a record's size, not its body.
fn resized(random: &mut Random, bytes: &mut [u8]) {
    let size = u16::from_be_bytes([bytes[2], bytes[3]]);
    let size = match random.below(8) {
        0 | 1 => size.wrapping_add(1),
        2 | 3 => size.wrapping_sub(1),
        4 => size.wrapping_add(2),
        5 => size.wrapping_sub(2),
        6 => random.below(9) as u16,
        _ => random.pick(&[255, 256, 0x7fff, 0x8000, 65_534, 65_535]),
    };
    bytes[2..4].copy_from_slice(&size.to_be_bytes());
}

/// Cuts a record: near its start, near its end or anywhere.
fn cut(random: &mut Random, bytes: &mut Vec<u8>) {
    let length = bytes.len();
    let kept = match random.below(4) {
        0 => random.below(9),
        1 => length.saturating_sub(random.between(1, 4)),
        2 => 4 + (length - 4) / 2 + random.below(3),
        _ => random.below(length),
    };
    bytes.truncate(kept);
}

/// Turns over one bit or a few.
fn flipped(random: &mut Random, bytes: &mut [u8]) {
    for _ in 0..random.between(1, 3) {
        let at = if random.once_in(3) { random.below(4) } else { random.below(bytes.len()) };
        bytes[at] ^= 1 << random.below(8);
    }
}

/// The bytes of one case.
fn one(random: &mut Random) -> Vec<u8> {
    let mut bytes = good(random);
    match random.below(10) {
        0..3 => {}
        3..5 => cut(random, &mut bytes),
        5 => {
            resized(random, &mut bytes);
            cut(random, &mut bytes);
        }
        6 => resized(random, &mut bytes),
        7 => flipped(random, &mut bytes),
        8 => {
            let (word, size, there) = (type_word(random), random.below(20), random.below(24));
            bytes = record(word, size, &random.bytes(there));
        }
        _ => {
            let length = random.below(12);
            bytes = random.bytes(length);
        }
    }
    if random.once_in(3) {
        let more = random.below(9);
        bytes.extend_from_slice(&random.bytes(more));
    }
    bytes
}

/// The record at a place: after other bytes or, where it counts for nothing, far away.
fn at_a_place(random: &mut Random, bytes: &[u8]) -> Vec<u8> {
    let before = length_before(random);
    let before = random.bytes(before);
    let whole = [&before[..], bytes].concat();
    let end = whole.len() as u64;
    let place = match random.below(12) {
        0 => 0,
        1 => end,
        2 => end + 1 + random.below(8) as u64,
        3 => end - end.min(random.below(6) as u64),
        4 => random.pick(&FAR),
        5 => random.pick(&FAR[..5]).wrapping_add(before.len() as u64),
        _ => before.len() as u64,
    };
    placed(place, &whole)
}

/// Places past every slice; the first five give a wrong place when they are cut to fewer bits.
const FAR: [u64; 9] = [
    1 << 16,
    1 << 32,
    1 << 48,
    1 << 63,
    0xffff_ffff_0000_0000,
    u32::MAX as u64,
    i64::MAX as u64,
    u64::MAX - 3,
    u64::MAX,
];

/// A message of several records with this one among them, read at the start of one of them.
fn in_a_message(random: &mut Random, bytes: &[u8]) -> Vec<u8> {
    let mut whole = Vec::new();
    let mut starts = Vec::new();
    for _ in 0..random.below(4) {
        starts.push(whole.len());
        whole.extend_from_slice(&good(random));
    }
    starts.push(whole.len());
    whole.extend_from_slice(bytes);
    for _ in 0..random.below(3) {
        starts.push(whole.len());
        whole.extend_from_slice(&good(random));
    }
    starts.push(whole.len());
    placed(random.pick(&starts) as u64, &whole)
}

/// How many bytes stand before a record.
fn length_before(random: &mut Random) -> usize {
    match random.below(10) {
        0 => random.pick(&[255, 256, 257, 511, 512]),
        1..3 => random.below(200),
        _ => random.below(20),
    }
}

/// Bodies as large as they can be, and of sizes whose top bit is just set and just clear: with both bits, whole, cut by a
/// byte or two, and with bytes after them.
fn large(random: &mut Random, out: &mut impl Write) -> io::Result<()> {
    let kinds = (0..=16).chain([0x7fff]);
    for kind in kinds {
        for word in [kind, kind | CRITICAL] {
            for size in [LARGEST, LARGEST - 1, LARGEST - 2, LARGEST - 3, 0x8000, 0x7ffc] {
                let body = large_body(random, kind, size);
                let mut whole = record(word, size, &body);
                put(out, b'r', &whole[..whole.len() - 1])?;
                put(out, b'r', &whole[..whole.len() - 2])?;
                put(out, b'r', &whole)?;
                whole.extend_from_slice(&random.bytes(LONGEST - whole.len()));
                put(out, b'r', &whole)?;
            }
            let body = large_body(random, kind, LARGEST - 3);
            let before = random.below(400);
            let message = [random.bytes(before), record(word, LARGEST - 3, &body)].concat();
            put(out, b'R', &placed(before as u64, &message))?;
            put(out, b'R', &placed(before as u64, &message[..message.len() - 1]))?;
        }
    }
    Ok(())
}

/// A body of exactly that size, a good one where the kind allows the size.
fn large_body(random: &mut Random, kind: u16, size: usize) -> Vec<u8> {
    match kind {
        6 | 13 | 14 => name(random, size),
        _ => random.bytes(size),
    }
}

/// Cases that are none: unknown ops, payloads too short for their op or too long for any.
fn bad(random: &mut Random, out: &mut impl Write) -> io::Result<()> {
    for op in [0, b'!', b'0', b'@', 0x7f, 0x80, 0xff] {
        for length in [0, 1, 4, 8, 300] {
            put(out, op, &random.bytes(length))?;
        }
    }
    for length in 0..8 {
        put(out, b'R', &random.bytes(length))?;
    }
    for op in [b'r', b'R', b'!'] {
        for length in [LONGEST + 1, LONGEST + 2, 70_000, 131_072] {
            put(out, op, &vec![0; length])?;
        }
        put(out, op, &vec![0; LONGEST])?;
    }
    Ok(())
}
