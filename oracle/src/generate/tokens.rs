//! Sequences of records, all of them up to a length.

use std::io::{self, Write};

use super::messages::Family;
use super::record;
use crate::random::Random;
use crate::samples::hex;

pub const END: [u8; 4] = [0x80, 0, 0, 0];

/// Each is a record or two: every kind, good and faulty, as a request may have it.
const REQUESTS: [&str; 39] = [
    "8000 0000",
    "0000 0002 8001",
    "8001 0002 0000",
    "8001 0000",
    "8001 0004 0000 8001",
    "0001 0002 0007",
    "8001 0003 000000",
    "8004 0002 000F",
    "8004 0000",
    "8004 0002 0011",
    "8004 0004 000F 0011",
    "0004 0002 0010",
    "8001 0002 0000 8004 0002 000F",
    "8004 0002 0011 8001 0002 8001",
    "8002 0002 0001",
    "8002 0003 000000",
    "8003 0002 0000",
    "0005 0002 4142",
    "8006 0001 78",
    "8006 0002 C1BF",
    "8007 0002 007B",
    "8007 0001 00",
    "0008 0000",
    "8008 0003 414243",
    "8009 0000",
    "0009 0002 0000",
    "800A 0000",
    "800A 0004 000F 0020",
    "800A 0002 000F",
    "000B 0000",
    "800B 0000",
    "800F 0001 41",
    "7FFF 0003 414243",
    "000D 0001 61",
    "800D 0000",
    "000D 0003 EDA080",
    "000E 0002 C3A9",
    "000E 0000",
    "000E 0001 80",
];
/// Lengths of a key record's body.
const KEYS: [usize; 6] = [0, 62, 64, 65, 66, 128];

pub fn of_requests() -> Vec<Vec<u8>> {
    let keys = KEYS.iter().map(|&size| {
        let body: Vec<u8> = (0..size).map(|index| index as u8).collect();
        record(0x800c, size, &body)
    });
    REQUESTS.iter().map(|token| hex(token)).chain(keys).collect()
}

/// Each is a record or some: every kind, good and faulty, as a reply may have it. Of two a body is cut: they take the first
/// bytes of what follows.
const REPLIES: [&str; 40] = [
    "8000 0000",
    "0000 0002 8001",
    "8001 0002 0000",
    "0001 0002 8001",
    "8001 0000",
    "8001 0004 0000 8001",
    "8001 0003 000000",
    "8004 0002 000F",
    "0004 0002 0011",
    "8004 0000",
    "8004 0004 000F 0011",
    "8001 0002 0000 8004 0002 000F",
    "8004 0002 0011 8001 0002 8001",
    "8001 0002 0000 8004 0002 000F 0005 0001 41",
    "8002 0002 0001",
    "8002 0003 000000",
    "8003 0002 0000",
    "0005 0002 4142",
    "8005 0000",
    "0005 0003 4142",
    "0005 0000 0005 0001 41 8005 0000 0005 0000",
    "0005 0000 0005 0000 0005 0000 0005 0000 0005 0000 0005 0000 0005 0000 0005 0000",
    "8006 0001 78",
    "0006 0000",
    "8006 0002 C1BF",
    "8006 0002 C3",
    "8007 0002 007B",
    "0008 0000",
    "8008 0003 414243",
    "8009 0000",
    "800A 0004 000F 0020",
    "800C 0000",
    "000D 0001 61",
    "000E 0000",
    "800E 0002 C3A9",
    "000E 0001 80",
    "000B 0000",
    "800B 0000",
    "7FFF 0003 414243",
    "FFFF 0001 41",
];

pub fn of_replies() -> Vec<Vec<u8>> {
    REPLIES.iter().map(|token| hex(token)).collect()
}

/// Each is a record or two: every kind, with either bit, good and faulty, as a strict request may have it. Of three a body is
/// cut: they take the first byte of what follows.
const STRICT_REQUESTS: [&str; 43] = [
    "8000 0000",
    "0000 0000",
    "8000 0001 00",
    "0000 0002 8001",
    "8001 0002 0000",
    "0001 0002 0000",
    "8001 0000",
    "8001 0004 0000 8001",
    "0001 0003 000000",
    "8004 0002 000F",
    "0004 0004 000F 0011",
    "8004 0000",
    "8004 0001 00",
    "8001 0002 0000 8004 0002 000F",
    "0004 0002 0011 8001 0002 8001",
    "8002 0002 0001",
    "0002 0002 0001",
    "0002 0003 000100",
    "8003 0002 0000",
    "0003 0002 0000",
    "0003 0001 00",
    "0005 0002 4142",
    "0006 0001 78",
    "0006 0002 C3A9",
    "8006 0003 C3A9",
    "8006 0002 C1BF",
    "0006 0002 C3",
    "0007 0002 007B",
    "8007 0003 007B00",
    "0008 0000",
    "8008 0000",
    "0009 0001 00",
    "8009 0000",
    "000A 0002 000F",
    "000B 0000",
    "800B 0001 41",
    "000C 0001 41",
    "000D 0001 FF",
    "800D 0001 61",
    "000E 0002 C3A9",
    "800E 0001 80",
    "7FFF 0003 4142",
    "FFFF 0000",
];

pub fn of_strict_requests() -> Vec<Vec<u8>> {
    STRICT_REQUESTS.iter().map(|token| hex(token)).collect()
}

/// The same for a strict reply.
const STRICT_REPLIES: [&str; 43] = [
    "8000 0000",
    "0000 0000",
    "8000 0001 00",
    "8001 0002 0000",
    "0001 0002 0000",
    "8001 0000",
    "8001 0004 0000 8001",
    "0001 0003 000000",
    "8004 0002 000F",
    "0004 0002 0011",
    "8004 0000",
    "0004 0004 000F 0011",
    "8001 0002 0000 8004 0002 000F",
    "0004 0002 0011 8001 0002 8001",
    "8001 0002 0000 0004 0002 000F 0005 0001 41",
    "8002 0002 0001",
    "0002 0002 0001",
    "0002 0003 000100",
    "8003 0002 1234",
    "0003 0002 1234",
    "0003 0001 00",
    "0005 0002 4142",
    "8005 0000",
    "0005 0003 4142",
    "0005 0000 8005 0000 0005 0001 41 8005 0000 0005 0000",
    "8006 0001 78",
    "0006 0002 C3A9",
    "0006 0003 C3A9",
    "8006 0002 C1BF",
    "8006 0002 C3",
    "8007 0002 007B",
    "0007 0003 007B00",
    "0008 0000",
    "8008 0000",
    "0009 0001 00",
    "000A 0004 000F 0020",
    "000B 0000",
    "800B 0001 41",
    "800C 0000",
    "000D 0001 FF",
    "000E 0002 C3A9",
    "800E 0001 80",
    "FFFF 0001 41",
];

pub fn of_strict_replies() -> Vec<Vec<u8>> {
    STRICT_REPLIES.iter().map(|token| hex(token)).collect()
}

/// All sequences of up to three: as they are, with an end record, and with a limit and a table near what they need.
pub fn up_to_three(family: &Family, seed: u64, out: &mut impl Write) -> io::Result<()> {
    let mut random = Random::new(seed, &format!("tokens of {}", family.name));
    let tokens = (family.tokens)();
    let mut turn = 0;
    for count in 0..=3 {
        sequences(&tokens, count, &mut |sequence| {
            turn += 1;
            let bare = sequence.concat();
            let whole = [&bare[..], &END].concat();
            family.put_crates(&mut random, out, &bare)?;
            if turn % 5 == 0 {
                family.put_largest(&mut random, out, &whole)?;
            } else {
                family.put_crates(&mut random, out, &whole)?;
            }
            let length = whole.len();
            let limit = [length, length - 1, length - 4, 65_535, 4096, length + 1, length / 2][turn % 7];
            family.put_limited(&mut random, out, (limit, turn % 9), &[&whole[..], &END].concat())
        })?;
    }
    Ok(())
}

/// All sequences of four, with an end record.
pub fn of_four(family: &Family, seed: u64, out: &mut impl Write) -> io::Result<()> {
    let mut random = Random::new(seed, &format!("tokens of {}, four", family.name));
    sequences(&(family.tokens)(), 4, &mut |sequence| {
        family.put_crates(&mut random, out, &[&sequence.concat()[..], &END].concat())
    })
}

/// Each sequence of so many.
pub fn sequences(tokens: &[Vec<u8>], count: u32, each: &mut impl FnMut(&[&[u8]]) -> io::Result<()>) -> io::Result<()> {
    for index in 0..tokens.len().pow(count) {
        let mut rest = index;
        let mut sequence = Vec::new();
        for _ in 0..count {
            sequence.push(&tokens[rest % tokens.len()][..]);
            rest /= tokens.len();
        }
        each(&sequence)?;
    }
    Ok(())
}
