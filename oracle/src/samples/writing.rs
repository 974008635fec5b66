//! Writing one record: ops w, W, X and z.

use std::io::{self, Write};

use super::hex;
use crate::corpus::put;

/// Records that are written, by kind: the body of each.
const GOOD: [&str; 43] = [
    "00",
    "08",
    "01",
    "01 0000",
    "01 0000 8001 FFFF",
    "02 0000",
    "02 0001",
    "02 0002",
    "02 FFFF",
    "03 0000",
    "03 1234",
    "04",
    "04 000F",
    "04 000F 0011 0000",
    "05",
    "05 00",
    "05 FF 80 00",
    "06",
    "06 61 2E 62",
    "06 C280",
    "06 E0A080 ED9FBF",
    "07 0000",
    "07 007B",
    "07 FFFF",
    "09",
    "09 0000 8001",
    "0A",
    "0A 000F 0020",
    "0A 000F 0020 0011 0040",
    "0B 000B 00",
    "0B 000B 01 41",
    "0B 000F 00 41 42",
    "0B 000F 01",
    "0B 7FFF 00 FF",
    "0B 7FFF 01 00",
    "0C 00000000",
    "0C 00000001 41 42",
    "0C 00000003 414243 616263",
    "0D",
    "0D F48FBFBF",
    "0E",
    "0E 41",
    "0E C3A9",
];

/// Values that are no record.
const NO_RECORD: [&str; 37] = [
    "01 00",
    "01 0000 00",
    "04 0F",
    "04 000F 00",
    "09 00",
    "09 0000 80",
    "0A 00",
    "0A 000F",
    "0A 000F 00",
    "0A 000F 0020 0011",
    "06 C1BF",
    "06 41 80",
    "0D E09FBF",
    "0D EDA080",
    "0E F4908080",
    "0E C3",
    "0B 0000 00",
    "0B 0001 01",
    "0B 0002 00 41",
    "0B 0003 01",
    "0B 0004 00",
    "0B 0005 01",
    "0B 0006 00",
    "0B 0007 01",
    "0B 0008 00",
    "0B 0009 01",
    "0B 000A 00",
    "0B 000C 01",
    "0B 000D 00",
    "0B 000E 01",
    "0B 8000 00",
    "0B 800B 01",
    "0B FFFF 00 41",
    "0C 00000000 41",
    "0C 00000001 41",
    "0C 00000002 41 42",
    "0C 00000001 41 42 43",
];

/// Payloads that describe neither.
const BAD: [&str; 20] = [
    "",
    "00 00",
    "08 41",
    "02",
    "02 00",
    "02 0000 00",
    "03 00",
    "07 0000 7B",
    "0B",
    "0B 00",
    "0B 000B",
    "0B 000B 02",
    "0B 0001 FF 41",
    "0C",
    "0C 000000",
    "0C 00000001",
    "0C 00000003 41 42",
    "0C FFFFFFFF 41 42",
    "0F 41",
    "FF",
];

pub fn writing(out: &mut impl Write) -> io::Result<()> {
    for record in GOOD.map(hex) {
        let length = length(&record);
        put(out, b'w', &record)?;
        put(out, b'z', &record)?;
        for room in [length, length - 1, length + 1] {
            put(out, b'W', &with_room(room, &record))?;
        }
    }
    for record in NO_RECORD.map(hex) {
        put(out, b'w', &record)?;
        put(out, b'z', &record)?;
        put(out, b'W', &with_room(0, &record))?;
    }
    for record in BAD.map(hex) {
        put(out, b'w', &record)?;
        put(out, b'z', &record)?;
        put(out, b'W', &with_room(64, &record))?;
    }
    rooms(out)?;
    parts(out)
}

/// The length of a good record as written: the payload without its own fields, and a header.
fn length(record: &[u8]) -> u32 {
    let fields = match record[0] {
        11 => 3,
        12 => 4,
        _ => 0,
    };
    (record.len() - 1 - fields + 4) as u32
}

fn with_room(room: u32, record: &[u8]) -> Vec<u8> {
    [&room.to_be_bytes()[..], record].concat()
}

/// Rooms as small and as large as they can be, and larger.
fn rooms(out: &mut impl Write) -> io::Result<()> {
    for room in [0, 1, 2, 3, 4, 65_539, 66_000, 66_001, u32::MAX] {
        put(out, b'W', &with_room(room, &hex("00")))?;
        put(out, b'W', &with_room(room, &hex("05 41 42")))?;
    }
    for length in 0..=4 {
        put(out, b'W', &vec![0; length])?;
    }
    Ok(())
}

/// Cookies that are parts of the bytes lent, and parts that are not inside them.
fn parts(out: &mut impl Write) -> io::Result<()> {
    let bytes = hex("41 42 43 44");
    let parts = [
        (0, 0),
        (0, 4),
        (1, 2),
        (4, 0),
        (3, 1),
        (0, 5),
        (3, 2),
        (4, 1),
        (5, 0),
        (0, u64::MAX),
        (1, u64::MAX),
        (4, u64::MAX - 3),
        (u64::MAX, 0),
        (u64::MAX, 1),
        (u64::MAX, u64::MAX),
        (1 << 32, 0),
        (1 << 32, 2),
        (1 << 63, 1 << 63),
        (1, 1 << 32),
    ];
    for (start, length) in parts {
        put(out, b'X', &part(start, length, &bytes))?;
    }
    put(out, b'X', &part(0, 0, &[]))?;
    put(out, b'X', &part(0, 1, &[]))?;
    put(out, b'X', &[])?;
    put(out, b'X', &part(0, 0, &[])[..15])
}

fn part(start: u64, length: u64, bytes: &[u8]) -> Vec<u8> {
    [&start.to_be_bytes()[..], &length.to_be_bytes(), bytes].concat()
}
