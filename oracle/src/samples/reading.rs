//! Reading one record: ops r and R.

use std::io::{self, Write};

use super::hex;
use crate::corpus::put;
use crate::generate::{CRITICAL, placed, record};

const KINDS: [u16; 21] = [0, 1, 2, 3, 4, 5, 6, 7, 8, 9, 10, 11, 12, 13, 14, 15, 16, 255, 256, 0x7ffe, 0x7fff];
const NAMES: [u16; 3] = [6, 13, 14];

/// The message M of document 01.
pub const M: &str = "80 01 00 02 00 00 80 04 00 02 00 0F 80 00 00 00";

pub fn reading(out: &mut impl Write) -> io::Result<()> {
    headers(out)?;
    bodies(out)?;
    cut_bodies(out)?;
    first_faults(out)?;
    utf8(out)?;
    long_bodies(out)?;
    places(out)?;
    bits(out)?;
    bad_cases(out)
}

fn all(out: &mut impl Write, cases: &[&str]) -> io::Result<()> {
    cases.iter().try_for_each(|case| put(out, b'r', &hex(case)))
}

/// Headers not all there, with either bit, and single records of document 01's table of messages.
fn headers(out: &mut impl Write) -> io::Result<()> {
    all(out, &["", "80", "80 01", "80 01 00", "00", "00 06", "00 0B 00", "80 07 01", "FF FF FF"])?;
    all(
        out,
        &[
            "80 00 00 00",
            "00 01 00 02 00 00",
            "00 0B 00 00",
            "80 0B 00 00",
            "80 07 00 03 00 7B",
            "80 07 00 01 00",
            "80 0C 00 01",
            "80 06 00 02 C3",
            "80 06 00 02 41",
            M,
        ],
    )
}

/// Each kind with both bits, an empty body and bodies of one to five bytes and of eight, and a byte after the record.
fn bodies(out: &mut impl Write) -> io::Result<()> {
    let body = hex("00 0F 00 20 00 11 00 40 5A");
    for kind in KINDS {
        for word in [kind, kind | CRITICAL] {
            for size in [0, 2, 4] {
                put(out, b'r', &record(word, size, &body[..size]))?;
            }
        }
        put(out, b'r', &record(kind, 1, &body[..2]))?;
        put(out, b'r', &record(kind | CRITICAL, 3, &body[..3]))?;
        put(out, b'r', &record(kind, 5, &body[..5]))?;
        put(out, b'r', &record(kind, 8, &body))?;
    }
    Ok(())
}

/// Each kind with a body of which a part is there.
fn cut_bodies(out: &mut impl Write) -> io::Result<()> {
    for kind in KINDS {
        for (size, there) in [(1, ""), (2, "41"), (3, "00 42"), (4, "00 0F 00"), (65_535, "00 0F 00 20")] {
            put(out, b'r', &record(kind | CRITICAL, size, &hex(there)))?;
        }
    }
    Ok(())
}

/// Two faults in one body: the first that document 01 names is told.
fn first_faults(out: &mut impl Write) -> io::Result<()> {
    for kind in ["80 02", "80 03", "80 07"] {
        for rest in ["00 00", "00 00 00 7B", "00 01", "00 03 00", "00 03 00 7B", "00 03 00 7B 00", "FF FF 00 7B"] {
            put(out, b'r', &hex(&format!("{kind} {rest}")))?;
        }
    }
    for kind in ["80 01", "80 04", "80 09", "80 0A"] {
        for rest in ["00 03 00 0F 00", "00 03 00 0F", "00 06 00 0F 00 20 00 11", "00 07 00 0F 00 20 00 11"] {
            put(out, b'r', &hex(&format!("{kind} {rest}")))?;
        }
    }
    for rest in ["00 01 41", "00 03 41", "00 03 41 42", "00 03 41 42 43", "00 05 41 42 43", "00 05 41 42 43 44"] {
        put(out, b'r', &hex(&format!("80 0C {rest}")))?;
    }
    for kind in ["80 06", "00 0D", "00 0E"] {
        for rest in
            ["00 02", "00 03 41 FF", "00 03 41 C3", "00 03 41 42", "00 03 C3 A9", "00 04 FF 41 42 43", "00 02 41 FF"]
        {
            put(out, b'r', &hex(&format!("{kind} {rest}")))?;
        }
    }
    Ok(())
}

/// Names on both sides of each line of RFC 3629; those of document 01 for each kind of name.
fn utf8(out: &mut impl Write) -> io::Result<()> {
    let pass = ["C2 80", "E0 A0 80", "ED 9F BF", "F4 8F BF BF"];
    let fail = ["C1 BF", "E0 9F BF", "ED A0 80", "F4 90 80 80"];
    for body in pass.iter().chain(&fail) {
        let body = hex(body);
        for kind in NAMES {
            put(out, b'r', &record(kind, body.len(), &body))?;
            put(out, b'r', &record(kind, body.len() + 1, &body))?;
        }
    }
    let others = [
        "00",
        "7F",
        "80",
        "BF",
        "C0 80",
        "C1 80",
        "C2",
        "C2 7F",
        "C2 C0",
        "DF BF",
        "E0 A0",
        "E0 80 80",
        "E0 BF BF",
        "E1 80 80",
        "EC BF BF",
        "ED 80 80",
        "EE 80 80",
        "EF BF BF",
        "EF BF",
        "F0 8F BF BF",
        "F0 90 80 80",
        "F0 90 80",
        "F1 80 80 80",
        "F3 BF BF BF",
        "F4 80 80 80",
        "F4 8F BF C0",
        "F4 8F 7F BF",
        "F5 80 80 80",
        "F8 88 80 80 80",
        "FE",
        "FF",
        "41 E2 82 AC 42",
        "41 E2 82 42",
        "41 80 42",
        "F0 9F 98 80 21",
        "E2 82 AC C3 A9",
    ];
    for (index, body) in others.iter().enumerate() {
        let body = hex(body);
        put(out, b'r', &record(NAMES[index % 3], body.len(), &body))?;
    }
    Ok(())
}

/// Bodies of some hundred bytes.
fn long_bodies(out: &mut impl Write) -> io::Result<()> {
    let body: Vec<u8> = (0..=u8::MAX).collect();
    put(out, b'r', &record(5, 256, &body))?;
    put(out, b'r', &record(CRITICAL | 4, 256, &body))?;
    put(out, b'r', &record(CRITICAL | 6, 300, "\u{e9}".repeat(150).as_bytes()))
}

/// Records at places: each record of M, beside them, at the end and past it, as far as a place can be.
fn places(out: &mut impl Write) -> io::Result<()> {
    let m = hex(M);
    let far = [
        17,
        20,
        255,
        256,
        65_536,
        65_542,
        u64::from(u32::MAX),
        1 << 32,
        (1 << 32) + 6,
        1 << 63,
        (1 << 63) + 12,
        u64::MAX - 15,
        u64::MAX - 3,
        u64::MAX,
    ];
    for place in (0..=16).chain(far) {
        put(out, b'R', &placed(place, &m))?;
    }
    for place in [0, 1, u64::MAX] {
        put(out, b'R', &placed(place, &[]))?;
    }
    let middle =
        ["80 07 00 02 00 7B", "00 0D 00 02 C3 A9", "80 06 00 01 C3", "00 05 00 09 01 02", "FF FF 00 03 01 02 03"];
    for record in middle {
        put(out, b'R', &placed(5, &hex(&format!("00 08 00 00 41 {record}"))))?;
        put(out, b'R', &placed(0, &hex(&format!("{record} 41 42"))))?;
    }
    Ok(())
}

/// The bit as received, beside other top bits: of the records before and after it, of its body, and of its size, with few
/// bytes there and with all of them.
fn bits(out: &mut impl Write) -> io::Result<()> {
    let messages = [
        "00 01 00 02 00 00 80 08 00 00 00 05 00 01 61 80 00 00 00",
        "80 01 00 02 00 00 00 08 00 00 80 05 00 01 61 00 00 00 00",
    ];
    for message in messages {
        for place in [0, 6, 10, 15] {
            put(out, b'R', &placed(place, &hex(message)))?;
        }
    }
    for kind in KINDS {
        for word in [kind, kind | CRITICAL] {
            put(out, b'r', &record(word, 2, &hex("C2 80")))?;
            put(out, b'r', &record(word, 4, &hex("F4 8F BF BF 80")))?;
            put(out, b'r', &record(word, 0x8000, &hex("00 0F")))?;
            put(out, b'R', &placed(1, &hex(&format!("80 {word:04X} 00 00"))))?;
            put(out, b'R', &placed(1, &hex(&format!("00 {word:04X} 00 00"))))?;
        }
    }
    put(out, b'r', &record(0, 0x8000, &[0; 0x8000]))?;
    put(out, b'r', &record(CRITICAL | 8, 0x8000, &[0; 0x8000]))
}

/// Cases that are none.
fn bad_cases(out: &mut impl Write) -> io::Result<()> {
    for op in [0, b'!', 0xff] {
        put(out, op, &[])?;
        put(out, op, &hex(M))?;
    }
    for length in [0, 1, 7] {
        put(out, b'R', &hex(M)[..length])?;
    }
    put(out, b'r', &hex(M))
}
