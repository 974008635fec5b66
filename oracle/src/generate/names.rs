//! Names: every body of one, two and three bytes, and those on both sides of each line of RFC 3629's table.

use std::io::{self, Write};

use super::{CRITICAL, record};
use crate::corpus::put;

const KINDS: [u16; 3] = [6, 13, 14];
const LEADS: [u8; 20] = [
    0x00, 0x7f, 0x80, 0xbf, 0xc0, 0xc1, 0xc2, 0xdf, 0xe0, 0xe1, 0xec, 0xed, 0xee, 0xef, 0xf0, 0xf1, 0xf3, 0xf4, 0xf5,
    0xff,
];
const FOLLOWERS: [u8; 8] = [0x7f, 0x80, 0x8f, 0x90, 0x9f, 0xa0, 0xbf, 0xc0];

/// Every body of one and two bytes, and those of three and four bytes around the table's boundaries, whole and cut.
pub fn boundaries(out: &mut impl Write) -> io::Result<()> {
    let mut turn = 0;
    pairs_of_bytes(&mut |body| short(out, &mut turn, body))?;
    around(&mut |body| long(out, &mut turn, body))?;
    // The last case ends inside its length.
    out.write_all(b"r\x00\x00\x00")
}

/// Every body of one and two bytes.
pub fn pairs_of_bytes(each: &mut impl FnMut(&[u8]) -> io::Result<()>) -> io::Result<()> {
    for first in 0..=u8::MAX {
        each(&[first])?;
        for second in 0..=u8::MAX {
            each(&[first, second])?;
        }
    }
    Ok(())
}

/// Bodies of three and four bytes around the table's boundaries.
pub fn around(each: &mut impl FnMut(&[u8]) -> io::Result<()>) -> io::Result<()> {
    for first in LEADS {
        for second in FOLLOWERS {
            for third in FOLLOWERS {
                each(&[first, second, third])?;
                for fourth in FOLLOWERS {
                    each(&[first, second, third, fourth])?;
                }
            }
        }
    }
    Ok(())
}

/// Every body of three bytes.
pub fn of_three(out: &mut impl Write) -> io::Result<()> {
    let mut turn = 0;
    for body in 0..1 << 24 {
        let [_, first, second, third] = u32::to_be_bytes(body);
        turn += 1;
        put(out, b'r', &record(word(turn, turn), 3, &[first, second, third]))?;
    }
    Ok(())
}

/// The body whole and cut, as a server name and, in turn, as one of the others.
fn short(out: &mut impl Write, turn: &mut usize, body: &[u8]) -> io::Result<()> {
    *turn += 1;
    for kind in [0, 1 + *turn % 2] {
        let word = word(kind, *turn);
        put(out, b'r', &record(word, body.len(), body))?;
        put(out, b'r', &record(word, body.len() + 1 + *turn % 3, body))?;
    }
    Ok(())
}

/// The body whole, between other bytes, cut after its last byte and cut before it, for each kind of name.
fn long(out: &mut impl Write, turn: &mut usize, body: &[u8]) -> io::Result<()> {
    for kind in 0..KINDS.len() {
        *turn += 1;
        let word = word(kind, *turn);
        let size = body.len();
        put(out, b'r', &record(word, size, body))?;
        put(out, b'r', &record(word, size + 2, &[b"a", body, b"z"].concat()))?;
        put(out, b'r', &record(word, size + 1, body))?;
        put(out, b'r', &record(word, size, &body[..size - 1]))?;
    }
    Ok(())
}

/// The type word of a kind of name; the bit goes by turns.
fn word(kind: usize, turn: usize) -> u16 {
    KINDS[kind % KINDS.len()] | if turn % 4 < 2 { CRITICAL } else { 0 }
}
