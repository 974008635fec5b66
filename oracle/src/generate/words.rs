//! Every type word, with each size up to six and each number of bytes there up to seven.

use std::io::{self, Write};

use crate::corpus::put;
use crate::random::Random;

pub fn every(seed: u64, out: &mut impl Write) -> io::Result<()> {
    let mut random = Random::new(seed, "words");
    for word in 0..=u16::MAX {
        for size in 0..=6u16 {
            for there in 0..=7 {
                let [w0, w1] = word.to_be_bytes();
                let [s0, s1] = size.to_be_bytes();
                let b = body(&mut random);
                let bytes = [w0, w1, s0, s1, b[0], b[1], b[2], b[3], b[4], b[5], b[6]];
                put(out, b'r', &bytes[..4 + there])?;
            }
        }
    }
    Ok(())
}

/// Well-formed sequences, put into every fourth body.
const SEQUENCES: [&str; 8] =
    ["\u{80}", "\u{e9}", "\u{7ff}", "\u{800}", "\u{20ac}", "\u{ffff}", "\u{10000}", "\u{10ffff}"];

/// Eight bytes: every second time ASCII, every fourth time ASCII with a longer sequence, otherwise anything.
fn body(random: &mut Random) -> [u8; 8] {
    let word = random.word();
    match random.below(4) {
        0 => word.to_le_bytes(),
        1 => {
            let mut bytes = (word & 0x7f7f_7f7f_7f7f_7f7f).to_le_bytes();
            let sequence = random.pick(&SEQUENCES).as_bytes();
            let start = random.below(bytes.len() - sequence.len());
            bytes[start..start + sequence.len()].copy_from_slice(sequence);
            bytes
        }
        _ => (word & 0x7f7f_7f7f_7f7f_7f7f).to_le_bytes(),
    }
}
