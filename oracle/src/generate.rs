//! Makes the corpora. Each is the same for the same seed.

mod choices;
mod choosing;
mod findings;
mod messages;
mod names;
mod offered;
mod offers;
mod orders;
pub mod payloads;
mod pieces;
mod plans;
mod records;
mod replies;
mod requests;
mod sends;
mod strict;
mod tokens;
mod trays;
mod words;
mod writes;

use std::io::{self, Write};

use crate::samples;
pub use messages::Family;
pub use replies::REPLIES;
pub use requests::REQUESTS;

pub const UNKNOWN: u16 = 11;
pub const CRITICAL: u16 = 0x8000;

/// Whether a number is that of a kind that document 01 names.
pub fn is_known(kind: u16) -> bool {
    kind <= 14 && kind != UNKNOWN
}

/// Writes the corpus of that name; an error where there is none.
pub fn corpus(name: &str, seed: u64, count: Option<u64>, out: &mut impl Write) -> io::Result<bool> {
    match name {
        "sample" => samples::reading(out)?,
        "cut" => records::cut_case(out)?,
        "sample-writing" => samples::writing(out)?,
        "sample-requests" => samples::requests(out)?,
        "sample-replies" => samples::replies(out)?,
        "sample-choosing" => samples::choosing(out)?,
        "sample-pieces" => samples::pieces(out)?,
        "sample-findings" => samples::findings(out)?,
        "sample-strict" => samples::strict(out)?,
        "words" => words::every(seed, out)?,
        "names" => names::boundaries(out)?,
        "names3" => names::of_three(out)?,
        "random" => records::random(seed, count.unwrap_or(300_000), out)?,
        "tokens" => tokens::up_to_three(&REQUESTS, seed, out)?,
        "tokens4" => tokens::of_four(&REQUESTS, seed, out)?,
        "requests" => messages::messages(&REQUESTS, seed, count.unwrap_or(300_000), out)?,
        "reply-tokens" => tokens::up_to_three(&REPLIES, seed, out)?,
        "reply-tokens4" => tokens::of_four(&REPLIES, seed, out)?,
        "replies" => {
            replies::long_names(seed, out)?;
            messages::messages(&REPLIES, seed, count.unwrap_or(1_950_000), out)?;
        }
        "offered" => offered::offered(seed, out)?,
        "orders" => orders::orders(&[REQUESTS, REPLIES], seed, count.unwrap_or(20_000), out)?,
        "pieces" => pieces::pieces(&[REQUESTS, REPLIES], seed, count.unwrap_or(50_000), out)?,
        "pieces-tokens" => pieces::pieces_of_tokens(&[REQUESTS, REPLIES], seed, out)?,
        "findings" => findings::findings(seed, count.unwrap_or(150_000), out)?,
        "findings-tokens" => findings::findings_of_tokens(seed, out)?,
        "strict" => strict::strict(seed, count.unwrap_or(100_000), out)?,
        "strict-tokens" => strict::strict_tokens(seed, out)?,
        "choosing" => choosing::choosing(seed, count.unwrap_or(400_000), out)?,
        "writes" => writes::writes(seed, count.unwrap_or(200_000), out)?,
        _ => return Err(io::Error::other(format!("no corpus is named {name}"))),
    }
    Ok(true)
}

/// The bytes of a record: type word, size and what is there of its body.
pub fn record(word: u16, size: usize, there: &[u8]) -> Vec<u8> {
    let size = u16::try_from(size).expect("a record's size");
    [&word.to_be_bytes()[..], &size.to_be_bytes(), there].concat()
}

/// A record's type word.
pub fn word(record: &[u8]) -> u16 {
    u16::from_be_bytes([record[0], record[1]])
}

/// A record's kind.
pub fn kind(record: &[u8]) -> u16 {
    word(record) & !CRITICAL
}

/// The payload of op R.
pub fn placed(place: u64, bytes: &[u8]) -> Vec<u8> {
    [&place.to_be_bytes()[..], bytes].concat()
}

/// The payload of op L and, with the lists in front of the message, of op l.
pub fn limited(limit: usize, cells: usize, message: &[u8]) -> Vec<u8> {
    let half = |number| u16::try_from(number).expect("a limit or a table's cells").to_be_bytes();
    [&half(limit)[..], &half(cells), message].concat()
}
