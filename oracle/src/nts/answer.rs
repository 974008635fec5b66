//! Answers a corpus, one line a case.

use std::io::{self, BufRead, Write};

use super::{choosing, findings, lines, pieces, plans, reading, replies, requests, sending, trays, writing};
use crate::corpus::Cases;
use crate::strict;

pub fn corpus(input: impl BufRead, out: &mut impl Write) -> io::Result<bool> {
    let mut cases = Cases::new(io::BufReader::with_capacity(1 << 20, input));
    let mut line = Vec::new();
    while cases.advance()? {
        line.clear();
        if cases.too_long || answered(&mut line, cases.op, &cases.payload).is_none() {
            line.clear();
            lines::text(&mut line, "bad case");
        }
        line.push(b'\n');
        out.write_all(&line)?;
    }
    Ok(true)
}

/// Writes the answer to a case; none where the op is unknown or the payload does not fit it.
pub fn answered(line: &mut Vec<u8>, op: u8, payload: &[u8]) -> Option<()> {
    match op {
        b'r' => {
            reading::at_start(line, payload);
            Some(())
        }
        b'R' => reading::at_place(line, payload),
        b'q' => {
            requests::under_the_crates_limit(line, payload);
            Some(())
        }
        b'Q' => {
            requests::under_the_largest_limit(line, payload);
            Some(())
        }
        b'L' => requests::under_a_limit(line, payload),
        b'y' => replies::under_the_crates_limit(line, payload),
        b'l' => replies::under_a_limit(line, payload),
        b'f' => pieces::request(line, payload),
        b'F' => pieces::reply(line, payload),
        b'v' => findings::walked(line, payload),
        b'V' => findings::decided(line, payload),
        b's' | b'S' | b't' | b'T' => strict::answered(line, op, payload),
        b'w' => writing::written(line, payload),
        b'W' => writing::written_into(line, payload),
        b'X' => writing::written_part(line, payload),
        b'z' => writing::measured(line, payload),
        b'g' => choosing::chosen(line, payload),
        b'n' => sending::reply(line, payload),
        b'a' => trays::appended(line, payload),
        b'p' => plans::by_calls(line, payload),
        b'P' => plans::by_hand(line, payload),
        b'k' => sending::request(line, payload),
        _ => None,
    }
}
