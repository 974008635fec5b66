//! The pieces of an answer's line.

use std::io::Write;

/// Where two answers of the oracle's ought to agree and do not, such as those of the crate as it stands and of an edited copy,
/// the line begins so, and the comparison fails by it.
pub const DISAGREES: &str = "ORACLE DISAGREES";

const DIGITS: &[u8; 16] = b"0123456789abcdef";

/// `<..>`: bytes in hexadecimal.
pub fn bytes(line: &mut Vec<u8>, bytes: &[u8]) {
    line.reserve(2 * bytes.len() + 2);
    line.push(b'<');
    for byte in bytes {
        line.push(DIGITS[usize::from(byte >> 4)]);
        line.push(DIGITS[usize::from(byte & 15)]);
    }
    line.push(b'>');
}

/// `[..]`: decimal numbers joined by commas.
pub fn numbers(line: &mut Vec<u8>, numbers: impl Iterator<Item = u16>) {
    line.push(b'[');
    for (index, value) in numbers.enumerate() {
        if index > 0 {
            line.push(b',');
        }
        number(line, value);
    }
    line.push(b']');
}

/// A number in decimal.
pub fn number(line: &mut Vec<u8>, number: impl Into<u64>) {
    write!(line, "{}", number.into()).expect("memory takes every line");
}

pub fn text(line: &mut Vec<u8>, text: &str) {
    line.extend_from_slice(text.as_bytes());
}

/// A refusal's number.
pub fn refused(line: &mut Vec<u8>, refusal: u8) {
    text(line, "refused ");
    number(line, refusal);
}

/// A refusal's number and place.
pub fn refused_at(line: &mut Vec<u8>, refusal: u8, place: u64) {
    refused(line, refusal);
    text(line, " at ");
    number(line, place);
}

/// Tells both lines where the copy's, which stands in `line`, is not that of the crate as it stands.
pub fn judged(line: &mut Vec<u8>, crates: &[u8], copy: &str) {
    agreed(line, copy, ("the crate", crates));
}

/// Tells both lines where the one that stands in `line` is not the other one.
pub fn agreed(line: &mut Vec<u8>, whose: &str, (others, other): (&str, &[u8])) {
    if other != line {
        let ours = std::mem::take(line);
        text(line, DISAGREES);
        text(line, ", ");
        text(line, others);
        text(line, ": ");
        line.extend_from_slice(other);
        text(line, ", ");
        text(line, whose);
        text(line, ": ");
        line.extend_from_slice(&ours);
    }
}
