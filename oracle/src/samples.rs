//! The stored sample: few and short cases, chosen so that each line of document 01 has its own.

mod choosing;
mod findings;
mod named;
mod pieces;
mod reading;
mod replies;
mod requests;
mod strict;
mod writing;

pub use choosing::choosing;
pub use findings::findings;
pub use pieces::pieces;
pub use reading::reading;
pub use replies::replies;
pub use requests::requests;
pub use strict::strict;
pub use writing::writing;

/// Bytes from hexadecimal digits; blanks count for nothing.
pub fn hex(text: &str) -> Vec<u8> {
    let digits: Vec<u8> = text
        .bytes()
        .filter(|byte| !byte.is_ascii_whitespace())
        .map(|byte| char::from(byte).to_digit(16).expect("a hexadecimal digit") as u8)
        .collect();
    digits.chunks(2).map(|pair| pair[0] << 4 | pair[1]).collect()
}
