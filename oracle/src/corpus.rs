//! A corpus: cases of one byte (the op), a four-byte big-endian length and that many bytes.

use std::io::{self, BufRead, Read, Write};

/// A longer payload is a bad case.
pub const LONGEST: usize = 66_000;
/// The limit of ops q and y, which is the crate's own, and the largest there is.
pub const CRATES_LIMIT: usize = 4096;
pub const LARGEST_LIMIT: usize = 65_535;
/// Cells of the largest table; an entry takes two.
pub const CELLS: usize = 2048;

/// Cases in order. The payload of the last one read stands in `payload`, empty where it was too long.
pub struct Cases<R> {
    input: R,
    pub op: u8,
    pub payload: Vec<u8>,
    pub too_long: bool,
}

impl<R: BufRead> Cases<R> {
    pub fn new(input: R) -> Self {
        Self { input, op: 0, payload: Vec::new(), too_long: false }
    }

    /// Reads the next case; false where the input ends before it does.
    pub fn advance(&mut self) -> io::Result<bool> {
        let mut header = [0; 5];
        if !filled(&mut self.input, &mut header)? {
            return Ok(false);
        }
        self.op = header[0];
        let length = u32::from_be_bytes([header[1], header[2], header[3], header[4]]);
        self.too_long = length as usize > LONGEST;
        self.payload.clear();
        if self.too_long {
            let passed = io::copy(&mut self.input.by_ref().take(length.into()), &mut io::sink())?;
            return Ok(passed == u64::from(length));
        }
        self.payload.resize(length as usize, 0);
        filled(&mut self.input, &mut self.payload)
    }
}

/// Fills the buffer; false where the input ends first.
fn filled(input: &mut impl Read, buffer: &mut [u8]) -> io::Result<bool> {
    match input.read_exact(buffer) {
        Ok(()) => Ok(true),
        Err(error) if error.kind() == io::ErrorKind::UnexpectedEof => Ok(false),
        Err(error) => Err(error),
    }
}

/// Writes one case.
pub fn put(out: &mut impl Write, op: u8, payload: &[u8]) -> io::Result<()> {
    let length = u32::try_from(payload.len()).expect("a payload's length");
    out.write_all(&[op])?;
    out.write_all(&length.to_be_bytes())?;
    out.write_all(payload)
}
