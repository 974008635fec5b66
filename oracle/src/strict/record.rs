//! One record of a message: RFC 8915, section 4, with document 01's faults of a body and order 5's refusal 18.

use std::str;

/// Two bytes of type word and two of body size.
pub const HEADER: usize = 4;

pub const END: u16 = 0;
pub const PROTOCOLS: u16 = 1;
pub const ERROR: u16 = 2;
pub const WARNING: u16 = 3;
pub const ALGORITHMS: u16 = 4;
pub const COOKIE: u16 = 5;
pub const SERVER: u16 = 6;
pub const PORT: u16 = 7;

/// Bytes are missing.
pub const MISSING: u8 = 1;
/// The body is ill-formed.
pub const ILL_FORMED: u8 = 2;

/// What is there of a record whose header is.
pub struct Record<'a> {
    pub critical: bool,
    pub kind: u16,
    /// What the header says of the body's size.
    pub size: usize,
    /// What is there of the body, no more than that.
    pub body: &'a [u8],
}

/// Why a record is refused with 18.
#[derive(Clone, Copy, PartialEq)]
pub enum Breach {
    /// One of the kinds 0 to 3 without its critical bit.
    ClearBit(u16),
    /// An end record with a body.
    Body,
    /// An end record with a body and without its bit.
    BodyAndClearBit,
    /// A server name with a byte above 7F.
    NotAscii,
}

impl<'a> Record<'a> {
    /// The record that begins with these bytes; none where they end inside its header.
    pub fn of(bytes: &'a [u8]) -> Option<Self> {
        let (&[word_high, word_low, size_high, size_low], rest) = bytes.split_first_chunk::<HEADER>()?;
        let size = usize::from(size_high) << 8 | usize::from(size_low);
        Some(Self {
            critical: word_high >= 0x80,
            kind: u16::from(word_high % 0x80) << 8 | u16::from(word_low),
            size,
            body: &rest[..size.min(rest.len())],
        })
    }

    pub fn is_whole(&self) -> bool {
        self.body.len() == self.size
    }

    /// How many bytes a whole one takes.
    pub fn length(&self) -> usize {
        HEADER + self.size
    }

    /// What is wrong with it by itself. Kinds from 8 on are unknown: nothing is looked at but whether the body is all there.
    pub fn fault(&self) -> Option<u8> {
        let missing = (!self.is_whole()).then_some(MISSING);
        match self.kind {
            PROTOCOLS | ALGORITHMS if self.size % 2 == 1 => Some(MISSING),
            ERROR | WARNING | PORT if self.body.len() < 2 => Some(MISSING),
            ERROR | WARNING | PORT if self.size != 2 => Some(ILL_FORMED),
            SERVER if str::from_utf8(self.body).is_err() => Some(ILL_FORMED),
            _ => missing,
        }
    }

    /// Whether it breaks a rule of the RFC's that only the strict profile minds.
    pub fn breach(&self) -> Option<Breach> {
        match (self.kind, self.critical, self.size) {
            (END, false, 1..) => Some(Breach::BodyAndClearBit),
            (END, true, 1..) => Some(Breach::Body),
            (END | PROTOCOLS | ERROR | WARNING, false, _) => Some(Breach::ClearBit(self.kind)),
            (SERVER, ..) if self.body.iter().any(|&byte| byte > 0x7f) => Some(Breach::NotAscii),
            _ => None,
        }
    }

    /// The numbers of a list.
    pub fn numbers(&self) -> Vec<u16> {
        self.body.chunks(2).map(|pair| u16::from(pair[0]) << 8 | u16::from(pair[1])).collect()
    }

    /// The number of an error, a warning or a port.
    pub fn number(&self) -> u16 {
        self.numbers()[0]
    }
}
