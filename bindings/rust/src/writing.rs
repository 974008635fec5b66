//! The writers of whole messages, and their lengths.

use crate::refusal::accepted;
use crate::{raw, AeadAlgorithm, AlgorithmDescription, ErrorCode, Name, NextProtocol, Refused};
use core::fmt;

/// What a support request asks for.
#[derive(Clone, Copy, Debug, Default, PartialEq, Eq)]
pub struct Asked {
    /// The algorithms with their key sizes.
    pub algorithms: bool,
    /// The protocols.
    pub protocols: bool,
    /// That the connection stays.
    pub keep_alive: bool,
}

impl Asked {
    fn number(self) -> u8 {
        u8::from(self.algorithms) + 2 * u8::from(self.protocols) + 4 * u8::from(self.keep_alive)
    }
}

/// The names that a request denies, in a buffer.
pub struct Names<'b> {
    tray: &'b mut [u8],
    used: raw::Count,
}

impl<'b> Names<'b> {
    /// No names, over a buffer that the next are put into; what that holds does not matter.
    pub fn new(buffer: &'b mut [u8]) -> Self {
        Names { tray: buffer, used: [0] }
    }

    /// How many bytes of the buffer a name takes.
    pub const fn field(name: usize) -> usize {
        name + 3
    }

    /// One name more. Refusals: 8; 10 where the buffer has no room.
    pub fn append(&mut self, name: Name<'_>) -> Result<&mut Self, Refused> {
        accepted(raw::append_denied(name.bytes(), self.tray, &mut self.used))?;
        Ok(self)
    }
}

impl fmt::Debug for Names<'_> {
    fn fmt(&self, f: &mut fmt::Formatter<'_>) -> fmt::Result {
        write!(f, "Names({} bytes used)", self.used[0])
    }
}

/// Writes the reply that no protocol is agreed on. Refusals: 10.
pub fn write_no_protocol(out: &mut [u8]) -> Result<&mut [u8], Refused> {
    let mut written = [0];
    let word = raw::write_no_protocol(out, &mut written);
    front(count(word, written), out)
}

/// Writes the reply that no algorithm is agreed on. Refusals: 10.
pub fn write_no_algorithm(protocol: NextProtocol, out: &mut [u8]) -> Result<&mut [u8], Refused> {
    let mut written = [0];
    let word = raw::write_no_algorithm(protocol.0, out, &mut written);
    front(count(word, written), out)
}

/// Writes the reply that tells an error. Refusals: 10.
pub fn write_error(code: ErrorCode, out: &mut [u8]) -> Result<&mut [u8], Refused> {
    let mut written = [0];
    let word = raw::write_error(code.0, out, &mut written);
    front(count(word, written), out)
}

/// Writes a support reply with what is asked. Refusals: 8 for a list that is to be written; then 10.
pub fn write_support_reply<'o>(
    asked: Asked,
    pairs: &[AlgorithmDescription],
    protocols: &[NextProtocol],
    out: &'o mut [u8],
) -> Result<&'o mut [u8], Refused> {
    let mut written = [0];
    let word = raw::write_support_reply(asked.number(), pairs, protocols, out, &mut written);
    front(count(word, written), out)
}

/// The length of that reply. Refusals: 8.
pub fn support_reply_length(
    asked: Asked,
    pairs: &[AlgorithmDescription],
    protocols: &[NextProtocol],
) -> Result<usize, Refused> {
    let mut length = [0];
    let word = raw::support_reply_length(asked.number(), pairs, protocols, &mut length);
    count(word, length)
}

/// Writes a key-exchange request. Refusals: 8 for a list; then 10.
pub fn write_request<'o>(
    protocols: &[NextProtocol],
    algorithms: &[AeadAlgorithm],
    denied: &Names<'_>,
    out: &'o mut [u8],
) -> Result<&'o mut [u8], Refused> {
    let mut written = [0];
    let word = raw::write_request(protocols, algorithms, denied.tray, denied.used[0], out, &mut written);
    front(count(word, written), out)
}

/// The length of that request. Refusals: 8.
pub fn request_length(
    protocols: &[NextProtocol],
    algorithms: &[AeadAlgorithm],
    denied: &Names<'_>,
) -> Result<usize, Refused> {
    let mut length = [0];
    let word = raw::request_length(protocols, algorithms, denied.tray, denied.used[0], &mut length);
    count(word, length)
}

/// What a writer answers: how many bytes, or its refusal.
pub(crate) fn count(word: u64, [bytes]: raw::Count) -> Result<usize, Refused> {
    accepted(word).map(|()| bytes)
}

/// The front of an output that was written.
pub(crate) fn front(written: Result<usize, Refused>, out: &mut [u8]) -> Result<&mut [u8], Refused> {
    written.map(|bytes| &mut out[..bytes])
}
