//! One record, and the records of a message.

use crate::views::Hidden;
use crate::writing::{count, front};
use crate::{
    raw, AeadAlgorithm, AlgorithmDescription, Authentication, Cookie, ErrorCode, Keys, List, Message, Name,
    NextProtocol, Refusal, Refused, WarningCode,
};
use core::fmt;
use core::iter::FusedIterator;

/// A record, with its parts of the message that it was read from or is made from. `{:?}` shows of keys, a cookie, an
/// authentication and an unknown body only how long they are.
#[derive(Clone, Copy)]
#[non_exhaustive]
pub enum Record<'m> {
    /// 0: the end of the message.
    EndOfMessage,
    /// 1: protocols.
    NextProtocol(List<'m, NextProtocol>),
    /// 2: an error.
    Error(ErrorCode),
    /// 3: a warning.
    Warning(WarningCode),
    /// 4: algorithms.
    AeadAlgorithm(List<'m, AeadAlgorithm>),
    /// 5: a cookie.
    NewCookie(Cookie<'m>),
    /// 6: the server to ask for the time.
    Server(Name<'m>),
    /// 7: its port.
    Port(u16),
    /// 8: the connection stays.
    KeepAlive,
    /// 9: the protocols that the server can do.
    SupportedNextProtocolList(List<'m, NextProtocol>),
    /// 10: the algorithms that it can do, with their key sizes.
    SupportedAlgorithmList(List<'m, AlgorithmDescription>),
    /// 12: keys that are given.
    FixedKeyRequest(Keys<'m>),
    /// 13: a server that the client does not want.
    NtpServerDeny(Name<'m>),
    /// 14: by what the client is known.
    Authentication(Authentication<'m>),
    /// Any other.
    Unknown {
        /// Its number: 11, or 15 to 32,767.
        kind: u16,
        /// Its critical bit.
        critical: bool,
        /// Its body.
        data: &'m [u8],
    },
}

impl<'m> Record<'m> {
    /// The record that a reader's answer tells.
    pub(crate) fn told(message: Message<'m>, answer: &raw::ReadCells) -> Self {
        let [kind, bit, number, start, len, second_start, second_len, ..] = *answer;
        let number = number as u16;
        let body = || message.part(start, len);
        match kind as u16 {
            0 => Record::EndOfMessage,
            1 => Record::NextProtocol(List::new(body())),
            2 => Record::Error(ErrorCode(number)),
            3 => Record::Warning(WarningCode(number)),
            4 => Record::AeadAlgorithm(List::new(body())),
            5 => Record::NewCookie(Cookie::new(body())),
            6 => Record::Server(Name::of(body())),
            7 => Record::Port(number),
            8 => Record::KeepAlive,
            9 => Record::SupportedNextProtocolList(List::new(body())),
            10 => Record::SupportedAlgorithmList(List::new(body())),
            12 => {
                debug_assert_eq!(start + len, second_start);
                Record::FixedKeyRequest(Keys::new(message.part(start, len + second_len)))
            }
            13 => Record::NtpServerDeny(Name::of(body())),
            14 => Record::Authentication(Authentication::of(body())),
            kind => Record::Unknown { kind, critical: bit == 1, data: body() },
        }
    }

    /// The cells that tell the record, and the bytes that its parts lie in. An unknown record is none that is numbered
    /// like a known one.
    fn cells(self) -> Result<(raw::RecordCells, &'m [u8]), Refused> {
        let bare = |kind| Ok(([kind, 0, 0, 0, 0, 0, 0], &[][..]));
        let numbered = |kind, number: u16| Ok(([kind, 0, usize::from(number), 0, 0, 0, 0], &[][..]));
        let bodied = |kind, body: &'m [u8]| Ok(([kind, 0, 0, 0, body.len(), 0, 0], body));
        match self {
            Record::EndOfMessage => bare(0),
            Record::NextProtocol(list) => bodied(1, list.bytes()),
            Record::Error(code) => numbered(2, code.0),
            Record::Warning(code) => numbered(3, code.0),
            Record::AeadAlgorithm(list) => bodied(4, list.bytes()),
            Record::NewCookie(cookie) => bodied(5, cookie.bytes()),
            Record::Server(name) => bodied(6, name.bytes()),
            Record::Port(port) => numbered(7, port),
            Record::KeepAlive => bare(8),
            Record::SupportedNextProtocolList(list) => bodied(9, list.bytes()),
            Record::SupportedAlgorithmList(list) => bodied(10, list.bytes()),
            Record::FixedKeyRequest(keys) => {
                let (c2s, s2c) = (keys.c2s().bytes().len(), keys.s2c().bytes().len());
                Ok(([12, 0, 0, 0, c2s, c2s, s2c], keys.bytes()))
            }
            Record::NtpServerDeny(name) => bodied(13, name.bytes()),
            Record::Authentication(authentication) => bodied(14, authentication.bytes()),
            Record::Unknown { kind: 0..=10 | 12..=14, .. } => Err(Refused::InvalidValue),
            Record::Unknown { kind, critical, data } => {
                Ok(([usize::from(kind), usize::from(critical), 0, 0, data.len(), 0, 0], data))
            }
        }
    }

    /// Writes the record to the front of `out` and gives that part of it. The critical bit of a known kind is the one
    /// that [`bit_named`] tells, that of an unknown kind its own. Refusals: 9 for a list whose length is wrong, keys of
    /// unequal length and an unknown record numbered like a known one or above 32,767; then 8; then 10.
    pub fn write<'o>(&self, out: &'o mut [u8]) -> Result<&'o mut [u8], Refused> {
        let (cells, source) = self.cells()?;
        let mut written = [0];
        let word = raw::write_record(&cells, source, out, &mut written);
        front(count(word, written), out)
    }

    /// How long the record is when it is written. Refusals: 9 and 8.
    pub fn length(&self) -> Result<usize, Refused> {
        let (cells, source) = self.cells()?;
        let mut length = [0];
        let word = raw::record_length(&cells, source, &mut length);
        count(word, length)
    }
}

impl fmt::Debug for Record<'_> {
    fn fmt(&self, f: &mut fmt::Formatter<'_>) -> fmt::Result {
        let (kind, held): (_, &dyn fmt::Debug) = match self {
            Record::EndOfMessage => return f.write_str("EndOfMessage"),
            Record::KeepAlive => return f.write_str("KeepAlive"),
            Record::Unknown { kind, critical, data } => {
                let mut unknown = f.debug_struct("Unknown");
                return unknown.field("kind", kind).field("critical", critical).field("data", &Hidden(data)).finish();
            }
            Record::NextProtocol(list) => ("NextProtocol", list),
            Record::Error(code) => ("Error", code),
            Record::Warning(code) => ("Warning", code),
            Record::AeadAlgorithm(list) => ("AeadAlgorithm", list),
            Record::NewCookie(cookie) => ("NewCookie", cookie),
            Record::Server(name) => ("Server", name),
            Record::Port(port) => ("Port", port),
            Record::SupportedNextProtocolList(list) => ("SupportedNextProtocolList", list),
            Record::SupportedAlgorithmList(list) => ("SupportedAlgorithmList", list),
            Record::FixedKeyRequest(keys) => ("FixedKeyRequest", keys),
            Record::NtpServerDeny(name) => ("NtpServerDeny", name),
            Record::Authentication(authentication) => ("Authentication", authentication),
        };
        f.debug_tuple(kind).field(held).finish()
    }
}

/// The critical bit that document 01 names for a kind, which is the one that [`Record::write`] writes; none for an
/// unknown kind, which is written as given.
///
/// ```
/// # use ntske::bit_named;
/// assert_eq!((bit_named(4), bit_named(5), bit_named(11)), (Some(true), Some(false), None));
/// ```
pub fn bit_named(kind: u16) -> Option<bool> {
    match raw::bit_named(kind) {
        0 => Some(false),
        1 => Some(true),
        _ => None,
    }
}

/// How the critical bit that a sender gave a known record differs from the one that document 01 names for its kind.
/// Reading lets both pass. It is shown in words: `without its critical bit`, `with a critical bit`.
#[derive(Clone, Copy, Debug, PartialEq, Eq, Hash)]
pub enum Slip {
    /// The bit is to be set, and is clear.
    Forgotten,
    /// The bit is to be clear, and is set.
    Added,
}

impl Slip {
    /// What is said of a record that has it.
    pub const fn words(self) -> &'static str {
        match self {
            Slip::Forgotten => "without its critical bit",
            Slip::Added => "with a critical bit",
        }
    }
}

impl fmt::Display for Slip {
    fn fmt(&self, f: &mut fmt::Formatter<'_>) -> fmt::Result {
        f.write_str(self.words())
    }
}

/// A record of a message with its place and its header.
#[derive(Clone, Copy)]
#[non_exhaustive]
pub struct Placed<'m> {
    /// The place of its first byte in the message.
    pub place: usize,
    /// Its kind.
    pub kind: u16,
    /// Its critical bit as it was received, of every kind.
    pub critical: bool,
    /// The critical bit that document 01 names for its kind; none for an unknown kind. See [`bit_named`].
    pub named: Option<bool>,
    /// The size of its body.
    pub size: u16,
    /// The bytes of its body.
    pub body: &'m [u8],
    /// What it is. To write it gives the same bytes exactly if there is no [slip](Placed::slip) and the body of an end
    /// or a keep-alive record was empty.
    pub record: Record<'m>,
    /// The place after it.
    pub next: usize,
}

impl<'m> Placed<'m> {
    /// The record at a place that a reader's answer tells. It has a header of four bytes, and its body up to the next.
    pub(crate) fn told(message: Message<'m>, place: usize, answer: &raw::ReadCells) -> Self {
        let [kind, bit, .., next] = *answer;
        let (kind, body) = (kind as u16, &message.bytes()[place + 4..next]);
        let record = Record::told(message, answer);
        let (critical, named) = (bit == 1, bit_named(kind));
        Placed { place, kind, critical, named, size: body.len() as u16, body, record, next }
    }

    /// Whether the sender forgot the critical bit of a known kind, or added one. There is no slip where the bit is the one
    /// that is named, nor of an unknown kind.
    pub fn slip(&self) -> Option<Slip> {
        match (self.named?, self.critical) {
            (true, false) => Some(Slip::Forgotten),
            (false, true) => Some(Slip::Added),
            _ => None,
        }
    }
}

impl fmt::Debug for Placed<'_> {
    fn fmt(&self, f: &mut fmt::Formatter<'_>) -> fmt::Result {
        f.debug_struct("Placed")
            .field("place", &self.place)
            .field("kind", &self.kind)
            .field("critical", &self.critical)
            .field("named", &self.named)
            .field("size", &self.size)
            .field("record", &self.record)
            .finish_non_exhaustive()
    }
}

/// The records of a message, one after the other: see [`Message::records`].
#[derive(Clone, Debug)]
pub struct Records<'m> {
    message: Message<'m>,
    next: Option<usize>,
}

impl<'m> Records<'m> {
    pub(crate) const fn new(message: Message<'m>) -> Self {
        Records { message, next: Some(0) }
    }
}

impl<'m> Iterator for Records<'m> {
    type Item = Result<Placed<'m>, Refusal>;

    fn next(&mut self) -> Option<Self::Item> {
        let read = self.message.record(self.next.take()?);
        self.next = read.as_ref().ok().filter(|placed| placed.kind != 0).map(|placed| placed.next);
        Some(read)
    }
}

impl FusedIterator for Records<'_> {}
