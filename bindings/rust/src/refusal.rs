//! What a call refuses with.

use crate::{AeadAlgorithm, ErrorCode, NextProtocol, WarningCode};
use core::fmt;

/// Why a call refuses.
#[derive(Clone, Copy, Debug, PartialEq, Eq, Hash)]
#[non_exhaustive]
pub enum Refused {
    /// 1: bytes are missing.
    UnexpectedEof,
    /// 2: a body is ill-formed.
    InvalidData,
    /// 3: an unknown record has its critical bit set.
    UnrecognizedCriticalRecord,
    /// 4: the set of records is not allowed.
    Invalid,
    /// 5: the algorithm is not 15 or 17.
    AeadNotSupported(AeadAlgorithm),
    /// 6: a key half has the wrong length.
    IncorrectSizedKey,
    /// 7: there are more names or cookies than the table or the plan holds.
    TableFull,
    /// 8: a body to write is longer than 65,535 bytes.
    InvalidInput,
    /// 9: the value is no record, plan, tray, connection or finding.
    InvalidValue,
    /// 10: the output is too short.
    OutputTooShort,
    /// 11: the reply has an error record.
    Error(ErrorCode),
    /// 12: the reply has a warning record.
    UnknownWarning(WarningCode),
    /// 13: no protocol is in common.
    NoOverlappingProtocol,
    /// 14: no algorithm is in common.
    NoOverlappingAlgorithm,
    /// 15: there is no cookie.
    NoCookie,
    /// 16: the buffer of a read in pieces has no room for a byte that the read needs.
    BufferFull,
    /// 17: the reply's protocol is none of those that were offered.
    ProtocolNotOffered(NextProtocol),
    /// 17: the reply's algorithm is none of those that were offered.
    AeadNotOffered(AeadAlgorithm),
    /// 18: the strict profile does not allow the record, or the byte after the end record: see
    /// [`Profile`](crate::Profile).
    NotAllowed,
    /// A refusal that this package does not know: the archive is of another version.
    Unknown {
        /// The refusal's number.
        number: u16,
        /// What is beside it.
        beside: u16,
    },
}

impl Refused {
    /// The refusal's number: 1 to 18, or one that is not known.
    pub const fn number(self) -> u16 {
        match self {
            Refused::UnexpectedEof => 1,
            Refused::InvalidData => 2,
            Refused::UnrecognizedCriticalRecord => 3,
            Refused::Invalid => 4,
            Refused::AeadNotSupported(_) => 5,
            Refused::IncorrectSizedKey => 6,
            Refused::TableFull => 7,
            Refused::InvalidInput => 8,
            Refused::InvalidValue => 9,
            Refused::OutputTooShort => 10,
            Refused::Error(_) => 11,
            Refused::UnknownWarning(_) => 12,
            Refused::NoOverlappingProtocol => 13,
            Refused::NoOverlappingAlgorithm => 14,
            Refused::NoCookie => 15,
            Refused::BufferFull => 16,
            Refused::ProtocolNotOffered(_) | Refused::AeadNotOffered(_) => 17,
            Refused::NotAllowed => 18,
            Refused::Unknown { number, .. } => number,
        }
    }

    /// The number beside it: the algorithm of 5, the code of 11 and 12, the protocol or the algorithm of 17, and what is
    /// there of one that is not known.
    pub const fn beside(self) -> Option<u16> {
        match self {
            Refused::AeadNotSupported(algorithm) | Refused::AeadNotOffered(algorithm) => Some(algorithm.0),
            Refused::Error(code) => Some(code.0),
            Refused::UnknownWarning(code) => Some(code.0),
            Refused::ProtocolNotOffered(protocol) => Some(protocol.0),
            Refused::Unknown { beside, .. } => Some(beside),
            _ => None,
        }
    }

    /// In words, without the number beside it.
    pub const fn words(self) -> &'static str {
        match self {
            Refused::UnexpectedEof => "bytes are missing",
            Refused::InvalidData => "a body is ill-formed",
            Refused::UnrecognizedCriticalRecord => "an unknown record has its critical bit set",
            Refused::Invalid => "the set of records is not allowed",
            Refused::AeadNotSupported(_) => "the algorithm is not 15 or 17",
            Refused::IncorrectSizedKey => "a key half has the wrong length",
            Refused::TableFull => "more names or cookies than the table or the plan holds",
            Refused::InvalidInput => "a body to write is longer than 65,535 bytes",
            Refused::InvalidValue => "the value is no record, plan, tray, connection or finding",
            Refused::OutputTooShort => "the output is too short",
            Refused::Error(_) => "the reply has an error record",
            Refused::UnknownWarning(_) => "the reply has a warning record",
            Refused::NoOverlappingProtocol => "no protocol in common",
            Refused::NoOverlappingAlgorithm => "no algorithm in common",
            Refused::NoCookie => "no cookie",
            Refused::BufferFull => "the buffer has no room for a byte that the read needs",
            Refused::ProtocolNotOffered(_) => "the reply's protocol was not offered",
            Refused::AeadNotOffered(_) => "the reply's algorithm was not offered",
            Refused::NotAllowed => "the strict profile does not allow the record, or the byte after the end",
            Refused::Unknown { .. } => "a refusal that this package does not know",
        }
    }

    /// The code of the error record with which a server answers a request that was refused so: 0 for 3; 1 for what is
    /// the client's fault (1, 2, 4, 5, 6, 18); 2 for what is the server's own (7 and 16, since its table or its buffer is
    /// too small, and any other). The replies to 13 and 14 are no errors: they are those of
    /// [`write_no_protocol`](crate::write_no_protocol) and [`write_no_algorithm`](crate::write_no_algorithm).
    pub const fn error_code(self) -> ErrorCode {
        match self {
            Refused::UnrecognizedCriticalRecord => ErrorCode::UNRECOGNIZED_CRITICAL_RECORD,
            Refused::UnexpectedEof
            | Refused::InvalidData
            | Refused::Invalid
            | Refused::AeadNotSupported(_)
            | Refused::IncorrectSizedKey
            | Refused::NotAllowed => ErrorCode::BAD_REQUEST,
            _ => ErrorCode::INTERNAL_SERVER_ERROR,
        }
    }

    /// The refusal that the low sixteen bits of a word tell, with what is beside it: its number, and of 17 what was not
    /// offered, 1 for a protocol and 2 for an algorithm, eight bits higher.
    pub(crate) const fn told(low: u16, beside: u16) -> Self {
        match low {
            1 => Refused::UnexpectedEof,
            2 => Refused::InvalidData,
            3 => Refused::UnrecognizedCriticalRecord,
            4 => Refused::Invalid,
            5 => Refused::AeadNotSupported(AeadAlgorithm(beside)),
            6 => Refused::IncorrectSizedKey,
            7 => Refused::TableFull,
            8 => Refused::InvalidInput,
            9 => Refused::InvalidValue,
            10 => Refused::OutputTooShort,
            11 => Refused::Error(ErrorCode(beside)),
            12 => Refused::UnknownWarning(WarningCode(beside)),
            13 => Refused::NoOverlappingProtocol,
            14 => Refused::NoOverlappingAlgorithm,
            15 => Refused::NoCookie,
            16 => Refused::BufferFull,
            18 => Refused::NotAllowed,
            0x0111 => Refused::ProtocolNotOffered(NextProtocol(beside)),
            0x0211 => Refused::AeadNotOffered(AeadAlgorithm(beside)),
            low => Refused::Unknown { number: low & 0xFF, beside },
        }
    }
}

impl fmt::Display for Refused {
    fn fmt(&self, f: &mut fmt::Formatter<'_>) -> fmt::Result {
        f.write_str(self.words())?;
        if let Refused::Unknown { number, .. } = self {
            write!(f, ", number {number}")?;
        }
        let sort = match self {
            Refused::ProtocolNotOffered(_) => "protocol",
            Refused::AeadNotSupported(_) | Refused::AeadNotOffered(_) => "algorithm",
            _ => "code",
        };
        match self.beside() {
            Some(number) => write!(f, ", {sort} {number}"),
            None => Ok(()),
        }
    }
}

impl core::error::Error for Refused {}

/// A reader's refusal: why, and the place of the record concerned.
#[derive(Clone, Copy, Debug, PartialEq, Eq, Hash)]
pub struct Refusal {
    /// Why.
    pub why: Refused,
    /// The place of the record's first byte in the message. It is the end record where the refusal is decided after the
    /// end. Of 16 it is the place of the byte that has no room, and of 18 for a byte after the end record that byte's.
    pub place: usize,
}

impl Refusal {
    /// Takes the word apart that a call of the archive returns: bits 0 to 7 are the refusal's number, 8 to 15 what was
    /// not offered, of 17 alone (1 a protocol, 2 an algorithm), 16 to 31 the number beside it, and 32 to 63 the place.
    /// Nothing where the word is 0, which is what a call returns that is accepted. 65,535, which a call returns after
    /// which a read in pieces waits, is no refusal's word and is to be told apart before: here it is
    /// [`Refused::Unknown`].
    ///
    /// ```
    /// # use ntske::{AeadAlgorithm, ErrorCode, Refusal, Refused};
    /// let refusal = Refusal { why: Refused::Error(ErrorCode(2)), place: 6 };
    /// assert_eq!(Refusal::from_word(0x0000_0006_0002_000B), Some(refusal));
    /// let refusal = Refusal { why: Refused::AeadNotOffered(AeadAlgorithm(15)), place: 20 };
    /// assert_eq!(Refusal::from_word(0x0000_0014_000F_0211), Some(refusal));
    /// assert_eq!(Refusal::from_word(0), None);
    /// ```
    pub const fn from_word(word: u64) -> Option<Self> {
        if word == 0 {
            return None;
        }
        Some(Refusal { why: Refused::told(word as u16, (word >> 16) as u16), place: (word >> 32) as usize })
    }
}

impl fmt::Display for Refusal {
    fn fmt(&self, f: &mut fmt::Formatter<'_>) -> fmt::Result {
        write!(f, "refused {} at {}: {}", self.why.number(), self.place, self.why)
    }
}

impl core::error::Error for Refusal {}

/// What a reader answers by its word.
pub(crate) fn read(word: u64) -> Result<(), Refusal> {
    Refusal::from_word(word).map_or(Ok(()), Err)
}

/// What a call answers by its word that tells no place.
pub(crate) fn accepted(word: u64) -> Result<(), Refused> {
    read(word).map_err(|refusal| refusal.why)
}
