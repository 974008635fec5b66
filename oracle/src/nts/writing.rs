//! Writing one record with the crate's `NtsRecord::serialize`. Refusals 9 and 10 are document 01's: the crate writes
//! whatever it is given, into an output without end.

use std::io::{self, ErrorKind};

use super::lines;
use super::poll::now;
use super::record::NtsRecord;
use super::{AeadAlgorithm, AlgorithmDescription, NextProtocol};
use crate::generate::is_known;
use crate::payload::ROOM;

/// The largest number of a kind.
const LARGEST_KIND: u16 = 0x7fff;

pub const NO_VALUE: u8 = 9;
pub const TOO_LONG: u8 = 8;
pub const NO_ROOM: u8 = 10;

/// Op w: a record written into an output with room for any.
pub fn written(line: &mut Vec<u8>, payload: &[u8]) -> Option<()> {
    tell(line, serialized(record(payload)?), ROOM);
    Some(())
}

/// Op W: a record written into an output of a given size.
pub fn written_into(line: &mut Vec<u8>, payload: &[u8]) -> Option<()> {
    let (room, payload) = payload.split_first_chunk()?;
    let room = usize::try_from(u32::from_be_bytes(*room)).ok().filter(|&room| room <= ROOM)?;
    tell(line, serialized(record(payload)?), room);
    Some(())
}

/// Op X: a cookie that is a part of the bytes.
pub fn written_part(line: &mut Vec<u8>, payload: &[u8]) -> Option<()> {
    let (start, payload) = payload.split_first_chunk()?;
    let (length, bytes) = payload.split_first_chunk()?;
    let part = inside(bytes, u64::from_be_bytes(*start), u64::from_be_bytes(*length));
    let cookie = part.map(|part| NtsRecord::NewCookie { cookie_data: part.into() });
    tell(line, serialized(cookie.ok_or(NO_VALUE)), ROOM);
    Some(())
}

/// Op z: a record's exact length.
pub fn measured(line: &mut Vec<u8>, payload: &[u8]) -> Option<()> {
    match serialized(record(payload)?) {
        Ok(bytes) => {
            lines::text(line, "length ");
            lines::number(line, bytes.len() as u64);
        }
        Err(refusal) => lines::refused(line, refusal),
    }
    Some(())
}

/// The part of the bytes, if it is inside them.
fn inside(bytes: &[u8], start: u64, length: u64) -> Option<&[u8]> {
    let end = usize::try_from(start.checked_add(length)?).ok()?;
    bytes.get(usize::try_from(start).ok()?..end)
}

/// What was written, or the refusal: 10 where the output has less room.
pub fn tell(line: &mut Vec<u8>, answer: Result<Vec<u8>, u8>, room: usize) {
    match answer {
        Ok(bytes) if bytes.len() > room => lines::refused(line, NO_ROOM),
        Ok(bytes) => {
            lines::text(line, "wrote ");
            lines::bytes(line, &bytes);
        }
        Err(refusal) => lines::refused(line, refusal),
    }
}

/// The crate's bytes for a record.
fn serialized(record: Result<NtsRecord, u8>) -> Result<Vec<u8>, u8> {
    let record = record?;
    by_the_crate(async |out| record.serialize(out).await)
}

/// The bytes of one of the crate's writers; 8 where it finds a body too long.
pub fn by_the_crate(write: impl AsyncFnOnce(&mut Vec<u8>) -> io::Result<()>) -> Result<Vec<u8>, u8> {
    let mut bytes = Vec::new();
    match now(write(&mut bytes)) {
        Ok(()) => Ok(bytes),
        Err(error) if error.kind() == ErrorKind::InvalidInput => Err(TOO_LONG),
        Err(error) => panic!("the crate's writer gave {error:?}"),
    }
}

/// The record that a payload describes, 9 where document 01 gives it, none where the payload is no good.
fn record(payload: &[u8]) -> Option<Result<NtsRecord<'_>, u8>> {
    let (&kind, rest) = payload.split_first()?;
    let record = match kind {
        0 if rest.is_empty() => Some(NtsRecord::EndOfMessage),
        1 => numbers(rest).map(|protocol_ids| NtsRecord::NextProtocol { protocol_ids: protocol_ids.into() }),
        2 => Some(NtsRecord::Error { errorcode: number(rest)?.into() }),
        3 => Some(NtsRecord::Warning { warningcode: number(rest)?.into() }),
        4 => numbers(rest).map(|algorithm_ids| NtsRecord::AeadAlgorithm { algorithm_ids: algorithm_ids.into() }),
        5 => Some(NtsRecord::NewCookie { cookie_data: rest.into() }),
        6 => name(rest).map(|name| NtsRecord::Server { name: name.into() }),
        7 => Some(NtsRecord::Port { port: number(rest)? }),
        8 if rest.is_empty() => Some(NtsRecord::KeepAlive),
        9 => numbers(rest)
            .map(|list: Vec<NextProtocol>| NtsRecord::SupportedNextProtocolList { supported_protocols: list.into() }),
        10 => pairs(rest).map(|list| NtsRecord::SupportedAlgorithmList { supported_algorithms: list.into() }),
        11 => unknown(rest)?,
        12 => keys(rest)?,
        13 => name(rest).map(|name| NtsRecord::NtpServerDeny { denied: name.into() }),
        14 => name(rest).map(|name| NtsRecord::Authentication { key: name.into() }),
        _ => return None,
    };
    Some(record.ok_or(NO_VALUE))
}

/// One number, if that is what the bytes are.
fn number(bytes: &[u8]) -> Option<u16> {
    Some(u16::from_be_bytes(bytes.try_into().ok()?))
}

/// Two-byte numbers; none for an odd length.
pub fn numbers<T: From<u16>>(bytes: &[u8]) -> Option<Vec<T>> {
    let (numbers, rest) = bytes.as_chunks();
    rest.is_empty().then(|| numbers.iter().map(|&number| u16::from_be_bytes(number).into()).collect())
}

/// Pairs of an algorithm and its key size; none for an odd number of cells or an odd length.
pub fn pairs(bytes: &[u8]) -> Option<Vec<AlgorithmDescription>> {
    let (pairs, rest) = bytes.as_chunks();
    let pair = |&[a, b, c, d]: &[u8; 4]| AlgorithmDescription {
        id: AeadAlgorithm::from(u16::from_be_bytes([a, b])),
        keysize: u16::from_be_bytes([c, d]),
    };
    rest.is_empty().then(|| pairs.iter().map(pair).collect())
}

pub fn name(bytes: &[u8]) -> Option<&str> {
    std::str::from_utf8(bytes).ok()
}

/// An unknown record, or within it none where its number is a known one's or too large.
fn unknown(bytes: &[u8]) -> Option<Option<NtsRecord<'_>>> {
    let (&[high, low, bit], data) = bytes.split_first_chunk()?;
    let record_type = u16::from_be_bytes([high, low]);
    let critical = match bit {
        0 => false,
        1 => true,
        _ => return None,
    };
    let allowed = !is_known(record_type) && record_type <= LARGEST_KIND;
    Some(allowed.then(|| NtsRecord::Unknown { record_type, critical, data: data.into() }))
}

/// A key record, or within it none where its halves are unequal.
fn keys(bytes: &[u8]) -> Option<Option<NtsRecord<'_>>> {
    let (first, bytes) = bytes.split_first_chunk()?;
    let first = usize::try_from(u32::from_be_bytes(*first)).ok()?;
    let (c2s, s2c) = bytes.split_at_checked(first)?;
    let allowed = c2s.len() == s2c.len();
    Some(allowed.then(|| NtsRecord::FixedKeyRequest { c2s: c2s.into(), s2c: s2c.into() }))
}
