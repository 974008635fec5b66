//! Reading one record with the crate's `NtsRecord::parse`, and the bit that it came with.

use std::io::ErrorKind;

use super::lines;
use super::poll::now;
use super::record::NtsRecord;

/// Document 01's number for an error of the crate's record reader.
pub fn refusal(kind: ErrorKind) -> u8 {
    match kind {
        ErrorKind::UnexpectedEof => 1,
        ErrorKind::InvalidData => 2,
        other => panic!("the crate's record reader gave {other:?}"),
    }
}

/// The record at the start of the bytes and how many of them the crate took for it, or the refusal.
pub fn record(bytes: &[u8]) -> Result<(NtsRecord<'static>, usize), u8> {
    let mut rest = bytes;
    match now(NtsRecord::parse(&mut rest)) {
        Ok(record) => Ok((record, bytes.len() - rest.len())),
        Err(error) => Err(refusal(error.kind())),
    }
}

/// Whether the top bit of a byte is set.
fn top_bit(byte: u8) -> bool {
    byte >> 7 == 1
}

/// The critical bit of a record that the crate reads: the top bit of its header's first byte. The crate's reader hands out
/// that of an unknown record alone, and it must be this one.
fn critical(bytes: &[u8], record: &NtsRecord) -> bool {
    let bit = top_bit(bytes[0]);
    if let NtsRecord::Unknown { critical, .. } = record {
        assert_eq!(bit, *critical, "the header's bit is the crate's");
    }
    bit
}

/// The top bits that could be taken for that of a record that is read, with where they stand: its size's and, behind place
/// 0, that of the message's first byte.
pub fn other_bits(op: u8, payload: &[u8]) -> Vec<(&'static str, bool)> {
    let (place, bytes) = if op == b'r' { (0, payload) } else { placed(payload).expect("a place before the message") };
    let mut bits = vec![("in the size", top_bit(from(place, bytes)[2]))];
    if place > 0 {
        bits.push(("at the front of the message", top_bit(bytes[0])));
    }
    bits
}

/// A place, and the message behind it.
fn placed(payload: &[u8]) -> Option<(u64, &[u8])> {
    let (place, bytes) = payload.split_first_chunk()?;
    Some((u64::from_be_bytes(*place), bytes))
}

/// What stands from a place on; past the bytes that is nothing.
fn from(place: u64, bytes: &[u8]) -> &[u8] {
    usize::try_from(place).ok().and_then(|place| bytes.get(place..)).unwrap_or_default()
}

/// Op r: the record at place 0.
pub fn at_start(line: &mut Vec<u8>, bytes: &[u8]) {
    match record(bytes) {
        Ok((found, taken)) => read(line, taken as u64, critical(bytes, &found), &found),
        Err(number) => lines::refused(line, number),
    }
}

/// Op R: the record at a place. The crate knows no places: it reads what stands from the place on.
pub fn at_place(line: &mut Vec<u8>, payload: &[u8]) -> Option<()> {
    let (place, bytes) = placed(payload)?;
    let rest = from(place, bytes);
    match record(rest) {
        Ok((found, taken)) => read(line, place + taken as u64, critical(rest, &found), &found),
        Err(number) => lines::refused_at(line, number, place),
    }
    Some(())
}

fn read(line: &mut Vec<u8>, next: u64, critical: bool, record: &NtsRecord) {
    lines::text(line, "ok next ");
    lines::number(line, next);
    line.push(b' ');
    bit(line, critical);
    told(line, record);
}

fn bit(line: &mut Vec<u8>, critical: bool) {
    lines::text(line, if critical { "c " } else { "- " });
}

/// The kind and the value of a record.
fn told(line: &mut Vec<u8>, record: &NtsRecord) {
    let kind = |line: &mut Vec<u8>, kind: u16| {
        lines::number(line, kind);
        line.push(b' ');
    };
    match record {
        NtsRecord::EndOfMessage => line.push(b'0'),
        NtsRecord::NextProtocol { protocol_ids } => {
            kind(line, 1);
            lines::numbers(line, protocol_ids.iter().map(|&id| id.into()));
        }
        &NtsRecord::Error { errorcode } => {
            kind(line, 2);
            lines::number(line, u16::from(errorcode));
        }
        &NtsRecord::Warning { warningcode } => {
            kind(line, 3);
            lines::number(line, u16::from(warningcode));
        }
        NtsRecord::AeadAlgorithm { algorithm_ids } => {
            kind(line, 4);
            lines::numbers(line, algorithm_ids.iter().map(|&id| id.into()));
        }
        NtsRecord::NewCookie { cookie_data } => {
            kind(line, 5);
            lines::bytes(line, cookie_data);
        }
        NtsRecord::Server { name } => {
            kind(line, 6);
            lines::bytes(line, name.as_bytes());
        }
        NtsRecord::Port { port } => {
            kind(line, 7);
            lines::number(line, *port);
        }
        NtsRecord::KeepAlive => line.push(b'8'),
        NtsRecord::SupportedNextProtocolList { supported_protocols } => {
            kind(line, 9);
            lines::numbers(line, supported_protocols.iter().map(|&id| id.into()));
        }
        NtsRecord::SupportedAlgorithmList { supported_algorithms } => {
            kind(line, 10);
            lines::numbers(line, supported_algorithms.iter().flat_map(|pair| [pair.id.into(), pair.keysize]));
        }
        NtsRecord::FixedKeyRequest { c2s, s2c } => {
            kind(line, 12);
            lines::bytes(line, c2s);
            lines::bytes(line, s2c);
        }
        NtsRecord::NtpServerDeny { denied } => {
            kind(line, 13);
            lines::bytes(line, denied.as_bytes());
        }
        NtsRecord::Authentication { key } => {
            kind(line, 14);
            lines::bytes(line, key.as_bytes());
        }
        NtsRecord::Unknown { record_type, critical, data } => {
            lines::text(line, "unknown ");
            kind(line, *record_type);
            bit(line, *critical);
            lines::bytes(line, data);
        }
    }
}
