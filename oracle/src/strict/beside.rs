//! The crate beside the model, as far as it goes. The kinds that the profile does not know are given numbers that the crate
//! does not know either; then the crate reads the message as for ops L and l. Where the model gives another answer than 18 the
//! crate must give the same. Where it gives 18 the crate must have found nothing wrong before.

use super::message::{Answer, Asked, Expected, Refusal, Why};
use super::record::{END, HEADER, Record};
use super::tell;
use crate::generate::limited;
use crate::generate::payloads::offered;
use crate::nts::answer;
use crate::nts::lines::agreed;

/// The kinds of document 01 that the profile does not know, and the bit that makes others of them.
const LEFT_OUT: std::ops::RangeInclusive<u16> = 8..=14;
const RENUMBERED: u8 = 0x40;

/// Tells both lines where the crate's is not that of the model's answer, which stands in `line`.
pub fn judged(line: &mut Vec<u8>, asked: &Asked, bytes: &[u8], answer: &Answer) {
    let message = renumbered(&bytes[..bytes.len().min(asked.limit)]);
    let crates = |limit: usize| crates(asked, &message[..limit]);
    let missing_at = |place: usize| format!("refused 1 at {place}").into_bytes();
    let (others, expected) = match answer {
        Answer::Refused(Refusal { why: Why::ByteAfterEnd, place, .. }) => {
            // The end record without its last byte: all before it passes.
            (crates(place - 1), missing_at(place - HEADER))
        }
        Answer::Refused(Refusal { why: Why::Record(_), place, .. }) => {
            // Nothing of the record: all before it passes. The record itself reads.
            let record = Record::of(&message[*place..]).expect("a record");
            let itself = crates(place + record.length());
            let does_not_read = [1, 2].iter().any(|fault| itself == format!("refused {fault} at {place}").into_bytes());
            (if does_not_read { itself } else { crates(*place) }, missing_at(*place))
        }
        _ => {
            let mut expected = Vec::new();
            tell(&mut expected, answer);
            (crates(message.len()), expected)
        }
    };
    if others != expected {
        agreed(line, "the model", ("the crate", &others));
    }
}

/// A message in which the kinds left out have other numbers, up to its end record.
fn renumbered(message: &[u8]) -> Vec<u8> {
    let mut message = message.to_vec();
    let mut place = 0;
    while let Some(record) = Record::of(&message[place..]).filter(|record| record.is_whole() && record.kind != END) {
        let length = record.length();
        if LEFT_OUT.contains(&record.kind) {
            message[place] |= RENUMBERED;
        }
        place += length;
    }
    // A record of which the body is cut.
    if let Some(record) = Record::of(&message[place..])
        && LEFT_OUT.contains(&record.kind)
    {
        message[place] |= RENUMBERED;
    }
    message
}

/// The crate's line.
fn crates(asked: &Asked, message: &[u8]) -> Vec<u8> {
    let (op, message) = match &asked.expected {
        Expected::Request => (b'L', message.to_vec()),
        Expected::Reply { protocols, algorithms } => (b'l', [&offered([protocols, algorithms])[..], message].concat()),
    };
    let mut line = Vec::new();
    answer::answered(&mut line, op, &limited(u16::MAX.into(), asked.cells, &message)).expect("a case");
    line
}
