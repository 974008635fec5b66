//! What a case of the strict profile counts as: the outcomes of its answer, and of how it came to it.

use std::str;

use super::Case;
use super::feeding::{self, By, Fed, Feed};
use super::message::{self, Answer, Asked, Expected, Refusal, Why};
use super::record::{Breach, END, HEADER, MISSING, PORT, Record, SERVER};

/// The outcomes that a request can have, whole or in pieces.
pub const REQUESTS: [&str; 11] = [
    "key-exchange",
    "passes over kind 6",
    "passes over kind 7",
    "refused 1",
    "refused 2",
    "refused 4",
    "refused 18 at a record, otherwise 4",
    "refused 18 at a record, otherwise taken",
    "refused 18 at a record, otherwise accepted",
    "refused 18 after the end, otherwise 4",
    "refused 18 after the end, otherwise accepted",
];
/// Those of a reply.
pub const REPLIES: [&str; 32] = [
    "accepted",
    "accepted with server",
    "accepted with port",
    "accepted with server, port",
    "refused 1",
    "refused 2",
    "refused 4",
    "refused 7",
    "refused 11",
    "refused 12",
    "refused 13",
    "refused 14",
    "refused 15",
    "refused 17 for the protocol",
    "refused 17 for the algorithm",
    "refused 18 at a record, otherwise 4",
    "refused 18 at a record, otherwise 7",
    "refused 18 at a record, otherwise 11",
    "refused 18 at a record, otherwise 12",
    "refused 18 at a record, otherwise 13",
    "refused 18 at a record, otherwise 14",
    "refused 18 at a record, otherwise 15",
    "refused 18 at a record, otherwise 17",
    "refused 18 at a record, otherwise taken",
    "refused 18 at a record, otherwise accepted",
    "refused 18 after the end, otherwise 4",
    "refused 18 after the end, otherwise 7",
    "refused 18 after the end, otherwise 13",
    "refused 18 after the end, otherwise 14",
    "refused 18 after the end, otherwise 15",
    "refused 18 after the end, otherwise 17",
    "refused 18 after the end, otherwise accepted",
];
/// Those of either: the kinds that are unknown here, and what 18 is given for and what comes before it.
pub const EITHER: [&str; 42] = [
    "passes over kind 8",
    "passes over kind 9",
    "passes over an ill-formed kind 9",
    "passes over kind 10",
    "passes over an ill-formed kind 10",
    "passes over kind 11",
    "passes over kind 12",
    "passes over an ill-formed kind 12",
    "passes over kind 13",
    "passes over an ill-formed kind 13",
    "passes over kind 14",
    "passes over an ill-formed kind 14",
    "passes over a kind above 14",
    "refused 3 for kind 8",
    "refused 3 for kind 9",
    "refused 3 for an ill-formed kind 9",
    "refused 3 for kind 10",
    "refused 3 for an ill-formed kind 10",
    "refused 3 for kind 11",
    "refused 3 for kind 12",
    "refused 3 for an ill-formed kind 12",
    "refused 3 for kind 13",
    "refused 3 for an ill-formed kind 13",
    "refused 3 for kind 14",
    "refused 3 for an ill-formed kind 14",
    "refused 3 for a kind above 14",
    "refused 18 for a clear bit of kind 0",
    "refused 18 for a clear bit of kind 1",
    "refused 18 for a clear bit of kind 2",
    "refused 18 for a clear bit of kind 3",
    "refused 18 for an end record with a body",
    "refused 18 for an end record with a body and a clear bit",
    "refused 18 for a server name that is not ASCII",
    "refused 18 for a byte after the end",
    "refused 1 before 18 at kind 0",
    "refused 1 before 18 at kind 1",
    "refused 1 before 18 at kind 2",
    "refused 1 before 18 at kind 3",
    "refused 1 before 18 at kind 6",
    "refused 2 before 18 at kind 2",
    "refused 2 before 18 at kind 3",
    "refused 2 before 18 at kind 6",
];
/// Those that only a message in pieces can have.
pub const FED: [&str; 12] = [
    "answered by a record",
    "answered by the limit before the end",
    "answered by the limit at the end",
    "answered by the close before the end",
    "answered by the close after the end",
    "answered by a byte after the end in the same call",
    "answered by a byte after the end in a later call",
    "answered by a byte after the end with a full buffer",
    "refused 16",
    "waiting before the end",
    "waiting after the end",
    "waiting after the end with a full buffer",
];

/// The family of an op's outcomes.
pub fn family(op: u8) -> &'static str {
    match op {
        b's' => "strict request",
        b'S' => "strict reply",
        b't' => "strict fed request",
        _ => "strict fed reply",
    }
}

/// The outcomes that a case has; none where its payload does not fit.
pub fn counted(op: u8, payload: &[u8]) -> Option<Vec<String>> {
    let mut outcomes = Vec::new();
    match Case::of(op, payload)? {
        Case::Whole(asked, bytes) => count(&mut outcomes, &asked, bytes, &message::read(&asked, bytes)),
        Case::Fed(asked, feed) => {
            let fed = feeding::fed(&asked, &feed);
            outcomes.extend(came_to(&fed, &feed).into_iter().map(str::to_owned));
            if let Some((answer, by, _)) = &fed.answered
                && *by != By::FullBuffer
            {
                count(&mut outcomes, &asked, &feed.pieces.concat(), answer);
            }
        }
    }
    Some(outcomes)
}

/// What a read that was fed came to, and that it did so with a full buffer where the next byte needs none.
fn came_to(fed: &Fed, feed: &Feed) -> Vec<&'static str> {
    let (outcome, if_full) = match &fed.answered {
        None if fed.end.is_none() => ("waiting before the end", None),
        None => ("waiting after the end", Some("waiting after the end with a full buffer")),
        Some((_, By::ByteAfterEnd, call)) => {
            let outcome = if fed.end == Some(*call) {
                "answered by a byte after the end in the same call"
            } else {
                "answered by a byte after the end in a later call"
            };
            (outcome, Some("answered by a byte after the end with a full buffer"))
        }
        Some((_, By::Record, _)) => ("answered by a record", None),
        Some((_, By::FullBuffer, _)) => ("refused 16", None),
        Some((_, By::Limit, _)) => ("answered by the limit before the end", None),
        Some((_, By::Close, _)) => ("answered by the close before the end", None),
        Some((_, By::EndAtLimit, _)) => ("answered by the limit at the end", None),
        Some((_, By::EndAndClose, _)) => ("answered by the close after the end", None),
    };
    let full = if_full.filter(|_| fed.held == feed.buffer);
    [outcome].into_iter().chain(full).collect()
}

/// Adds the outcomes of an answer to these bytes.
fn count(outcomes: &mut Vec<String>, asked: &Asked, bytes: &[u8], answer: &Answer) {
    let message = &bytes[..bytes.len().min(asked.limit)];
    match answer {
        Answer::Request { .. } => {
            outcomes.push("key-exchange".to_owned());
            passed_over(outcomes, message, SERVER);
        }
        Answer::Reply { server, port, .. } => {
            let options = match (server, port) {
                (None, None) => "",
                (Some(_), None) => " with server",
                (None, Some(_)) => " with port",
                (Some(_), Some(_)) => " with server, port",
            };
            outcomes.push(format!("accepted{options}"));
            passed_over(outcomes, message, PORT + 1);
        }
        Answer::Refused(refusal) => refused(outcomes, asked, message, refusal),
    }
}

/// Adds the kinds that an accepted message has and that count for nothing, each once: those from that one on.
fn passed_over(outcomes: &mut Vec<String>, message: &[u8], least: u16) {
    let first = outcomes.len();
    let mut rest = message;
    while let Some(record) = Record::of(rest).filter(|record| record.kind != END) {
        if record.kind >= least {
            for name in named(&record) {
                let outcome = format!("passes over {name}");
                if !outcomes[first..].contains(&outcome) {
                    outcomes.push(outcome);
                }
            }
        }
        rest = &rest[record.length()..];
    }
}

/// An unknown record's kind, and that it is ill-formed where document 01 would say so.
fn named(record: &Record) -> Vec<String> {
    let kind = record.kind;
    let is_ill_formed = match kind {
        9 | 12 => record.size % 2 != 0,
        10 => record.size % 4 != 0,
        13 | 14 => str::from_utf8(record.body).is_err(),
        _ => false,
    };
    if kind > 14 {
        return vec!["a kind above 14".to_owned()];
    }
    let mut names = vec![format!("kind {kind}")];
    if is_ill_formed {
        names.push(format!("an ill-formed kind {kind}"));
    }
    names
}

/// Adds the outcomes of a refusal.
fn refused(outcomes: &mut Vec<String>, asked: &Asked, message: &[u8], refusal: &Refusal) {
    let Refusal { number, place, why, .. } = *refusal;
    let record = Record::of(message.get(place..).unwrap_or_default());
    match (why, record) {
        (Why::Unknown(_), Some(record)) => {
            outcomes.extend(named(&record).iter().map(|name| format!("refused {number} for {name}")));
        }
        (Why::Protocol, _) => outcomes.push(format!("refused {number} for the protocol")),
        (Why::Algorithm, _) => outcomes.push(format!("refused {number} for the algorithm")),
        (Why::ByteAfterEnd, _) => {
            outcomes.push(format!("refused {number} for a byte after the end"));
            let otherwise = otherwise(asked, &message[..place], place - HEADER);
            outcomes.push(format!("refused {number} after the end, otherwise {otherwise}"));
        }
        (Why::Record(breach), Some(record)) => {
            let breach = match breach {
                Breach::ClearBit(kind) => &format!("a clear bit of kind {kind}"),
                Breach::Body => "an end record with a body",
                Breach::BodyAndClearBit => "an end record with a body and a clear bit",
                Breach::NotAscii => "a server name that is not ASCII",
            };
            outcomes.push(format!("refused {number} for {breach}"));
            let mended = [&message[..place], &mended(&record)].concat();
            let otherwise = otherwise(asked, &mended, place);
            outcomes.push(format!("refused {number} at a record, otherwise {otherwise}"));
        }
        (_, record) => {
            outcomes.push(format!("refused {number}"));
            if let Some(record) = record.filter(|record| record.fault().is_some() && record.breach().is_some()) {
                outcomes.push(format!("refused {number} before 18 at kind {}", record.kind));
            }
        }
    }
}

/// A record as it would have to be.
fn mended(record: &Record) -> Vec<u8> {
    let kind = record.kind.to_be_bytes();
    let body: Vec<u8> = match record.kind {
        END => Vec::new(),
        SERVER => record.body.iter().map(|&byte| byte % 0x80).collect(),
        _ => record.body.to_vec(),
    };
    let size = (body.len() as u16).to_be_bytes();
    [&[kind[0] | 0x80, kind[1]], &size[..], &body].concat()
}

/// What a message would be answered that ends with the record at that place.
fn otherwise(asked: &Asked, message: &[u8], place: usize) -> String {
    let expected = match &asked.expected {
        Expected::Request => Expected::Request,
        Expected::Reply { protocols, algorithms } => {
            Expected::Reply { protocols: protocols.clone(), algorithms: algorithms.clone() }
        }
    };
    match message::read(&Asked { limit: message.len(), cells: asked.cells, expected }, message) {
        Answer::Refused(Refusal { number: MISSING, place: missing, .. }) if missing == message.len() => {
            "taken".to_owned()
        }
        Answer::Refused(refusal) => {
            assert!(refusal.place == place, "the record itself is refused, or what is decided after it");
            refusal.number.to_string()
        }
        _ => "accepted".to_owned(),
    }
}
