//! The strict profile: ops s, S, t and T.

use std::io::{self, Write};

use super::hex;
use super::named::message;
use super::reading::M;
use super::replies::{ANSWERS, OFFER, OFFERS, asked};
use super::{replies, requests};
use crate::corpus::put;
use crate::generate::payloads::{Feed, offered, under};

/// What most cases are fed under.
const PLAIN: Feed = Feed { limit: 65_535, cells: 8, buffer: 64, close: false };
const CLOSED: Feed = Feed { close: true, ..PLAIN };
/// The least reply.
const REPLY: &str = "protocol algorithm cookie end";

/// Messages of either family on both sides of each rule; `M` is an accepted one.
const MESSAGES: [&str; 68] = [
    "M",
    "protocol-clear algorithm cookie end",
    "protocol algorithm-clear end",
    "protocol algorithm-clear cookie end",
    // After the end.
    "M end",
    "M critical",
    "M end-clear",
    "end end",
    "protocol end end",
    "no-protocol no-algorithm end end",
    // The end record.
    "protocol algorithm end-long",
    "protocol algorithm end-clear",
    "protocol algorithm end-with-body",
    "protocol algorithm cookie end-long",
    "protocol algorithm cookie end-clear",
    "protocol algorithm cookie end-with-body end",
    "end-clear",
    "end-long",
    "end-cut",
    "protocol end-clear",
    // Server names.
    "server M",
    "server-empty M",
    "server-delete M",
    "server-accent M",
    "server-accent-clear M",
    "server-broken M",
    "server-accent-cut",
    "server server M",
    "server server-accent M",
    "server server-broken M",
    // Kinds that need their bit.
    "protocols-clear algorithm end",
    "no-protocol-clear algorithm cookie end",
    "protocol protocol-clear algorithm end",
    "protocol no-protocol-clear algorithm end",
    "protocol protocols-clear",
    "protocol-odd-clear M",
    "error-clear M",
    "error-clear",
    "error-long-clear M",
    "warning-clear M",
    "warning-short-clear",
    "protocol algorithm cookie error-clear end",
    "critical protocol-clear",
    "protocol-clear critical",
    "error protocol-clear",
    // Kinds that the profile does not know, and those that none does.
    "keep-alive M",
    "keep-alive-with-body M",
    "keep-alive-cut",
    "want-protocols M",
    "want-protocols-some want-protocols-odd M",
    "want-algorithms M",
    "want-algorithms-odd M",
    "want-algorithms-odd-clear want-algorithms-odd-clear M",
    "keys-32 M",
    "keys-odd M",
    "keys-odd-clear keys-odd-clear M",
    "keys-cut",
    "name name name M",
    "name-empty M",
    "name-broken M",
    "name-broken-critical M",
    "name-cut",
    "authentication authentication M",
    "authentication-broken M",
    "authentication-critical M",
    "unknown unknown-with-body M",
    "critical M",
    "critical-largest M",
];

pub fn strict(out: &mut impl Write) -> io::Result<()> {
    for op in [b's', b'S'] {
        sets(op, out)?;
        limits(op, out)?;
        bad_cases(op, out)?;
    }
    rooms(out)?;
    offers(out)?;
    for op in [b't', b'T'] {
        fed_sets(op, out)?;
        waits_and_ends(op, out)?;
        not_whole(op, out)?;
        fed_bad_cases(op, out)?;
    }
    Ok(())
}

/// Whether the op's messages are replies.
fn is_reply(op: u8) -> bool {
    op == b'S' || op == b'T'
}

/// An accepted message.
fn accepted(op: u8) -> Vec<u8> {
    if is_reply(op) { message(REPLY) } else { hex(M) }
}

/// A message by the names of its records, `M` being an accepted one.
fn named(op: u8, names: &str) -> Vec<u8> {
    let words = names.split_whitespace();
    words.flat_map(|word| if word == "M" { accepted(op) } else { message(word) }).collect()
}

/// A case of ops s and S, for a reply with lists that hold what it names.
fn whole(op: u8, limit: usize, cells: usize, message: &[u8], out: &mut impl Write) -> io::Result<()> {
    let message = if is_reply(op) { asked(OFFER, message) } else { message.to_vec() };
    put(out, op, &under(limit, cells, &message))
}

/// The payload of ops t and T.
fn payload<'a>(op: u8, feed: Feed, pieces: impl IntoIterator<Item = &'a [u8]>) -> Vec<u8> {
    let payload = feed.payload(pieces);
    if is_reply(op) { asked(OFFER, &payload) } else { payload }
}

/// Messages of order 5, and those by which the other profile is tried.
fn sets(op: u8, out: &mut impl Write) -> io::Result<()> {
    for names in MESSAGES {
        whole(op, 65_535, 8, &named(op, names), out)?;
    }
    let messages = if is_reply(op) { &replies::MESSAGES[..] } else { &requests::MESSAGES };
    for names in messages {
        whole(op, 65_535, 32, &message(names), out)?;
    }
    Ok(())
}

/// Limits around each record's end, with bytes after the message's.
fn limits(op: u8, out: &mut impl Write) -> io::Result<()> {
    let tail = [&accepted(op)[..], &hex("00 80")].concat();
    for limit in (0..=tail.len() + 1).chain([4096, 65_535]) {
        whole(op, limit, 8, &tail, out)?;
    }
    for names in ["end end", "protocol end end", "server-accent end"] {
        let message = message(names);
        for limit in 0..=message.len() {
            whole(op, limit, 8, &message, out)?;
        }
    }
    Ok(())
}

/// Tables of every size with denied names, which fill none, and with cookies.
fn rooms(out: &mut impl Write) -> io::Result<()> {
    for cells in [0, 1, 2, 3, 4, 5, 2048, 2049] {
        whole(b's', 65_535, cells, &message("name protocol name algorithm end"), out)?;
        whole(b'S', 65_535, cells, &message("protocol cookie algorithm cookie-empty end"), out)?;
        whole(b'S', 65_535, cells, &message("protocol cookie algorithm cookie-empty end unknown"), out)?;
    }
    Ok(())
}

/// Lists that hold what a reply names and that do not, with nothing after the end and with a byte, in one piece and in more.
fn offers(out: &mut impl Write) -> io::Result<()> {
    for (turn, offer) in OFFERS.into_iter().enumerate().step_by(2) {
        for names in [ANSWERS[0], ANSWERS[2], ANSWERS[9], ANSWERS[10], ANSWERS[11]] {
            let message = message(names);
            let tail = [&message[..], &[0]].concat();
            let cells = turn % 3;
            put(out, b'S', &under(65_535, cells, &asked(offer, &message)))?;
            put(out, b'S', &under(65_535, 2, &asked(offer, &tail)))?;
            let feed = Feed { cells, buffer: message.len(), close: turn % 4 == 0, ..PLAIN };
            let whole = if turn % 3 == 0 { &tail } else { &message };
            put(out, b'T', &asked(offer, &feed.payload(whole.chunks(1 + turn % 7).chain([&[][..]]))))?;
            let feed = Feed { limit: message.len(), ..feed };
            put(out, b'T', &asked(offer, &feed.payload(tail.chunks(1 + turn % 5))))?;
        }
    }
    Ok(())
}

/// The messages of order 5 in pieces of one to six bytes, closed and not, with buffers that they fill.
fn fed_sets(op: u8, out: &mut impl Write) -> io::Result<()> {
    for (turn, names) in MESSAGES.iter().enumerate() {
        let message = named(op, names);
        let feed = Feed { buffer: message.len() + turn % 2, close: turn % 4 < 2, ..PLAIN };
        put(out, op, &payload(op, feed, message.chunks(1 + turn % 6)))?;
    }
    Ok(())
}

/// An accepted message: behind its end it waits for the close or a byte, and does not where the limit is there; at every place,
/// with every buffer, under every limit.
fn waits_and_ends(op: u8, out: &mut impl Write) -> io::Result<()> {
    let whole = accepted(op);
    let length = whole.len();
    let tail = [&whole[..], &hex("80 00 00 00 FF")].concat();
    let mut case = |feed: Feed, pieces: Vec<&[u8]>| put(out, op, &payload(op, feed, pieces));
    for feed in [PLAIN, CLOSED] {
        case(feed, vec![])?;
        case(feed, vec![&[]])?;
        case(feed, vec![&whole])?;
        case(feed, vec![&whole, &[], &[]])?;
        case(feed, vec![&whole, &[], &tail[length..]])?;
        case(feed, vec![&tail])?;
        case(feed, whole.chunks(1).collect())?;
        case(feed, tail.chunks(1).collect())?;
    }
    for place in 0..=length {
        let (before, behind) = tail.split_at(place);
        case(PLAIN, vec![before, behind])?;
        case(CLOSED, vec![before])?;
        case(Feed { buffer: place, ..PLAIN }, vec![&tail])?;
        case(Feed { buffer: place, ..CLOSED }, whole[..place].chunks(3).collect())?;
        case(Feed { limit: place, ..PLAIN }, tail.chunks(4).collect())?;
    }
    for (buffer, limit) in (length - 1..=length + 1).flat_map(|buffer| (0..3).map(move |more| (buffer, length + more)))
    {
        for close in [false, true] {
            case(Feed { limit, buffer, close, ..PLAIN }, vec![&whole])?;
            case(Feed { limit, buffer, close, ..PLAIN }, vec![&whole, &[0]])?;
        }
    }
    Ok(())
}

/// Records that are refused with 18 when they stand whole, and not before; cut by the limit and by the close.
fn not_whole(op: u8, out: &mut impl Write) -> io::Result<()> {
    for names in [
        "end-long",
        "end-with-body",
        "protocol-clear",
        "error-long-clear",
        "warning-clear",
        "server-accent-clear",
        "name-broken-critical",
    ] {
        let record = message(names);
        for length in 4..=record.len() {
            for feed in [PLAIN, CLOSED, Feed { limit: length, ..PLAIN }, Feed { buffer: length, ..PLAIN }] {
                let there = if feed.close { &record[..length] } else { &record[..record.len().min(length + 1)] };
                put(out, op, &payload(op, feed, there.chunks(2)))?;
            }
        }
    }
    Ok(())
}

/// Payloads that do not fit ops s and S.
fn bad_cases(op: u8, out: &mut impl Write) -> io::Result<()> {
    let lists = if is_reply(op) { offered(OFFER) } else { Vec::new() };
    let good = under(65_535, 8, &lists);
    for length in 0..=good.len() {
        put(out, op, &good[..length])?;
    }
    let message = accepted(op);
    for (limit, cells) in [(65_535, 2048), (65_536, 2048), (65_535, 2049), (0xffff_ffff, 0), (0, 65_535)] {
        whole(op, limit, cells, &message, out)?;
    }
    Ok(())
}

/// Payloads that do not fit ops t and T.
fn fed_bad_cases(op: u8, out: &mut impl Write) -> io::Result<()> {
    let pieces = [&[0x80, 0][..], &[], &[0, 0]];
    let good = payload(op, CLOSED, pieces);
    for length in 0..=good.len() {
        put(out, op, &good[..length])?;
    }
    put(out, op, &[&good[..], &[0]].concat())?;
    for (limit, cells, buffer) in
        [(65_535, 2048, 66_000), (65_536, 2048, 66_000), (65_535, 2049, 66_000), (65_535, 2048, 66_001)]
    {
        put(out, op, &payload(op, Feed { limit, cells, buffer, close: true }, pieces))?;
    }
    Ok(())
}
