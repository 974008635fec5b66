//! Reads fed in pieces: ops f and F.

use std::io::{self, Write};

use super::hex;
use super::named::message;
use super::reading::M;
use super::replies::{ANSWERS, OFFER, OFFERS, asked};
use super::{replies, requests};
use crate::corpus::put;
use crate::generate::payloads::Feed;

/// What most cases are fed under.
const PLAIN: Feed = Feed { limit: 65_535, cells: 8, buffer: 64, close: false };
const CLOSED: Feed = Feed { close: true, ..PLAIN };

pub fn pieces(out: &mut impl Write) -> io::Result<()> {
    for op in [b'f', b'F'] {
        waits_and_ends(op, out)?;
        not_whole(op, out)?;
        cut_names(op, out)?;
        bad_cases(op, out)?;
    }
    rooms(out)?;
    of_the_set(b'f', &requests::MESSAGES, out)?;
    of_the_set(b'F', &replies::MESSAGES, out)?;
    offers(out)
}

/// The payload of either op, for a reply with lists in front that hold what it names.
fn payload<'a>(op: u8, feed: Feed, pieces: impl IntoIterator<Item = &'a [u8]>) -> Vec<u8> {
    let payload = feed.payload(pieces);
    if op == b'f' { payload } else { asked(OFFER, &payload) }
}

/// Feeds pieces that blanks part; `-` is an empty one.
fn fed(op: u8, feed: Feed, pieces: &str, out: &mut impl Write) -> io::Result<()> {
    let pieces: Vec<Vec<u8>> = pieces.split_whitespace().map(|piece| hex(&piece.replace('-', ""))).collect();
    put(out, op, &payload(op, feed, pieces.iter().map(Vec::as_slice)))
}

/// An accepted message in one piece, byte by byte, at every place, with empty pieces, with bytes after its end, with every
/// buffer, under every limit, cut and closed.
fn waits_and_ends(op: u8, out: &mut impl Write) -> io::Result<()> {
    let whole = if op == b'f' { hex(M) } else { message("protocol algorithm cookie-empty end") };
    let length = whole.len();
    let tail = [&whole[..], &hex("80 00 00 00 FF")].concat();
    let mut case = |feed: Feed, pieces: Vec<&[u8]>| put(out, op, &payload(op, feed, pieces));
    for feed in [PLAIN, CLOSED] {
        case(feed, vec![])?;
        case(feed, vec![&[]])?;
        case(feed, vec![&whole])?;
        case(feed, vec![&tail])?;
        case(feed, whole.chunks(1).collect())?;
        case(feed, tail.chunks(1).collect())?;
        case(feed, vec![&[], &whole[..5], &[], &[], &whole[5..length - 1], &[], &whole[length - 1..], &[]])?;
    }
    for place in 0..=length {
        let (before, behind) = tail.split_at(place);
        case(PLAIN, vec![before, behind])?;
        case(CLOSED, vec![before])?;
        case(Feed { buffer: place, ..PLAIN }, vec![&tail])?;
        case(Feed { buffer: place, ..CLOSED }, whole[..place].chunks(3).collect())?;
        case(Feed { limit: place, ..PLAIN }, tail.chunks(1).collect())?;
        case(Feed { limit: place, buffer: place, ..PLAIN }, tail.chunks(4).collect())?;
        case(Feed { limit: place, buffer: place.saturating_sub(1), ..CLOSED }, tail.chunks(5).collect())?;
    }
    for buffer in [length - 1, length, 66_000] {
        case(Feed { buffer, ..PLAIN }, whole.chunks(7).collect())?;
        case(Feed { limit: 0, buffer, ..PLAIN }, vec![&[], &whole])?;
    }
    Ok(())
}

/// Records that a header or a part of the body would tell: nothing is told before they stand whole, or are cut.
fn not_whole(op: u8, out: &mut impl Write) -> io::Result<()> {
    for pieces in [
        "80",
        "80 0B0004 414243 44 45",
        "800B0004",
        "80070003007B",
        "80070003007B 00",
        "80070003007B - 0000",
        "80020003 0000 00",
        "8003000200 00",
        "800C0001 41 42",
        "800C0003 4142 43",
        "800C0003 4142",
        "80010003 0000 00 80000000",
        "80010003 0000",
        "800A0002 00 0F",
        "000500034142 43 80000000",
        "80010002 0000 80010002 00 00",
        "8001 0002 0000 8001 0002 00",
        "800D0002 C3 A9 80000000",
        "00090000 00090000 00",
        "800E0000 80 0E 00 00",
    ] {
        for feed in [PLAIN, CLOSED] {
            fed(op, feed, pieces, out)?;
        }
        for limit in [4, 5, 6, 7] {
            fed(op, Feed { limit, buffer: 7, ..PLAIN }, pieces, out)?;
        }
        fed(op, Feed { buffer: 6, ..CLOSED }, pieces, out)?;
    }
    Ok(())
}

/// A name with characters of two, three and four bytes, whole, ill-formed and cut, in pieces that part them.
fn cut_names(op: u8, out: &mut impl Write) -> io::Result<()> {
    for pieces in [
        "80060002C3",
        "80060002C3 A9 80000000",
        "80060002C3 28 80000000",
        "80060002C328",
        "80060009 E2 82 AC F0 9F 98 80 C3 A9 80000000",
        "80060009 E282 ACF0 9F9880C3 A9 80000000",
        "80060009 E282ACF09F9880C3 41 80000000",
        "80060009 E282ACF09F 98",
        "80060009 E282AC",
        "80060005 41 FF",
    ] {
        for feed in [PLAIN, CLOSED] {
            fed(op, feed, pieces, out)?;
        }
        for limit in [5, 7, 10, 13] {
            fed(op, Feed { limit, buffer: limit, ..CLOSED }, pieces, out)?;
        }
    }
    Ok(())
}

/// Tables that hold the names or cookies and that do not; further pieces and the close find the same answer.
fn rooms(out: &mut impl Write) -> io::Result<()> {
    let cases =
        [(b'f', "protocol algorithm name name-empty end"), (b'F', "protocol cookie algorithm cookie-empty end")];
    for (op, names) in cases {
        let message = message(names);
        for cells in [0, 1, 2, 3, 4, 5, 2048] {
            for close in [false, true] {
                let feed = Feed { cells, close, ..PLAIN };
                put(out, op, &payload(op, feed, message.chunks(6).chain([&[][..], &[0x80]])))?;
            }
        }
    }
    Ok(())
}

/// Messages that are accepted or refused by the set of their records, in pieces of one to six bytes.
fn of_the_set(op: u8, messages: &[&str], out: &mut impl Write) -> io::Result<()> {
    for (turn, names) in messages.iter().enumerate() {
        let message = message(names);
        let limit = if turn % 3 == 0 { 65_535 } else { 4096 };
        let feed = Feed { limit, cells: 32, buffer: message.len() + turn % 2, close: turn % 4 < 2 };
        put(out, op, &payload(op, feed, message.chunks(1 + turn % 6)))?;
    }
    Ok(())
}

/// Lists that hold what a reply names and that do not; further pieces and the close find the same answer.
fn offers(out: &mut impl Write) -> io::Result<()> {
    for (turn, offer) in OFFERS.into_iter().enumerate() {
        for names in &ANSWERS[..3] {
            let message = message(names);
            let feed = Feed { buffer: message.len(), close: turn % 2 == 0, ..PLAIN };
            put(out, b'F', &asked(offer, &feed.payload(message.chunks(1 + turn % 7).chain([&[][..], &[0x80]]))))?;
        }
        let reply = message(ANSWERS[0]);
        for (limit, cells, buffer) in [(22, 2, 22), (21, 2, 22), (22, 2, 21), (65_535, 1, 64)] {
            let feed = Feed { limit, cells, buffer, close: false };
            put(out, b'F', &asked(offer, &feed.payload(reply.chunks(5))))?;
        }
    }
    Ok(())
}

/// Payloads that do not fit, and the largest values that do.
fn bad_cases(op: u8, out: &mut impl Write) -> io::Result<()> {
    let good = payload(op, CLOSED, [&hex("8000")[..], &[], &hex("0000")]);
    let lists = good.len() - CLOSED.payload([&hex("8000")[..], &[], &hex("0000")]).len();
    for length in 0..good.len() {
        put(out, op, &good[..length])?;
    }
    put(out, op, &[&good[..], &[0]].concat())?;
    for (limit, cells, buffer) in [
        (65_535, 2048, 66_000),
        (65_536, 2048, 66_000),
        (65_535, 2049, 66_000),
        (65_535, 2048, 66_001),
        (0xffff_ffff, 0, 0),
        (0, 65_535, 0),
        (0, 0, 0xffff_ffff),
    ] {
        fed(op, Feed { limit, cells, buffer, close: true }, "8000 0000", out)?;
    }
    for close in [2, 255] {
        let mut payload = good.clone();
        payload[lists + 10] = close;
        put(out, op, &payload)?;
    }
    Ok(())
}
