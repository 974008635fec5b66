//! Reading a reply: ops y and l.

use std::io::{self, Write};

use super::hex;
use super::named::{cut_names, message};
use super::reading::M;
use crate::corpus::put;
use crate::generate::limited;
use crate::generate::payloads::offered;

/// What was offered to most of them; it holds each number that they name.
pub const OFFER: [&[u16]; 2] = [&[0], &[15, 17, 16]];
/// Lists that hold 0 and 15 alone, first, last, between others and twice; lists that lack one of them or both, that are
/// exchanged or empty, and lists whose numbers have a byte in common with those.
pub const OFFERS: [[&[u16]; 2]; 22] = [
    [&[0], &[15]],
    [&[0, 0x8001], &[15, 17]],
    [&[0x8001, 0], &[17, 15]],
    [&[7, 0, 1], &[16, 15, 17]],
    [&[0, 0], &[15, 15]],
    [&[0, 7, 0], &[15, 17, 15, 15]],
    [&[15, 0], &[0, 15]],
    [&[1, 2, 3, 4, 5, 6, 7, 8, 9, 0], &[1, 2, 3, 4, 5, 6, 7, 8, 9, 15]],
    [&[], &[15]],
    [&[0], &[]],
    [&[], &[]],
    [&[], &[0, 15]],
    [&[0, 15], &[]],
    [&[15], &[0]],
    [&[0x8001], &[15]],
    [&[0], &[17]],
    [&[0x8001], &[17]],
    [&[7, 1], &[16, 15]],
    [&[0, 7], &[16, 17]],
    [&[0x0100], &[0x0F0F]],
    [&[0], &[0x0F00]],
    [&[0], &[0x800F]],
];
/// Replies to which each of them is offered: what stands before the end, an empty list and a missing one come before 17, a
/// missing cookie after it.
pub const ANSWERS: [&str; 13] = [
    "protocol algorithm cookie end",
    "algorithm-17 protocol-clear cookie end",
    "protocol algorithm end",
    "protocol algorithm cookie",
    "protocol algorithm cookie error end",
    "protocol warning algorithm cookie end",
    "critical protocol algorithm cookie end",
    "protocol algorithm authentication cookie end",
    "protocol algorithm protocol cookie end",
    "no-protocol algorithm cookie end",
    "protocol no-algorithm cookie end",
    "protocol cookie end",
    "algorithm cookie end",
];

const NINE_COOKIES: &str = "protocol algorithm cookie-empty cookie-empty cookie-empty cookie-empty cookie-empty \
    cookie-empty cookie-empty cookie-empty cookie-empty end";

/// Messages that are accepted or refused by the set of their records.
pub const MESSAGES: [&str; 116] = [
    // The least reply, its lists in other orders and with other bits, and what is not looked at.
    "",
    "end",
    "end-with-body",
    "protocol algorithm end",
    "protocol algorithm cookie end",
    "protocol algorithm cookie",
    "cookie algorithm protocol end",
    "algorithm-17 protocol-clear cookie end-with-body",
    "algorithm-16 cookie protocol end",
    "end protocol algorithm cookie end",
    "protocol algorithm cookie end critical",
    "protocol algorithm cookie end error",
    "protocol algorithm end cookie",
    // Cookies.
    "protocol algorithm cookie-empty end",
    "cookie protocol cookie-empty algorithm cookie end",
    "protocol algorithm cookie-cut",
    "protocol algorithm cookie-100 cookie-100 cookie-100 cookie-100 cookie-100 cookie-100 cookie-100 cookie-100 end",
    "cookie cookie cookie cookie protocol algorithm cookie cookie cookie cookie end",
    NINE_COOKIES,
    "cookie-1 cookie-2 cookie-3 cookie-4 cookie-5 cookie-6 protocol cookie-7 cookie-8 cookie-9 cookie-10 algorithm end",
    "protocol algorithm cookie cookie cookie cookie cookie cookie cookie cookie cookie error end",
    // Port, server and keep-alive.
    "protocol algorithm port cookie end",
    "protocol algorithm server cookie end",
    "protocol algorithm server port cookie end",
    "port-clear cookie server-empty algorithm protocol end",
    "protocol algorithm keep-alive cookie end",
    "keep-alive protocol algorithm keep-alive-with-body cookie keep-alive end",
    "protocol algorithm server port keep-alive cookie cookie end",
    "protocol algorithm server-broken cookie end",
    "protocol algorithm port-short cookie end",
    "protocol algorithm port-long cookie end",
    // Errors and warnings.
    "error end",
    "error",
    "error-largest end",
    "protocol algorithm cookie error end",
    "warning end",
    "protocol warning-clear algorithm cookie end",
    "error warning end",
    "warning error end",
    "critical error end",
    "error critical end",
    "error error-long end",
    // A body's fault comes before the record's meaning.
    "error-long end",
    "error-short",
    "warning-long end",
    "protocol protocol-odd algorithm cookie end",
    "protocol algorithm server server-broken cookie end",
    "protocol algorithm port port-short cookie end",
    "protocol algorithm port port-long cookie end",
    "protocol algorithm cookie name-broken end",
    "protocol algorithm cookie authentication-broken end",
    "protocol algorithm cookie keys-odd end",
    "protocol algorithm cookie want-algorithms-odd end",
    "protocol algorithm cookie critical-cut",
    // Unknown records.
    "unknown protocol algorithm cookie end",
    "protocol unknown-with-body algorithm unknown unknown cookie end",
    "critical protocol algorithm cookie end",
    "protocol critical-largest algorithm cookie end",
    "protocol algorithm cookie critical end",
    // A second record of a kind of which there is one, and lists of two.
    "protocol protocol algorithm cookie end",
    "protocol algorithm cookie protocol-clear end",
    "protocol no-protocol algorithm cookie end",
    "protocol protocols algorithm cookie end",
    "protocol algorithm algorithm-17 cookie end",
    "protocol algorithm no-algorithm cookie end",
    "server protocol algorithm server-empty cookie end",
    "server server",
    "port protocol algorithm port-clear cookie end",
    "port port",
    "protocols algorithm cookie end",
    "protocol algorithms cookie end",
    "protocols protocol algorithm cookie end",
    // Kinds that are not allowed.
    "want-protocols",
    "protocol algorithm cookie want-protocols-some end",
    "want-algorithms",
    "protocol algorithm cookie want-algorithms-some end",
    "keys-0",
    "protocol algorithm cookie keys-32 end",
    "name",
    "protocol algorithm cookie name-empty end",
    "authentication-empty",
    "authentication",
    "protocol algorithm cookie authentication end",
    "authentication error end",
    "error authentication end",
    "critical authentication",
    "authentication critical",
    // After the end.
    "cookie end",
    "algorithm cookie end",
    "protocol cookie end",
    "server port keep-alive end",
    "protocol end",
    "algorithm end",
    "no-protocol",
    "no-protocol end",
    "no-protocol algorithm cookie end",
    "no-protocol cookie end",
    "no-algorithm",
    "no-algorithm end",
    "no-algorithm cookie end",
    "protocol no-algorithm end",
    "protocol no-algorithm cookie end",
    "no-algorithm cookie protocol end",
    "no-protocol no-algorithm end",
    "no-algorithm no-protocol cookie end",
    // An empty list is a list: what stands behind it is told before it.
    "no-protocol protocol algorithm cookie end",
    "no-protocol no-protocol algorithm cookie end",
    "protocol no-algorithm algorithm cookie end",
    "no-algorithm no-algorithm",
    "no-protocol protocols",
    "no-protocol error end",
    "no-protocol warning end",
    "no-protocol critical",
    "no-algorithm authentication",
    "protocol no-algorithm server server",
    "protocol no-algorithm server-broken end",
];

pub fn replies(out: &mut impl Write) -> io::Result<()> {
    for names in MESSAGES {
        put(out, b'y', &asked(OFFER, &message(names)))?;
    }
    limits(out)?;
    rooms(out)?;
    offers(out)?;
    bad_cases(out)?;
    cut_names(out, b'l', &offered(OFFER), "8006")
}

/// A message with lists in front.
pub fn asked(offer: [&[u16]; 2], message: &[u8]) -> Vec<u8> {
    [&offered(offer)[..], message].concat()
}

/// Lists that hold what a reply names and that do not, and refusals that come before it and after it.
fn offers(out: &mut impl Write) -> io::Result<()> {
    for offer in OFFERS {
        for names in ANSWERS {
            put(out, b'y', &asked(offer, &message(names)))?;
        }
        for cells in [0, 1, 2] {
            put(out, b'l', &limited(65_535, cells, &asked(offer, &message(ANSWERS[0]))))?;
        }
    }
    let mut long: Vec<u16> = (1000..1255).collect();
    for number in [0, 15, 0] {
        put(out, b'y', &asked([&long, &[15]], &message(ANSWERS[0])))?;
        put(out, b'y', &asked([&[0], &long], &message(ANSWERS[0])))?;
        long[254] = number;
    }
    put(out, b'y', &asked([&long, &long], &message(ANSWERS[0])))?;
    for numbers in ["8001 0002 FFFF 8004 0002 FF00", "8001 0002 00FF 8004 0002 0001"] {
        let reply = [hex(numbers), message("cookie end")].concat();
        for offer in [[&[0xffff, 0xff][..], &[0xff00, 1][..]], [&[0xff00], &[0xff00]], [&[0xffff, 0xff], &[0x100]]] {
            put(out, b'y', &asked(offer, &reply))?;
        }
    }
    Ok(())
}

/// Payloads that end before the message begins, and those that end there.
fn bad_cases(out: &mut impl Write) -> io::Result<()> {
    for length in 0..=6 {
        put(out, b'y', &vec![0; length])?;
        put(out, b'l', &vec![0; length])?;
    }
    let lists = offered(OFFER);
    for length in 0..=lists.len() {
        put(out, b'y', &lists[..length])?;
        put(out, b'l', &limited(65_535, 8, &lists[..length]))?;
    }
    let long = offered([&[0; 255], &[15; 255]]);
    for length in [510, 511, 512, long.len() - 1, long.len()] {
        put(out, b'y', &long[..length])?;
    }
    put(out, b'l', &limited(65_535, 2049, &asked(OFFER, &message("protocol algorithm cookie end"))))
}

/// Limits around each record's end, and the largest.
fn limits(out: &mut impl Write) -> io::Result<()> {
    let reply = message("protocol algorithm server port cookie end-with-body");
    for limit in (0..=reply.len() + 2).chain([4096, 65_535]) {
        put(out, b'l', &limited(limit, 2, &asked(OFFER, &reply)))?;
    }
    for limit in 15..=17 {
        put(out, b'l', &limited(limit, 2, &asked(OFFER, &hex(M))))?;
    }
    Ok(())
}

/// Tables that hold the cookies and that do not, and refusals that come before it.
fn rooms(out: &mut impl Write) -> io::Result<()> {
    let two_cookies = message("protocol cookie algorithm cookie-empty end");
    for cells in [0, 1, 2, 3, 4, 5, 6, 2047, 2048, 2049, 65_535] {
        put(out, b'l', &limited(65_535, cells, &asked(OFFER, &two_cookies)))?;
    }
    for cells in 14..=20 {
        put(out, b'l', &limited(65_535, cells, &asked(OFFER, &message(NINE_COOKIES))))?;
    }
    for names in [
        "protocol algorithm end",
        "no-protocol algorithm cookie end",
        "protocol no-algorithm cookie end",
        "algorithm cookie end",
        "protocol cookie end",
        "protocol algorithm cookie error end",
        "protocol algorithm cookie authentication end",
        "protocol algorithm cookie critical end",
        "protocol algorithm cookie",
    ] {
        put(out, b'l', &limited(65_535, 0, &asked(OFFER, &message(names))))?;
        put(out, b'l', &limited(65_535, 1, &asked(OFFER, &message(names))))?;
    }
    Ok(())
}
