//! What a request's walk finds, and what is decided from a finding: ops v and V.

use std::io::{self, Write};

use super::hex;
use super::named::message;
use super::reading::M;
use super::requests::MESSAGES;
use crate::corpus::put;
use crate::generate::payloads::{Decide, walk};
use crate::generate::{UNKNOWN, record};
use crate::nts::findings::{Finding, NUMBERS};

/// What most cases are decided under.
const PLAIN: Decide = Decide { limit: 65_535, cells: 8, which: 0, value: 0 };

pub fn findings(out: &mut impl Write) -> io::Result<()> {
    walks(out)?;
    limits(out)?;
    rooms(out)?;
    numbers(out)?;
    reasons(out)?;
    other_bytes(out)?;
    first_bodies(out)?;
    one_number(out)?;
    bad_cases(out)
}

/// Messages that are stopped by each sort of record, walked, and every second one decided from its finding; and one with
/// every kind that a walk goes on from.
fn walks(out: &mut impl Write) -> io::Result<()> {
    for (turn, names) in MESSAGES.iter().enumerate() {
        let message = message(names);
        let limit = if turn % 2 == 0 { 65_535 } else { 4096 };
        put(out, b'v', &walk(limit, &message))?;
        if turn % 2 == 1 {
            put(out, b'V', &Decide { limit, ..PLAIN }.payload(&message, &message))?;
        }
    }
    let every = "unknown keep-alive port name server authentication keys-32 want-algorithms want-protocols protocol \
        algorithm name-empty port server unknown-with-body keep-alive";
    for last in ["", "end", "critical", "authentication", "keys-odd", "error", "warning", "cookie", "cookie-cut"] {
        put(out, b'v', &walk(65_535, &message(&format!("{every} {last}"))))?;
    }
    Ok(())
}

/// A message under each limit: walked, decided from its finding, and from the finding under the next limit and under one
/// that cuts nothing.
fn limits(out: &mut impl Write) -> io::Result<()> {
    let message = message("protocol unknown algorithm name end-with-body");
    for limit in (0..=message.len() + 1).chain([4096, 65_535]) {
        put(out, b'v', &walk(limit, &message))?;
        let decide = Decide { limit, ..PLAIN };
        put(out, b'V', &decide.payload(&message, &message))?;
        for value in [limit as u64 + 1, 4096] {
            put(out, b'V', &Decide { which: 1, value, ..decide }.payload(&message, &message))?;
        }
    }
    Ok(())
}

/// Tables that hold the names and that do not, and what else is decided after the end record; a finding that is none is
/// refused before that.
fn rooms(out: &mut impl Write) -> io::Result<()> {
    let two_names = message("protocol name algorithm name-empty end");
    for cells in [0, 1, 2, 3, 4, 5, 2048] {
        let decide = Decide { cells, ..PLAIN };
        put(out, b'V', &decide.payload(&two_names, &two_names))?;
        put(out, b'V', &Decide { which: 14, value: 1, ..decide }.payload(&two_names, &two_names))?;
    }
    for names in [
        "end",
        "keys-0 authentication protocol algorithm-16 end",
        "keys-31 authentication protocol algorithm end",
        "keys-32 authentication protocol algorithm end",
        "authentication want-protocols end",
    ] {
        let message = message(names);
        put(out, b'V', &PLAIN.payload(&message, &message))?;
        put(out, b'V', &Decide { which: 2, value: 2, ..PLAIN }.payload(&message, &message))?;
    }
    Ok(())
}

/// Every number of a finding, replaced by itself and by its neighbours.
fn numbers(out: &mut impl Write) -> io::Result<()> {
    for names in ["protocol algorithm name unknown end", "authentication want-protocols authentication end"] {
        let message = message(names);
        let finding = Finding::of(&message, 65_535);
        for which in 1..=NUMBERS.len() as u8 {
            let own = finding.number(which);
            for value in own.saturating_sub(1)..=own + 1 {
                put(out, b'V', &Decide { which, value, ..PLAIN }.payload(&message, &message))?;
            }
        }
    }
    Ok(())
}

/// A finding with each reason, replaced by each other.
fn reasons(out: &mut impl Write) -> io::Result<()> {
    for names in ["protocol algorithm end", "protocol", "protocol name-broken", "critical end", "error end"] {
        let message = message(names);
        for value in 0..=5 {
            put(out, b'V', &Decide { which: 18, value, ..PLAIN }.payload(&message, &message))?;
        }
    }
    Ok(())
}

/// The finding of other bytes: of some it is the message's too.
fn other_bytes(out: &mut impl Write) -> io::Result<()> {
    for (walked, names) in [
        // The same: bytes behind the end record or the one refused, contents, a known kind's bit, an unknown one's number.
        ("protocol algorithm end", "protocol algorithm end critical"),
        ("protocol algorithm end error", "protocol algorithm end"),
        ("critical protocol", "critical algorithm end"),
        ("protocol algorithm end", "protocol-clear algorithm-17 end"),
        ("protocol algorithm-16 authentication keys-32 end", "protocol algorithm authentication keys-32 end"),
        ("error end", "error-largest end"),
        ("protocol unknown-with-body critical-largest", "protocol unknown-with-body critical-largest end"),
        ("protocol algorithm name name-empty end", "protocol-clear algorithm name name-empty end protocol"),
        // Others: a record more or fewer, in another order, of another kind, of another size, cut.
        ("protocol algorithm end", "protocol algorithm unknown end"),
        ("protocol algorithm name name end", "protocol algorithm name end"),
        ("protocol algorithm", "protocol algorithm end"),
        ("protocol algorithm end", ""),
        ("", "protocol algorithm end"),
        ("", "end"),
        ("protocol algorithm end", "algorithm protocol end"),
        ("unknown keep-alive end", "keep-alive unknown end"),
        ("protocol algorithm name name-empty end", "protocol algorithm name-empty name end"),
        ("protocol algorithm server name end", "protocol algorithm name server end"),
        ("protocol algorithm name end", "protocol algorithm server end"),
        ("protocol algorithm name server name end", "protocol algorithm name server server end"),
        ("protocol algorithm end", "protocols algorithm end"),
        ("protocol algorithm end", "protocol algorithm end-with-body"),
        ("protocol unknown critical", "protocol unknown critical-largest"),
        ("protocol critical", "protocol error"),
        ("protocol protocol", "protocol no-protocol"),
        ("protocol protocol-odd", "protocol cookie-cut"),
        ("port-short", "port-long"),
    ] {
        put(out, b'V', &PLAIN.payload(&message(walked), &message(names)))?;
    }
    // A limit that cuts the bytes behind the end record, the message alone, or neither.
    let longer = message("protocol algorithm end unknown-with-body");
    for limit in 14..=18 {
        put(out, b'V', &Decide { limit, ..PLAIN }.payload(&hex(M), &longer))?;
        put(out, b'V', &Decide { limit, ..PLAIN }.payload(&longer, &hex(M)))?;
    }
    Ok(())
}

/// Bytes of which the findings differ in the first body of a kind alone: in where it begins, and in how long it is. A kind
/// that stops the walk has its place put right.
fn first_bodies(out: &mut impl Write) -> io::Result<()> {
    let sized = |kind: u16, size: usize| record(kind, size, &b"name"[..size]);
    for kind in (0..=15).filter(|&kind| kind != UNKNOWN) {
        let repeated = if kind == 8 { 13 } else { 8 };
        let [empty, four] = [0, 4].map(|size| sized(repeated, size));
        let is_number = matches!(kind, 2 | 3 | 7);
        let [short, long] = if is_number { [2, 2] } else { [0, 4] }.map(|size| sized(kind, size));
        let which = if matches!(kind, 0 | 2 | 3 | 5) { 17 } else { 0 };
        let walked = [&empty[..], &empty, &short, &four].concat();
        let message = [&empty[..], &four, &short, &empty].concat();
        put(out, b'V', &Decide { which, value: 12, ..PLAIN }.payload(&walked, &message))?;
        if !is_number {
            let walked = [&empty[..], &short, &four].concat();
            let message = [&empty[..], &long, &empty].concat();
            put(out, b'V', &PLAIN.payload(&walked, &message))?;
        }
    }
    Ok(())
}

/// Bytes of which the findings differ in one number alone, decided without and with that number in its place: a count, the
/// place, the reason.
fn one_number(out: &mut impl Write) -> io::Result<()> {
    for (which, value, walked, message) in [
        (14, 3, "000D0000 000D0005 4142434445 80000000", "000D0000 000D0001 41 000D0000 80000000"),
        (16, 2, "000B0000 000B0000 000B0000 80020002 0001", "000B0000 000B0004 41424344 80020002 0001"),
        (17, 9, "00060000 00060000", "00060000 00060001 41"),
        (17, 12, "80010000 00080000 00080002 4142 80010000", "80010000 00080000 00080000 80010000"),
        (18, 2, "8006000241", "80060002C3"),
        (18, 1, "80070003 0000", "80070003 00"),
    ] {
        for decide in [PLAIN, Decide { which, value, ..PLAIN }, Decide { which, value: value + 1, ..PLAIN }] {
            put(out, b'V', &decide.payload(&hex(walked), &hex(message)))?;
        }
    }
    Ok(())
}

/// Payloads that do not fit, and the largest values that do.
fn bad_cases(out: &mut impl Write) -> io::Result<()> {
    let message = hex(M);
    for length in 0..=4 {
        put(out, b'v', &walk(0, &[])[..length])?;
    }
    let good = PLAIN.payload(&message, &message);
    for length in (0..=17).chain([18, 32, 33, 34]) {
        put(out, b'V', &good[..length])?;
    }
    for limit in [65_536, 0x0001_0010, 0xffff_ffff] {
        put(out, b'v', &walk(limit, &message))?;
        put(out, b'V', &Decide { limit, ..PLAIN }.payload(&message, &message))?;
    }
    for cells in [2048, 2049, 65_535] {
        put(out, b'V', &Decide { cells, ..PLAIN }.payload(&message, &message))?;
    }
    for (which, value) in [
        (0, u64::MAX),
        (1, 65_535),
        (1, 65_536),
        (2, 65_535),
        (2, 65_536),
        (16, u64::MAX),
        (17, 12 + (1 << 16)),
        (17, 12 + (1 << 32)),
        (17, u64::MAX),
        (18, 256),
        (19, 0),
        (255, 0),
    ] {
        put(out, b'V', &Decide { which, value, ..PLAIN }.payload(&message, &message))?;
    }
    Ok(())
}
