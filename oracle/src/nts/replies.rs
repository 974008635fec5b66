//! Reading a reply with the crate's `KeyExchangeResponse::parse`: as it stands, and in the copy in which five edits make it
//! document 01's as order 3 corrects it. The copy's line is the answer. Where none of the five differences applies to the
//! message and the lists, the line of the reader as it stands must be the same.

use tokio::io::AsyncRead;

use super::NtsError;
use super::feeding::{self, Fed, Feed, NO_LIMIT};
use super::lines;
use super::offered::Offered;
use super::pieces;
use super::reading;
use super::whole::{self, Accepted, Answer, Refused, at_once};
use crate::corpus::{CELLS, CRATES_LIMIT};
use crate::generate::{CRITICAL, is_known, kind, word};

/// The five differences.
pub const EMPTY_LIST: &str = "an empty list";
pub const AUTHENTICATION: &str = "kind 14";
pub const NOT_OFFERED: &str = "a number that was not offered";
pub const NO_COOKIE: &str = "no cookie";
pub const MANY_COOKIES: &str = "more than eight cookies";

/// Op y: the crate's own file cuts the message.
pub fn under_the_crates_limit(line: &mut Vec<u8>, payload: &[u8]) -> Option<()> {
    let (offered, message) = Offered::before(payload)?;
    tell(line, at_once(message, verbatim), whole::cut(message, CRATES_LIMIT), CELLS, &offered);
    Some(())
}

/// Op l: the reader as it stands is that of the crate's own file where that would not cut the message again, otherwise that
/// of the copy with no other edit than its limit.
pub fn under_a_limit(line: &mut Vec<u8>, payload: &[u8]) -> Option<()> {
    let (limit, cells, payload) = whole::limited(payload)?;
    let (offered, message) = Offered::before(payload)?;
    let message = whole::cut(message, limit);
    tell(line, read_cut(message), message, cells, &offered);
    Some(())
}

fn read_cut(message: &[u8]) -> Answer {
    if message.len() <= CRATES_LIMIT { at_once(message, verbatim) } else { at_once(message, raised) }
}

/// What the reader as it stands reads of bytes that are all there. Under its own limit the crate's own file cuts them.
pub fn read(bytes: &[u8], limit: usize) -> Answer {
    if limit == CRATES_LIMIT { at_once(bytes, verbatim) } else { read_cut(whole::cut(bytes, limit)) }
}

/// What the edited reader reads of them.
pub fn read_by_the_copy(bytes: &[u8], limit: usize, offered: &Offered) -> Answer {
    at_once(whole::cut(bytes, limit), async |bytes| edited(bytes, offered).await)
}

/// What the reader as it stands reads of bytes as they arrive: that of the crate's own file under its own limit and under
/// those below, otherwise that of the copy with no other edit than its limit.
pub fn fed(feed: &Feed) -> Fed {
    match feed.limit {
        CRATES_LIMIT => feeding::fed(feed, NO_LIMIT, verbatim),
        limit if limit < CRATES_LIMIT => feeding::fed(feed, limit as u64, verbatim),
        limit => feeding::fed(feed, limit as u64, raised),
    }
}

/// What the edited reader reads of them.
pub fn fed_to_the_copy(feed: &Feed, offered: &Offered) -> Fed {
    feeding::fed(feed, feed.limit as u64, async |bytes| edited(bytes, offered).await)
}

/// Reads a message with one of the three files; their types are apart. The edited one is told of the lists.
macro_rules! reader {
    ($name:ident, $file:ident $(, $offered:ident)?) => {
        async fn $name<R: AsyncRead + Unpin>(bytes: &mut R $(, $offered: &Offered)?) -> Result<Accepted, Refused> {
            let reply = super::$file::KeyExchangeResponse::parse(bytes $(, $offered)?).await.map_err(refused)?;
            let mut line = Vec::new();
            lines::text(&mut line, "reply protocol ");
            lines::number(&mut line, u16::from(reply.protocol));
            lines::text(&mut line, " algorithm ");
            lines::number(&mut line, u16::from(reply.algorithm));
            lines::text(&mut line, " server ");
            match &reply.server {
                Some(name) => lines::bytes(&mut line, name.as_bytes()),
                None => line.push(b'-'),
            }
            lines::text(&mut line, " port ");
            match reply.port {
                Some(port) => lines::number(&mut line, port),
                None => line.push(b'-'),
            }
            lines::text(&mut line, " keep-alive ");
            lines::number(&mut line, reply.keep_alive);
            lines::text(&mut line, " cookies ");
            lines::number(&mut line, reply.cookies.len() as u64);
            line.push(b' ');
            for cookie in reply.cookies.iter() {
                lines::bytes(&mut line, cookie);
            }
            Ok(Accepted { line, entries: reply.cookies.len() })
        }
    };
}

reader!(verbatim, messages);
reader!(raised, messages_raised);
reader!(edited, messages_edited, offered);

/// No reader of replies has another use for the error by which the edited one tells a number that was not offered.
fn refused(error: NtsError) -> Refused {
    match error {
        NtsError::AeadNotSupported(number) => Refused::NotOffered(number),
        error => error.into(),
    }
}

/// Writes the edited reader's line for a cut message, and beside it that of the reader as it stands where they must be the
/// same and are not.
fn tell(line: &mut Vec<u8>, as_it_stands: Answer, message: &[u8], cells: usize, offered: &Offered) {
    whole::tell(line, read_by_the_copy(message, message.len(), offered), message, cells);
    if difference(message, offered).is_none() {
        let mut crates = Vec::new();
        whole::tell(&mut crates, as_it_stands, message, cells);
        lines::judged(line, &crates, "the copy with five edits");
    }
}

/// A whole reply to which a difference applies.
pub struct Apart<'a> {
    pub difference: &'static str,
    pub lists: &'a [u8],
    pub message: &'a [u8],
    /// The line of the reader as it stands, and the edited one's.
    pub lines: [Vec<u8>; 2],
}

/// A case of ops y and l to which a difference applies; none for another.
pub fn apart(op: u8, payload: &[u8]) -> Option<Apart<'_>> {
    let (limit, cells, rest) = match op {
        b'y' => (CRATES_LIMIT, CELLS, payload),
        b'l' => whole::limited(payload)?,
        _ => return None,
    };
    let (offered, message) = Offered::before(rest)?;
    let lists = &rest[..rest.len() - message.len()];
    let message = whole::cut(message, limit);
    let difference = difference(message, &offered)?;
    let lines = [read_cut(message), read_by_the_copy(message, limit, &offered)].map(|answer| {
        let mut line = Vec::new();
        whole::tell(&mut line, answer, message, cells);
        line
    });
    Some(Apart { difference, lists, message, lines })
}

/// What a case of replies is compared with, for what counts the outcomes.
pub struct Compared {
    /// The difference that applies.
    pub difference: Option<&'static str>,
    /// How the lists hold the reply's protocol and, where that was offered, its algorithm; none where that is not asked.
    pub offered: Option<(&'static str, Option<&'static str>)>,
}

/// What a case is compared with; none for one that is no case of replies.
pub fn compared(op: u8, payload: &[u8]) -> Option<Compared> {
    let of = |message: &[u8], offered: &Offered| {
        let numbers = walk(message).ok().map(|Named { protocol, algorithm, .. }| offered.how(protocol, algorithm));
        Some(Compared { difference: difference(message, offered), offered: numbers })
    };
    match op {
        b'y' => {
            let (offered, message) = Offered::before(payload)?;
            of(whole::cut(message, CRATES_LIMIT), &offered)
        }
        b'l' => {
            let (limit, _, payload) = whole::limited(payload)?;
            let (offered, message) = Offered::before(payload)?;
            of(whole::cut(message, limit), &offered)
        }
        b'F' => {
            let (offered, feed) = pieces::asked(payload)?;
            of(feed.message(), &offered)
        }
        _ => None,
    }
}

/// The first of the five differences that applies to a cut message and the lists.
pub fn difference(message: &[u8], offered: &Offered) -> Option<&'static str> {
    match walk(message) {
        Ok(Named { protocol, algorithm, .. }) if !offered.holds(protocol, algorithm) => Some(NOT_OFFERED),
        Ok(Named { cookies: 0, .. }) => Some(NO_COOKIE),
        Ok(Named { cookies, .. }) if cookies > super::DEFAULT_NUMBER_OF_COOKIES => Some(MANY_COOKIES),
        Ok(_) => None,
        Err(difference) => difference,
    }
}

/// What a reply names that has an end record and one number in each list.
struct Named {
    protocol: u16,
    algorithm: u16,
    cookies: usize,
}

/// What a cut message names. Otherwise the difference that applies to it, if one does: whatever was offered. It is a walk of
/// its own, with the crate's record reader, up to where one of the two readers stops.
fn walk(message: &[u8]) -> Result<Named, Option<&'static str>> {
    let mut rest = message;
    let mut counts = [0; 9];
    let mut numbers = [0; 5];
    loop {
        let (_, size) = reading::record(rest).map_err(|_| None)?;
        let (record, behind) = rest.split_at(size);
        rest = behind;
        match (kind(record), &record[4..]) {
            (0, _) if counts[1] + counts[4] < 2 => return Err(None),
            (0, _) => return Ok(Named { protocol: numbers[1], algorithm: numbers[4], cookies: counts[5] }),
            (kind @ (1 | 4 | 6 | 7), _) if counts[usize::from(kind)] > 0 => return Err(None),
            (1 | 4, []) => return Err(Some(EMPTY_LIST)),
            (14, _) => return Err(Some(AUTHENTICATION)),
            (kind @ (1 | 4), &[high, low]) => {
                counts[usize::from(kind)] += 1;
                numbers[usize::from(kind)] = u16::from_be_bytes([high, low]);
            }
            (kind @ 5..=8, _) => counts[usize::from(kind)] += 1,
            (kind, _) if !is_known(kind) && word(record) & CRITICAL == 0 => {}
            // An error, a warning, a longer list, another kind that is not allowed, an unknown one with its bit set.
            _ => return Err(None),
        }
    }
}
