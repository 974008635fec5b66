//! Writing whole messages with the crate's own types: the key-exchange request, and the replies that need no plan. Refusals
//! 9 and 10 are document 01's, and what a length is refused with: as writing is, but for 10.

use super::messages::{ErrorResponse, NoOverlapResponse, Request, SupportsResponse};
use super::plans::NOT_UTF8;
use super::trays::{NAME, Tray};
use super::writing::{self, NO_VALUE, by_the_crate, name, pairs};
use super::{AeadAlgorithm, NextProtocol, lines};
use crate::payload::Payload;

/// Op n: the replies no-protocol, no-algorithm, error and support. The last alone has a length that is asked for.
pub fn reply(line: &mut Vec<u8>, payload: &[u8]) -> Option<()> {
    let mut payload = Payload(payload);
    let room = payload.room()?;
    let sort = payload.byte()?;
    let bytes = match sort {
        0 => no_overlap(NoOverlapResponse::NoOverlappingProtocol),
        1 => no_overlap(NoOverlapResponse::NoOverlappingAlgorithm { protocol: payload.number()?.into() }),
        2 => error(ErrorResponse { errorcode: payload.number()?.into() }),
        3 => support(&mut payload)?,
        _ => return None,
    };
    payload.end()?;
    if sort == 3 {
        measured(line, length(&bytes));
    }
    writing::tell(line, bytes, room);
    Some(())
}

/// Op k: the key-exchange request.
pub fn request(line: &mut Vec<u8>, payload: &[u8]) -> Option<()> {
    let mut payload = Payload(payload);
    let protocols: Vec<NextProtocol> = payload.numbers()?;
    let algorithms: Vec<AeadAlgorithm> = payload.numbers()?;
    let room = payload.room()?;
    let bytes = names(&Tray::of(payload)?).map_err(|_| NO_VALUE).and_then(|names| {
        let request = Request::KeyExchange {
            algorithms: algorithms.into(),
            protocols: protocols.into(),
            denied_servers: names.into_iter().map(Into::into).collect(),
        };
        by_the_crate(async |out| request.serialize(out).await)
    });
    measured(line, length(&bytes));
    writing::tell(line, bytes, room);
    Some(())
}

/// The beginning of a line: `length N` or `length refused N`, and a blank.
pub fn measured(line: &mut Vec<u8>, length: Result<usize, u8>) {
    lines::text(line, "length ");
    match length {
        Ok(length) => lines::number(line, length as u64),
        Err(refusal) => lines::refused(line, refusal),
    }
    line.push(b' ');
}

fn length(bytes: &Result<Vec<u8>, u8>) -> Result<usize, u8> {
    bytes.as_ref().map(Vec::len).map_err(|&refusal| refusal)
}

fn no_overlap(response: NoOverlapResponse) -> Result<Vec<u8>, u8> {
    by_the_crate(async |out| response.serialize(out).await)
}

fn error(response: ErrorResponse) -> Result<Vec<u8>, u8> {
    by_the_crate(async |out| response.serialize(out).await)
}

/// The support reply that the rest of a payload describes, or within it the refusal. The pairs are judged whether they are
/// asked for or not.
fn support(payload: &mut Payload) -> Option<Result<Vec<u8>, u8>> {
    let [algorithms, protocols, keep_alive] = payload.flags()?;
    let pairs = pairs(payload.cells()?);
    let numbers: Vec<NextProtocol> = payload.numbers()?;
    Some(pairs.ok_or(NO_VALUE).and_then(|pairs| {
        let response = SupportsResponse {
            algorithms: algorithms.then(|| pairs.into()),
            protocols: protocols.then(|| numbers.into()),
            keep_alive,
        };
        by_the_crate(async |out| response.serialize(out).await)
    }))
}

/// The names of a tray, or what is wrong with it.
fn names<'a>(tray: &Tray<'a>) -> Result<Vec<&'a str>, &'static str> {
    tray.bodies(NAME)?.into_iter().map(|body| name(body).ok_or(NOT_UTF8)).collect()
}

/// How many names the tray of a case of op k holds, or what is wrong with it.
pub fn names_of(payload: &[u8]) -> Option<Result<usize, &'static str>> {
    let mut payload = Payload(payload);
    payload.cells()?;
    payload.cells()?;
    payload.room()?;
    Some(names(&Tray::of(payload)?).map(|names| names.len()))
}
